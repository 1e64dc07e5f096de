//! This crate and upstream's on the same texts and the same directories.

use cabbagelute::{DiscoverError, LexError, ParseError, PkgConfig, PkgConfigEnv, discover, raw};
use oracle::generators::{GENERATORS, Scale};
use oracle::{Answer, Records};
use std::error::Error;
use std::path::{Path, PathBuf};

/// What a reading gives, with every field and every error by its variant and its text.
fn shown<T: std::fmt::Debug, E: Error>(result: Result<T, E>) -> String {
    match result {
        Ok(config) => format!("{config:?}"),
        Err(error) => format!("{error:?}: {error} ({:?})", error.source().map(ToString::to_string)),
    }
}

fn both(text: &str) -> [String; 2] {
    [shown(PkgConfig::parse(text)), shown(cuddld_pkg_config::PkgConfig::parse(text))]
}

#[test]
fn all_texts_are_read_alike() {
    let (mut texts, mut accepted) = (0, 0);
    for generator in GENERATORS.iter().filter(|generator| !["limit", "document"].contains(&generator.name)) {
        generator.each(Scale::Small, &mut |text| {
            let Ok(text) = std::str::from_utf8(text) else {
                return;
            };
            let [here, upstream] = both(text);
            assert!(here == upstream, "{text:?}\nhere     {here}\nupstream {upstream}");
            texts += 1;
            accepted += u64::from(here.starts_with("PkgConfig"));
        });
    }
    assert!(texts > 600_000 && accepted > 100_000, "{texts} texts, {accepted} accepted");
}

#[test]
fn the_cases_of_the_document_are_read_alike() {
    for case in oracle::document::CASES {
        let [here, upstream] = both(case.text);
        assert_eq!(here, upstream, "{:?}", case.text);
    }
}

/// Ten times as much output as there was room for at first.
#[test]
fn the_output_grows() {
    let text = format!("a={}\nName: {}\n", "0123456789".repeat(100), "${a}".repeat(2_000));
    let config = PkgConfig::parse(&text).unwrap();
    assert_eq!(config.name.as_ref().map(String::len), Some(2_000_000));
    assert!(format!("{config:?}") == format!("{:?}", cuddld_pkg_config::PkgConfig::parse(&text).unwrap()));
}

#[test]
fn a_text_over_the_limit_has_an_error_of_its_own() {
    let text = "#".repeat(65_536);
    assert!(PkgConfig::parse(&text[1..]).is_ok());
    let error = PkgConfig::parse(&text).unwrap_err();
    assert_eq!(error, ParseError::TextTooLong(65_536));
    assert_eq!(error.to_string(), "text of 65536 bytes is too long (at most 65535)");
    // Whatever else is wrong with it.
    assert_eq!(PkgConfig::parse(&"${".repeat(40_000)), Err(ParseError::TextTooLong(80_000)));
}

#[test]
fn a_small_stack_is_enough() {
    let text = format!("Libs: {}", "a ".repeat(30_000));
    let reading = std::thread::Builder::new().stack_size(32 * 1024).spawn(move || PkgConfig::parse(&text));
    let config = reading.unwrap().join().unwrap().unwrap();
    assert_eq!(config.libs.map(|libs| libs.len()), Some(30_000));
}

#[test]
fn errors_are_errors_with_upstream_s_conversion() {
    let error: Box<dyn Error + Send + Sync> = Box::new(ParseError::from(LexError::InvalidVariableChar('é')));
    assert_eq!(error.to_string(), "invalid char in variable name: é");
    assert!(error.source().is_none());
}

/// The numbers, details and records themselves, with and without a lent workspace.
#[test]
fn the_raw_calls_say_what_the_oracle_says() {
    for case in oracle::document::CASES {
        let text = case.text.as_bytes();
        let mut pool = vec![0; text.len()];
        let mut output = vec![0; 4_096];
        let mut workspace = vec![0; raw::workspace_entries(text.len())];
        let own = raw::outcome(text, &mut pool, &mut output);
        let lent = raw::outcome_in(text, &mut workspace, &mut pool, &mut output);
        assert_eq!(own, lent);
        match oracle::answer(text) {
            Answer::Accepted(Records::Exact(records)) => {
                let written = &output[..records.len()];
                assert_eq!((lent.number, lent.detail.value), (0, records.len() as u64));
                assert_eq!(written, records);
                let mut walk = raw::records(written);
                let walked: usize = walk.by_ref().map(|record| 6 + record.payload.len()).sum();
                assert!(walked == records.len() && walk.rest().is_empty());
            }
            Answer::Accepted(Records::Long(_)) => panic!("no case of the document is so long"),
            Answer::Refused(refusal) => {
                assert_eq!(lent.number, u32::from(refusal.number));
                assert_eq!(lent.detail.value, u64::from(refusal.value));
                assert_eq!(lent.detail.first.of(&pool), Some(refusal.first.as_slice()));
                assert_eq!(lent.detail.second.of(&pool), Some(refusal.second.as_slice()));
            }
        }
    }
}

/// A directory that is gone after the test.
struct Scratch(PathBuf);

impl Scratch {
    fn new(name: &str) -> Self {
        let path = std::env::temp_dir().join(format!("cabbagelute-{}-{name}", std::process::id()));
        std::fs::create_dir_all(&path).unwrap();
        Scratch(path)
    }

    fn file(&self, name: impl AsRef<Path>) {
        std::fs::write(self.0.join(name), "").unwrap();
    }

    fn directory(&self, name: &str) -> String {
        let path = self.0.join(name);
        std::fs::create_dir_all(&path).unwrap();
        path.to_str().unwrap().to_owned()
    }
}

impl Drop for Scratch {
    fn drop(&mut self) {
        // What is left of a scratch directory does no harm.
        let _ = std::fs::remove_dir_all(&self.0);
    }
}

/// What both crates find.
fn found(path: Option<&str>, for_target: Option<&str>) -> [String; 2] {
    let [path, for_target] = [path, for_target].map(|value| value.map(str::to_owned));
    let here = PkgConfigEnv { pkg_config_path: path.clone(), pkg_config_path_for_target: for_target.clone() };
    let upstream =
        cuddld_pkg_config::PkgConfigEnv { pkg_config_path: path, pkg_config_path_for_target: for_target };
    [shown(discover(&here)), shown(cuddld_pkg_config::discover(&upstream))]
}

#[test]
fn files_are_found_alike() {
    let scratch = Scratch::new("found");
    let (first, second) = (scratch.directory("first"), scratch.directory("second"));
    let directory_named_like_a_file = scratch.directory("first/c.pc");
    for file in ["first/a.pc", "first/b.txt", "second/a.pc", "second/d.pc", "second/.pc", "second/e.pc.pc"] {
        scratch.file(file);
    }
    let missing = format!("{first}/missing");
    let not_a_directory = format!("{first}/a.pc");
    let several = format!("{missing}:{first}:{second}");
    let cases = [
        (None, None),
        (Some(first.as_str()), None),
        (None, Some(second.as_str())),
        (Some(second.as_str()), Some(first.as_str())),
        (Some(several.as_str()), Some(directory_named_like_a_file.as_str())),
        (Some(not_a_directory.as_str()), None),
        (Some(""), None),
    ];
    for (path, for_target) in cases {
        let [here, upstream] = found(path, for_target);
        assert_eq!(here, upstream);
    }
    let [here, _] = found(Some(&several), None);
    let expected = format!(
        "{{\"\": \"{second}/.pc\", \"a\": \"{first}/a.pc\", \"d\": \"{second}/d.pc\", \"e.pc\": \"{second}/e.pc.pc\"}}"
    );
    assert_eq!(here, expected);
    let [here, _] = found(Some(&not_a_directory), None);
    assert!(here.contains(&format!("failed to list directory \"{not_a_directory}\"")), "{here}");
}

#[cfg(unix)]
#[test]
fn a_file_name_that_is_not_utf8_is_refused_alike() {
    use std::ffi::OsStr;
    use std::os::unix::ffi::OsStrExt;
    let scratch = Scratch::new("names");
    scratch.file(OsStr::from_bytes(b"a\xff.pc"));
    let directory = scratch.directory("");
    let [here, upstream] = found(Some(&directory), None);
    assert_eq!(here, upstream);
    assert!(here.contains("is not UTF-8"), "{here}");
}

#[test]
fn the_other_errors_have_upstream_s_texts() {
    let cause = || std::io::Error::other("cause");
    let pairs = [
        (
            shown(Err::<(), _>(DiscoverError::NotUtf8Env("PKG_CONFIG_PATH"))),
            shown(Err::<(), _>(cuddld_pkg_config::DiscoverError::NotUtf8Env("PKG_CONFIG_PATH"))),
        ),
        (
            shown(Err::<(), _>(DiscoverError::ReadMetadata("a".into(), cause()))),
            shown(Err::<(), _>(cuddld_pkg_config::DiscoverError::ReadMetadata("a".into(), cause()))),
        ),
    ];
    for (here, upstream) in pairs {
        assert_eq!(here, upstream);
    }
}

/// Shows what both crates take from the environment.
#[test]
#[ignore = "the next test runs it, with environments of its own"]
fn environment() {
    let here = PkgConfigEnv::from_env();
    let upstream = cuddld_pkg_config::PkgConfigEnv::from_env();
    let here = shown(here.map(|env| [env.pkg_config_path, env.pkg_config_path_for_target]));
    let upstream = shown(upstream.map(|env| [env.pkg_config_path, env.pkg_config_path_for_target]));
    assert_eq!(here, upstream);
    println!("<{here}>");
}

#[cfg(unix)]
#[test]
fn the_environment_is_read_alike() {
    use std::ffi::OsStr;
    use std::os::unix::ffi::OsStrExt;
    let in_environment = |path: Option<&[u8]>, for_target: Option<&[u8]>| {
        let this = std::env::current_exe().unwrap();
        // On an Arm machine the tests run under an emulator: see setup-x86-64.
        let mut child = match std::env::var_os("CARGO_TARGET_X86_64_UNKNOWN_LINUX_GNU_RUNNER") {
            Some(runner) => {
                let mut child = std::process::Command::new(runner);
                child.arg(this);
                child
            }
            None => std::process::Command::new(this),
        };
        child.args(["--ignored", "--exact", "environment", "--nocapture"]);
        for (name, value) in [("PKG_CONFIG_PATH", path), ("PKG_CONFIG_PATH_FOR_TARGET", for_target)] {
            match value {
                Some(value) => child.env(name, OsStr::from_bytes(value)),
                None => child.env_remove(name),
            };
        }
        let output = child.output().unwrap();
        let said = String::from_utf8(output.stdout).unwrap();
        assert!(output.status.success(), "{said}");
        let (_, rest) = said.split_once('<').unwrap();
        rest.split_once('>').unwrap().0.to_owned()
    };
    assert_eq!(in_environment(None, None), "[None, None]");
    assert_eq!(in_environment(Some(b"/a:/b"), Some(b"")), r#"[Some("/a:/b"), Some("")]"#);
    let refused = in_environment(Some(b"/a"), Some(b"/\xff"));
    assert!(refused.contains("environment variable PKG_CONFIG_PATH_FOR_TARGET is not UTF-8"), "{refused}");
}
