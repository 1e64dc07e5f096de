//! Puts known faults, one at a time, into a copy of the Rust side, and shows which generators find each, and whether the fixed
//! list does.
//!
//! Usage: `planted-faults [NAME ..]`, without names for all. It says what it found, and fails if a fault was
//! found by no generator or not by the fixed list.

mod faults;

use faults::{FAULTS, Fault};
use oracle::generators::{GENERATORS, Scale, by_name};
use oracle::list;
use std::io::Read;
use std::path::{Path, PathBuf};
use std::process::{Command, ExitCode, Stdio};

/// The copy's workspace: like the real one, with the oracle's three crates alone.
const MANIFEST: &str = r#"[workspace]
resolver = "3"
members = ["oracle", "oracle/cuddld_macros", "oracle/cuddld_pkg_config"]

[workspace.package]
edition = "2024"
rust-version = "1.85"
publish = false

[workspace.lints.rust]

[profile.dev]
opt-level = 2
debug = false
"#;

/// What is copied from `oracle/`.
const COPIED: [&str; 6] = ["Cargo.toml", "src", "files", "answers", "cuddld_macros", "cuddld_pkg_config"];

/// Values around the limit have tens of megabytes. Kept by the allocator instead of handed back to the system, they
/// cost a third of the time.
const KEEP_MEMORY: &str = "glibc.malloc.arena_max=1:glibc.malloc.mmap_threshold=1073741824:\
    glibc.malloc.trim_threshold=4294967296:glibc.malloc.top_pad=268435456";

fn main() -> ExitCode {
    let host = Path::new(env!("CARGO_MANIFEST_DIR")).parent().expect("the workspace");
    let copy = host.join("target/planted-faults");
    let asked: Vec<String> = std::env::args().skip(1).collect();
    let faults: Vec<&Fault> = FAULTS
        .iter()
        .filter(|fault| asked.is_empty() || asked.iter().any(|name| name == fault.name))
        .collect();
    assert!(!faults.is_empty(), "no such fault");

    let families: Vec<Family> = families();

    // Without a fault, the copy must agree everywhere.
    fresh_copy(host, &copy);
    build(&copy).expect("the copy without a fault builds");
    for family in &families {
        assert!(first_difference(&copy, family).is_none(), "the copy without a fault differs");
    }
    println!("no fault: no difference");

    let mut missed = 0;
    for fault in &faults {
        fresh_copy(host, &copy);
        plant(&copy, fault);
        if let Err(output) = build(&copy) {
            panic!("{} does not build:\n{output}", fault.name);
        }
        let mut found = Vec::new();
        let mut smallest: Option<Vec<u8>> = None;
        for family in &families {
            // `limit` takes longer than all others together: it is asked where nothing but the document's cases helped.
            if family.name == "limit" && found.iter().any(|name| *name != "document") {
                continue;
            }
            if let Some(index) = first_difference(&copy, family) {
                found.push(family.name);
                let text = family.text_at(index);
                if smallest.as_ref().is_none_or(|known| text.len() < known.len()) {
                    smallest = Some(text);
                }
            }
        }
        let in_list = found.contains(&FIXED_LIST);
        found.retain(|name| *name != FIXED_LIST);
        let list = if in_list { "in the list" } else { "NOT FOUND by the list" };
        let generators =
            if found.is_empty() { "NOT FOUND by generators".to_owned() } else { found.join(", ") };
        if found.is_empty() || !in_list {
            missed += 1;
        }
        let text = smallest.unwrap_or_default();
        let start = text.len().saturating_sub(60);
        let cut = if start == 0 { "" } else { ".." };
        let text = text[start..].escape_ascii();
        println!("{} | {} | {generators} | {list} | {cut}`{text}`", fault.name, fault.about);
    }
    println!("{} faults, {} found, {missed} not found", faults.len(), faults.len() - missed);
    if missed == 0 { ExitCode::SUCCESS } else { ExitCode::FAILURE }
}

const ANSWERS: &[u8] = include_bytes!("../../../answers/answers.bin");

/// The name under which the fixed list stands beside the generators.
const FIXED_LIST: &str = "fixed-list";

/// A generator or the fixed list, with the marks of the sound answers.
struct Family {
    name: &'static str,
    marks: Vec<u64>,
}

fn families() -> Vec<Family> {
    let names = GENERATORS.iter().map(|generator| generator.name).chain([FIXED_LIST]);
    names.map(|name| Family { name, marks: sound_marks(name) }).collect()
}

fn sound_marks(name: &str) -> Vec<u64> {
    let mut marks = Vec::new();
    each_text(name, &mut |text| marks.push(oracle::answer(text).mark()));
    marks
}

fn each_text(name: &str, sink: &mut dyn FnMut(&[u8])) {
    match by_name(name) {
        Some(generator) => generator.each(Scale::Small, sink),
        None => list::texts(ANSWERS).into_iter().for_each(sink),
    }
}

impl Family {
    fn text_at(&self, index: usize) -> Vec<u8> {
        let mut found = Vec::new();
        let mut at = 0;
        each_text(self.name, &mut |text| {
            if at == index {
                found = text.to_vec();
            }
            at += 1;
        });
        found
    }
}

/// Makes the copy new. What was built before stays, so that only changed files are built again.
fn fresh_copy(host: &Path, copy: &Path) {
    write_if_new(&copy.join("Cargo.toml"), MANIFEST.as_bytes());
    copy_tree(&host.join(".cargo"), &copy.join(".cargo"));
    for part in COPIED {
        copy_tree(&host.join("oracle").join(part), &copy.join("oracle").join(part));
    }
}

fn copy_tree(from: &Path, to: &Path) {
    if from.is_dir() {
        for entry in std::fs::read_dir(from).expect("a readable directory") {
            let entry = entry.expect("a readable directory");
            copy_tree(&entry.path(), &to.join(entry.file_name()));
        }
    } else {
        write_if_new(to, &std::fs::read(from).expect("a readable file"));
    }
}

fn write_if_new(path: &Path, contents: &[u8]) {
    if std::fs::read(path).is_ok_and(|there| there == contents) {
        return;
    }
    std::fs::create_dir_all(path.parent().expect("a directory")).expect("a writable directory");
    std::fs::write(path, contents).expect("a writable file");
}

/// Makes a fault's changes. Each must fit in exactly one place.
fn plant(copy: &Path, fault: &Fault) {
    for change in fault.changes {
        let path: PathBuf = copy.join("oracle").join(change.file);
        let text = std::fs::read_to_string(&path).expect("a file of the copy");
        let fits = text.matches(change.from).count();
        assert_eq!(fits, 1, "{}: {:?} is there {fits} times", fault.name, change.from);
        std::fs::write(&path, text.replacen(change.from, change.to, 1)).expect("a writable file");
    }
}

fn build(copy: &Path) -> Result<(), String> {
    let cargo = std::env::var("CARGO").unwrap_or_else(|_| "cargo".to_owned());
    let output = Command::new(cargo)
        .args(["build", "--quiet", "--offline", "--package", "oracle", "--bin", "answer-marks"])
        .arg("--target-dir")
        .arg(copy.join("target"))
        .current_dir(copy)
        .output()
        .expect("cargo runs");
    if output.status.success() { Ok(()) } else { Err(String::from_utf8_lossy(&output.stderr).into_owned()) }
}

/// The built program: directly under the target directory, or under the target's name where one is asked for.
fn program(copy: &Path) -> Command {
    let target = copy.join("target");
    match std::env::var("CARGO_BUILD_TARGET") {
        Ok(name) => {
            let runner = format!("CARGO_TARGET_{}_RUNNER", name.to_uppercase().replace('-', "_"));
            let program = target.join(name).join("debug/answer-marks");
            match std::env::var(runner) {
                Ok(runner) => {
                    let mut command = Command::new(runner);
                    command.arg(program);
                    command
                }
                Err(_) => Command::new(program),
            }
        }
        Err(_) => Command::new(target.join("debug/answer-marks")),
    }
}

/// The place of the first text that the copy answers in another way, or at which it stops.
fn first_difference(copy: &Path, family: &Family) -> Option<usize> {
    let mut child = program(copy)
        .arg(family.name)
        .env("GLIBC_TUNABLES", KEEP_MEMORY)
        .stdout(Stdio::piped())
        .stderr(Stdio::null())
        .spawn()
        .expect("the copy's program runs");
    let mut marks = std::io::BufReader::new(child.stdout.take().expect("a pipe"));
    let mut difference = None;
    for (index, expected) in family.marks.iter().enumerate() {
        let mut mark = [0; 8];
        if marks.read_exact(&mut mark).is_err() || u64::from_le_bytes(mark) != *expected {
            difference = Some(index);
            break;
        }
    }
    drop(marks);
    // It may have ended by itself.
    let _ = child.kill();
    child.wait().expect("the copy's program ends");
    difference
}

/// Marks must tell apart what answers tell apart; a mark that is always the same would hide every fault.
#[cfg(test)]
mod tests {
    use super::*;

    #[test]
    fn marks_differ_where_answers_do() {
        let mark = |text: &str| -> u64 { oracle::answer(text.as_bytes()).mark() };
        assert_ne!(mark("Name: a"), mark("Name: b"));
        assert_ne!(mark("a=${b}"), mark("a=${c}"));
    }

    #[test]
    fn every_change_fits_in_exactly_one_place() {
        let oracle = Path::new(env!("CARGO_MANIFEST_DIR"));
        for fault in FAULTS {
            for change in fault.changes {
                let text = std::fs::read_to_string(oracle.join(change.file)).unwrap();
                assert_eq!(text.matches(change.from).count(), 1, "{}: {:?}", fault.name, change.from);
                assert_ne!(change.from, change.to);
            }
        }
    }
}
