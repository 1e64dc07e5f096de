//! docs/PROMISES.md names definitions, laws and must-fail edits: all of them exist, and no edit is left out.

use std::collections::BTreeSet;
use std::fs;
use std::path::{Path, PathBuf};

const PAGE: &str = include_str!("../../../docs/PROMISES.md");

fn root() -> PathBuf {
    Path::new(env!("CARGO_MANIFEST_DIR")).join("../..")
}

/// All files below a directory, but for what `rt` makes in the folders out.
fn files(directory: &Path, found: &mut Vec<PathBuf>) {
    for entry in fs::read_dir(directory).expect("the directory can be read") {
        let path = entry.expect("the entry can be read").path();
        if path.is_dir() {
            if !path.ends_with("out") {
                files(&path, found);
            }
        } else {
            found.push(path);
        }
    }
}

/// The words of a text, where `-`, `_` and `'` belong to a word.
fn words(text: &str) -> impl Iterator<Item = &str> {
    text.split(|c: char| !(c.is_alphanumeric() || "-_'".contains(c))).filter(|word| !word.is_empty())
}

/// The words of all sources of the crates.
fn known() -> BTreeSet<String> {
    let mut sources = Vec::new();
    files(&root().join("crates"), &mut sources);
    let mut known = BTreeSet::new();
    for source in sources {
        if source.extension().is_some_and(|ending| ending == "rt" || ending == "antt") {
            let text = fs::read_to_string(&source).expect("a source is text");
            known.extend(words(&text).map(str::to_owned));
        }
    }
    known.extend(fs::read_dir(root().join("crates")).expect("there are crates").map(|entry| {
        entry.expect("the entry can be read").file_name().into_string().expect("a crate's name is text")
    }));
    known
}

/// The edits, as (crate, name).
fn edits() -> BTreeSet<(String, String)> {
    let mut all = Vec::new();
    files(&root().join("crates"), &mut all);
    let text =
        |part: Option<&std::ffi::OsStr>| part.and_then(|part| part.to_str()).unwrap_or_default().to_owned();
    all.iter()
        .filter(|path| path.extension().is_some_and(|ending| ending == "edit"))
        .map(|path| (text(path.ancestors().nth(2).and_then(Path::file_name)), text(path.file_stem())))
        .collect()
}

/// The rows of all tables, as cells.
fn rows() -> impl Iterator<Item = Vec<&'static str>> {
    PAGE.lines()
        .filter(|line| line.starts_with("| ") && !line.starts_with("| Promise"))
        .map(|line| line.trim_matches('|').split(" | ").collect())
}

#[test]
fn every_name_of_a_definition_or_law_exists() {
    let known = known();
    let mut checked = 0;
    for row in rows() {
        // The first cell has the document's words, and what stands in backticks there is text of a file.
        for cell in &row[1..] {
            for quoted in cell.split('`').skip(1).step_by(2) {
                let name = quoted.rsplit("::").next().unwrap_or(quoted);
                let is_name = name.chars().all(|c| c.is_ascii_alphanumeric() || "-_*".contains(c));
                if !is_name || name.chars().all(|c| c.is_ascii_digit()) {
                    continue;
                }
                let there = match name.strip_suffix('*') {
                    Some(start) => known.iter().any(|word| word.starts_with(start)),
                    None => known.contains(name) || root().join("host").join(name).exists(),
                };
                let is_generator = oracle::generators::by_name(name).is_some();
                assert!(there || is_generator, "{quoted} in the row: {}", row[0]);
                checked += 1;
            }
        }
    }
    assert!(checked > 100, "only {checked} names found");
}

#[test]
fn every_module_named_has_its_law() {
    for row in rows() {
        for cell in &row[1..] {
            for (at, _) in cell.match_indices(".`") {
                let module = words(&cell[..at]).last().expect("a module stands before");
                let law = cell[at + 2..].split('`').next().expect("split gives one").trim_end_matches('*');
                let text = ["specs", "proofs"]
                    .iter()
                    .find_map(|folder| {
                        let path = root().join(format!("crates/rules/{folder}/{module}.antt"));
                        fs::read_to_string(path).ok()
                    })
                    .unwrap_or_else(|| panic!("there is no module {module}"));
                assert!(words(&text).any(|word| word.starts_with(law)), "{module} has no {law}");
            }
        }
    }
}

#[test]
fn the_edits_are_those_there_are() {
    let edits = edits();
    let crates: BTreeSet<&str> = edits.iter().map(|(name, _)| name.as_str()).collect();
    let mut named = BTreeSet::new();
    for row in rows() {
        for part in row.last().expect("a row has cells").trim_end_matches(" |").split(';') {
            let Some((name, list)) = part.trim().split_once(": ") else { continue };
            if !crates.contains(name) {
                continue;
            }
            if list.starts_with("its ") {
                named.extend(edits.iter().filter(|(of, _)| of == name).cloned());
                continue;
            }
            for edit in list.split(',') {
                let edit = (name.to_owned(), edit.trim().to_owned());
                assert!(edits.contains(&edit), "there is no edit {edit:?}");
                named.insert(edit);
            }
        }
    }
    let left_out: Vec<_> = edits.difference(&named).collect();
    assert!(left_out.is_empty(), "{left_out:?}");
}
