//! Upstream's files are byte for byte those that the list names.

mod sha256;

use std::path::Path;

#[test]
fn upstream_files_are_unchanged() {
    let root = Path::new(env!("CARGO_MANIFEST_DIR"));
    let directory = root.join("cuddld_pkg_config");
    let list = std::fs::read_to_string(root.join("upstream.sha256")).unwrap();
    let mut listed = Vec::new();
    for line in list.lines() {
        let (expected, name) = line.split_once("  ").unwrap();
        let found = sha256::hex(&std::fs::read(directory.join(name)).unwrap());
        assert_eq!(found, expected, "{name} is not upstream's file");
        listed.push(name.to_owned());
    }
    // And the crate has no other source file.
    let sources = std::fs::read_dir(directory.join("src")).unwrap();
    let mut there: Vec<String> =
        sources.map(|entry| format!("src/{}", entry.unwrap().file_name().to_str().unwrap())).collect();
    there.sort();
    listed.retain(|name| name.starts_with("src/"));
    listed.sort();
    assert_eq!(there, listed);
    assert_eq!(there.len(), 6);
}
