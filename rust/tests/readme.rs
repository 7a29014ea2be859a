//! README.md says what the tool says, and what is so.

mod common;

use std::fs;
use std::path::Path;

use common::tool::{folder, tinladle};

const README: &str = include_str!("../README.md");

#[test]
fn the_help_is_in_it() {
    let help = tinladle(&folder("readme"), &["--help"]).out;
    assert!(README.contains(&format!("```text\n{help}```\n")), "not in README.md as it is:\n{help}");
}

/// The source files, at any depth, that allow unsafe code; the lint denies it in all others.
fn unsafe_files(root: &Path, folder: &Path, found: &mut Vec<String>) {
    for entry in fs::read_dir(folder).unwrap() {
        let path = entry.unwrap().path();
        if path.is_dir() {
            unsafe_files(root, &path, found);
        } else if fs::read_to_string(&path).unwrap().contains("allow(unsafe_code)") {
            found.push(path.strip_prefix(root).unwrap().to_string_lossy().into_owned());
        }
    }
}

#[test]
fn unsafe_code_stands_where_it_says() {
    let root = Path::new(env!("CARGO_MANIFEST_DIR"));
    let mut found = Vec::new();
    unsafe_files(root, &root.join("src"), &mut found);
    found.sort();
    assert_eq!(found, ["src/cli/allocator.rs", "src/cli/closed.rs", "src/ffi.rs", "src/library.rs"]);
    for name in found {
        assert!(README.contains(&format!("`{name}`")), "{name}");
    }
}
