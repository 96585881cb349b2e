//! The edits that docs/PROMISES.md and docs/DECISIONS.md name are there.

use conformance::files::{in_repository, read};
use conformance::tables::in_backticks;
use std::fs;

/// Whether a name of the form `crate/edit` is that of an edit; `..` stands for the rest of several names.
fn is_edit(name: &str) -> bool {
    let (folder, edit) = name.split_once('/').expect("a crate and an edit");
    match edit.strip_suffix("..") {
        None => in_repository(&format!("crates/{folder}/must-fail/{edit}.edit")).is_file(),
        Some(begin) => {
            let folder = fs::read_dir(in_repository(&format!("crates/{folder}/must-fail")));
            let mut edits = folder.expect("a folder of edits").flatten().map(|edit| edit.file_name());
            edits.any(|edit| edit.to_string_lossy().starts_with(begin))
        }
    }
}

/// The names in backticks that are a crate, a stroke and words of lower case: an edit, or a folder of the crate.
fn named(document: &str) -> Vec<String> {
    let (text, crates) = (read(document), read("crates.txt"));
    let is_crate = |name: &str| crates.lines().any(|line| line.starts_with(&format!("{name}:")));
    let is_word = |c: char| c.is_ascii_lowercase() || c.is_ascii_digit() || "_.".contains(c);
    let is_named = |name: &String| {
        name.split_once('/').is_some_and(|(first, rest)| is_crate(first) && rest.chars().all(is_word))
    };
    text.lines().flat_map(in_backticks).filter(is_named).collect()
}

#[test]
fn every_edit_that_a_document_names() {
    for document in ["docs/PROMISES.md", "docs/DECISIONS.md"] {
        for name in named(document) {
            let is_folder = in_repository("crates").join(&name).is_dir();
            assert!(is_folder || is_edit(&name), "{document} names {name}");
        }
    }
    assert!(named("docs/PROMISES.md").len() > 80, "the promises name their edits");
}
