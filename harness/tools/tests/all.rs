//! The tools' tests but for the page's, which has a folder of its own to work in: one program, so that they are linked once,
//! and all cores are at work until the last is done.

mod asked;
mod bench;
mod blamed;
mod carded;
mod charged;
mod commands;
mod common;
mod counted;
mod gone_on;
mod lent;
mod makers;
mod mismatched;
mod owned;
mod planted;
mod program;
mod recipe_card;
mod recipe_mismatch;
mod recipe_outline;
mod recipe_owners;
mod recipe_page;
mod recipe_price;
mod recipe_save;
mod recipe_text;
mod recipes;
mod reference;
mod refused;
mod saved;
mod stack;
mod stepped;
mod tested;
mod text;
mod uncarded;
mod unsaved;
mod walked;

use std::path::Path;

/// A file that is not named above would not be tried.
#[test]
fn every_file_is_named() {
    let folder = concat!(env!("CARGO_MANIFEST_DIR"), "/tests");
    let apart = ["page", "browser", "all"];
    for entry in std::fs::read_dir(folder).expect("the folder of tests") {
        let path = entry.expect("an entry").path();
        let name = path.file_stem().and_then(|name| name.to_str()).expect("a name that is text");
        let named = include_str!("all.rs").lines().any(|line| line == format!("mod {name};"));
        assert!(named || apart.contains(&name), "mod {name}; is missing in {folder}/all.rs");
    }
}

/// Nor would a test among the sources: no program is built of those.
#[test]
fn no_test_stands_among_the_sources() {
    let top = Path::new(env!("CARGO_MANIFEST_DIR"));
    let files = [top.join("src"), top.join("../model/src")].map(|folder| without_tests(&folder)).iter().sum::<usize>();
    assert!(files > 100, "{files}");
}

/// How many files a folder and those in it have; none has a test.
fn without_tests(path: &Path) -> usize {
    if path.is_dir() {
        let entries = std::fs::read_dir(path).expect("a folder");
        return entries.map(|entry| without_tests(&entry.expect("an entry").path())).sum();
    }
    let text = std::fs::read_to_string(path).expect("text");
    assert!(!text.contains("#[test]"), "{} has a test; tests stand in tests/", path.display());
    1
}
