//! The model's tests, one program: so they are linked once, and all cores are at work until the last is done.

mod card;
mod classes;
mod common;
mod earlier;
mod edges;
mod nodes;
mod owners;
mod places;
mod price;
mod recipes;
mod refusals;
mod rules;
mod save;
mod text;
mod text_faults;
mod text_lists;
mod text_names;
mod text_width;
mod untyped;

/// A file that is not named above would not be tried.
#[test]
fn every_file_is_named() {
    let folder = concat!(env!("CARGO_MANIFEST_DIR"), "/tests");
    let apart = ["all"];
    for entry in std::fs::read_dir(folder).expect("the folder of tests") {
        let path = entry.expect("an entry").path();
        let name = path.file_stem().and_then(|name| name.to_str()).expect("a name that is text");
        let named = include_str!("all.rs").lines().any(|line| line == format!("mod {name};"));
        assert!(named || apart.contains(&name), "mod {name}; is missing in {folder}/all.rs");
    }
}
