//! The recipes of document 01, the can, the lumps of two owners, the two whose types do not fit, the file saved by an earlier release
//! and the damaged one in recipes/: each text makes its file, and the model lists it as written by hand.

use model::earlier::before_u4;
use model::file::file;
use model::run::run_by;
use model::text::parse_recipe;
use model::{on_large_stack, save};
use std::path::{Path, PathBuf};
use tools::compare::listed;
use tools::make::file_of_text;

fn folder() -> PathBuf {
    Path::new(env!("CARGO_MANIFEST_DIR")).join("../../recipes")
}

/// The names of the recipes, without their endings.
fn recipes() -> Vec<PathBuf> {
    let entries = std::fs::read_dir(folder()).expect("the folder of recipes");
    let paths = entries.map(|entry| entry.expect("an entry").path());
    paths.filter(|path| path.extension().is_some_and(|ending| ending == "txt")).collect()
}

fn read(path: &Path, ending: &str) -> Vec<u8> {
    let path = path.with_extension(ending);
    std::fs::read(&path).unwrap_or_else(|fault| panic!("{}: {fault}", path.display()))
}

#[test]
fn texts_make_the_files() {
    assert_eq!(recipes().len(), 19);
    for path in recipes() {
        let text = String::from_utf8(read(&path, "txt")).expect("text");
        let parsed = parse_recipe(&text).expect("a recipe");
        assert_eq!(file(&parsed.declared, &parsed.term), read(&path, "bin"), "{}", path.display());
    }
}

#[test]
fn files_are_listed_as_written() {
    for path in recipes() {
        let expected = String::from_utf8(read(&path, "expected")).expect("text");
        assert_eq!(on_large_stack(|| listed(&read(&path, "bin"))), expected, "{}", path.display());
    }
}

/// The release before U4 wrote it after one step of this recipe: 15 words, 80 bytes.
#[test]
fn the_file_saved_before_is_what_that_release_left() {
    let recipe = file_of_text("N (add 12 (ms N (app (fn (if0 v0 0 (add (hd v0) 1))) (cons 5 nil))))");
    let left = on_large_stack(|| run_by(before_u4, &recipe, 1, (16, 16)).first);
    assert_eq!(save(&[1], &left[..15], 80).buffer, read(&folder().join("saved-before"), "bin"));
}

/// null? (nil L) with the owner after the last.
#[test]
fn the_file_with_owner_256_is_refused_at_the_lumps_word() {
    let (declared, term) = ([1], [28, 24, 2 + 256 * 256]);
    let over = folder().join("owner-256");
    assert_eq!(file(&declared, &term), read(&over, "bin"));
    assert_eq!(listed(&file(&declared, &term)).as_bytes(), read(&over, "expected"));
}

/// A recipe of docs/RECIPES.md with one bit changed: word 13, the Scheme add, is no kind any more.
#[test]
fn the_damaged_file_is_a_recipe_with_one_bit_changed() {
    let mut recipe = file_of_text("N (add 12 (app (ms (N to N) (fn (add v0 v0))) 5))");
    recipe[4 * 13] ^= 16;
    let damaged = folder().join("damaged");
    assert_eq!(recipe, read(&damaged, "bin"));
    assert_eq!(listed(&recipe).as_bytes(), read(&damaged, "expected"));
}
