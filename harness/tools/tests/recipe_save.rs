//! `recipe run --save`: files, what is said of them, and refusals, worked out by hand from documents 01 and 02.

use crate::common::{printed, typed_into, typed_with, Unread};
use model::file::bytes_of;
use std::path::PathBuf;
use std::sync::atomic::{AtomicU32, Ordering};
use tools::engine::{RecipeSaved, Save};
use tools::make::sum;

/// A name of its own for a file, which is removed when it is done with.
struct Out(PathBuf);

impl Out {
    fn new() -> Out {
        static COUNT: AtomicU32 = AtomicU32::new(0);
        let number = COUNT.fetch_add(1, Ordering::Relaxed);
        Out(std::env::temp_dir().join(format!("saved-{}-{number}", std::process::id())))
    }

    fn name(&self) -> String {
        self.0.display().to_string()
    }

    /// What `recipe run --save` of a recipe to this file prints: status, output, errors.
    fn run(&self, recipe: &[u8], options: &[&str]) -> (u8, String, String) {
        printed(&[&["run", "--save", &self.name()], options].concat(), recipe)
    }

    /// The file's bytes, if it is there.
    fn bytes(&self) -> Option<Vec<u8>> {
        std::fs::read(&self.0).ok()
    }
}

impl Drop for Out {
    fn drop(&mut self) {
        let _ = std::fs::remove_file(&self.0);
    }
}

/// Document 01's wrapped function, applied: 8 words, 12, 8, 6, 3 and 1.
const WRAPPED: &[u8] = b"N (app (ms (N to N) (fn v0)) 7)";

#[test]
fn a_spent_run_is_saved_and_goes_on() {
    let out = Out::new();
    let spent = "spent after 3 steps, 6 words\n1 call, 2 conversions, 0 others\n(ms N (app (fn (x) x) 7))\n";
    let said = format!("saved in {}, 44 bytes; to go on: recipe run {}\n", out.name(), out.name());
    assert_eq!(out.run(WRAPPED, &["--limit", "3"]), (4, spent.to_string() + &said, "".into()));
    // ms N of app, fn, v0 and the Scheme number 7.
    assert_eq!(out.bytes(), Some(bytes_of(&[1, 4, 6, 5, 1, 30, 1, 35, 34, 32, 33 + 256 * 7])));
    let rest = "value after 2 steps, 1 word\n1 call, 1 conversion, 0 others\n7\n";
    assert_eq!(printed(&["run", &out.name()], b""), (0, rest.into(), "".into()));
}

#[test]
fn a_run_that_goes_on_is_saved_in_its_own_file_again() {
    let out = Out::new();
    out.run(WRAPPED, &["--limit", "2"]);
    for left in ["(ms N (app (fn (x) x) 7))", "(ms N 7)"] {
        let told = printed(&["run", &out.name(), "--limit", "1", "--save", &out.name()], b"").1;
        assert!(told.starts_with("spent after 1 step, ") && told.lines().nth(2) == Some(left), "{told}");
    }
    assert_eq!(out.bytes(), Some(bytes_of(&[1, 4, 3, 5, 1, 30, 1, 33 + 256 * 7])));
}

#[test]
fn a_full_run_goes_on_with_the_words_that_it_wanted() {
    let out = Out::new();
    let told = out.run(WRAPPED, &["--words", "11"]).1;
    let name = out.name();
    let said = format!("saved in {name}, 52 bytes; to go on: recipe run {name} --words 12\n");
    assert!(told.starts_with("full after 0 steps: the next term has 12 words\n") && told.ends_with(&said), "{told}");
    assert!(printed(&["run", &name, "--words", "12"], b"").1.starts_with("value after 5 steps"));
}

#[test]
fn a_spent_run_goes_on_with_the_words_that_it_had() {
    let out = Out::new();
    for words in ["12", "4095", "20000"] {
        let told = out.run(WRAPPED, &["--limit", "1", "--words", words]).1;
        let said = format!("68 bytes; to go on: recipe run {} --words {words}\n", out.name());
        assert!(told.ends_with(&said), "{told}");
    }
    assert!(out.run(WRAPPED, &["--limit", "1", "--words", "4096"]).1.ends_with(&format!("run {}\n", out.name())));
}

#[test]
fn no_words_are_enough_for_some() {
    // A fix of 4,090 words whose variable stands 2,044 times: the next term has 2,043 + 2,044 x 4,090 words.
    let spread = format!("N (fix (fn N {}))", sum(&vec!["v0".to_string(); 2_044]));
    let out = Out::new();
    let told = out.run(spread.as_bytes(), &[]).1;
    let said = "16380 bytes; no run can go on: the next term has 8362003 words, and 16384 are the most of a run\n";
    assert!(told.ends_with(said), "{told}");
    assert!(out.bytes().is_some_and(|bytes| bytes.len() == 16_380));
}

#[test]
fn after_a_value_and_an_error_nothing_is_saved() {
    let out = Out::new();
    let value = "value after 5 steps, 1 word\n2 calls, 3 conversions, 0 others\n7\n";
    let said = "nothing is saved: the run has come to its value\n";
    assert_eq!(out.run(WRAPPED, &[]), (0, value.to_string() + said, "".into()));
    let error = "error 4 after 2 steps: an empty list\n0 calls, 0 conversions, 2 others\n\
                 made by a rule at step 0: ML hd of nil: wrong 4\n\
                 from the hd at line 1, column 3 of the text, word 5 of the file: (hd (nil N))\n\
                 the value: (nil N), from line 1, column 7 of the text, word 6 of the file\n";
    let said = "nothing is saved: an error leaves no term\n";
    assert_eq!(out.run(b"N (hd (nil N))", &[]), (3, error.to_string() + said, "".into()));
    assert_eq!(out.bytes(), None);
}

#[test]
fn a_term_that_nests_too_deep_is_refused_and_the_old_file_stays() {
    let out = Out::new();
    std::fs::write(&out.0, b"old").expect("the file is written");
    // 253 adds and ones, then fix, fn, N, add and its first part, at level 257: 5 + 506 + 4.
    let (status, told, said) = out.run(b"N (fix (fn N (add 1 v0)))", &["--limit", "253"]);
    assert!(status == 1 && told.starts_with("spent after 253 steps, 512 words\n253 calls, "), "{told}");
    let due = "refused 4: the term left nests deeper than 256 levels, too deep to be a file\n  \
               word 515 of the file to be written; let it run a little further, or stop it earlier\n";
    assert_eq!((said.as_str(), out.bytes()), (due, Some(b"old".to_vec())));
    assert_eq!(out.run(b"N (fix (fn N (add 1 v0)))", &["--limit", "252"]).0, 4);
    assert!(out.bytes().is_some_and(|bytes| bytes.len() == 4 * (5 + 510)));
}

#[test]
fn a_term_that_is_too_large_is_refused() {
    // Two lists of 88 rows of ten numbers and one of six, 2,042 words each; null? and tl of them: 4,092 words.
    let row = |numbers: usize| "(cons 1 ".repeat(numbers) + "(nil N)" + &")".repeat(numbers);
    let rows = [vec![row(10); 88], vec![row(6)]].concat();
    let list = rows.iter().rev().fold("(nil {N})".to_string(), |rest, row| format!("(cons {row} {rest})"));
    let recipe = format!("N (null? (tl (app (fn {{{{N}}}} (cons v0 (cons v0 (nil {{{{N}}}})))) {list})))");
    let out = Out::new();
    let (status, told, said) = out.run(recipe.as_bytes(), &["--limit", "1"]);
    assert!(status == 1 && told.starts_with("spent after 1 step, 4092 words\n"), "{told}");
    let due = "refused 12: the file would have more than 16,384 bytes\n  \
               it would have 16388 bytes; let it run a little further, or stop it earlier\n";
    assert_eq!((said.as_str(), out.bytes()), (due, None));
    // One step further the first list is gone.
    assert_eq!(out.run(recipe.as_bytes(), &["--limit", "2"]).0, 4);
}

/// What is said on standard error where the engine's save refuses so, which is no file's fault.
fn said_of(save: Save) -> String {
    let (out, mut output, mut errors) = (Out::new(), Vec::new(), Vec::new());
    let words = ["run", "--limit", "1", "--save", &out.name()];
    assert_eq!(typed_with(save, &words, WRAPPED, &mut output, &mut errors), 1);
    assert_eq!(out.bytes(), None);
    String::from_utf8(errors).expect("text")
}

#[test]
fn other_refusals_are_told_with_their_places() {
    let said = said_of(|_, _, _| RecipeSaved { refusal: 13, place: 0, bytes: 0 });
    assert_eq!(said, "refused 13: the buffer is shorter than the file\n");
    let said = said_of(|_, _, _| RecipeSaved { refusal: 5, place: 9, bytes: 0 });
    let due = "a variable has no lambda of its own language at its operand\n  word 9 of the file to be written\n";
    assert_eq!(said, format!("refused 5: {due}"));
    let said = said_of(|_, _, _| RecipeSaved { refusal: 6, place: 9, bytes: 0 });
    assert_eq!(said, "refused 6: the term has no type\n  word 9 of the file to be written\n");
    let said = said_of(|_, _, _| RecipeSaved { refusal: 7, place: 4, bytes: 0 });
    let due = "refused 7: the term's type is not the declared one\n  word 4 of the file to be written\n";
    assert_eq!(said, due);
}

#[test]
fn what_was_saved_before_stays_until_the_new_file_is_whole() {
    let out = Out::new();
    out.run(WRAPPED, &["--limit", "3"]);
    let (before, part) = (out.bytes(), format!("{}.part", out.name()));
    assert!(!std::path::Path::new(&part).exists());
    // A folder stands where the new file would be written.
    std::fs::create_dir(&part).unwrap();
    let (status, _, fault) = out.run(WRAPPED, &["--limit", "4"]);
    std::fs::remove_dir(&part).unwrap();
    assert_eq!((status, out.bytes()), (2, before));
    assert!(fault.starts_with(&format!("recipe: cannot write {}: ", out.name())), "{fault}");
}

#[test]
fn a_link_and_a_device_are_written_through() {
    let (out, link) = (Out::new(), Out::new());
    std::fs::write(&out.0, b"old").unwrap();
    std::os::unix::fs::symlink(&out.0, &link.0).unwrap();
    link.run(WRAPPED, &["--limit", "4"]);
    assert_eq!(out.bytes(), Some(bytes_of(&[1, 4, 3, 5, 1, 30, 1, 33 + 256 * 7])));
    assert!(link.0.is_symlink());
    let told = printed(&["run", "--limit", "4", "--save", "/dev/null"], WRAPPED);
    assert!(told.0 == 4 && told.1.contains("saved in /dev/null, 32 bytes"), "{told:?}");
    assert!(std::fs::metadata("/dev/null").is_ok_and(|there| !there.is_file()));
}

#[test]
fn a_file_that_cannot_be_written_is_a_fault() {
    let (status, told, said) = printed(&["run", "--limit", "1", "--save", "no such folder/out"], WRAPPED);
    assert!(status == 2 && said.starts_with("recipe: cannot write no such folder/out: "), "{said}");
    assert!(told.starts_with("spent after 1 step, 12 words\n") && !told.contains("saved"), "{told}");
    let (status, told, said) = printed(&["run", "--save"], WRAPPED);
    assert_eq!((status, told.as_str(), said.as_str()), (2, "", "recipe: --save needs the name of a file to write\n"));
}

#[test]
fn a_file_that_is_refused_saves_nothing() {
    let out = Out::new();
    let (status, told, said) = out.run(b"L 3", &["--limit", "0"]);
    assert!(status == 1 && told.is_empty() && said.starts_with("refused 7: "), "{said}");
    assert_eq!(out.bytes(), None);
}

#[test]
fn it_is_saved_also_where_nobody_reads_what_is_printed() {
    let (out, mut errors) = (Out::new(), Vec::new());
    let words = ["run", "--limit", "4", "--save", &out.name()];
    assert_eq!(typed_into(&words, WRAPPED, &mut Unread, &mut errors), 0);
    assert!(errors.is_empty() && out.bytes().is_some_and(|bytes| bytes.len() == 32));
    // A refusal is told all the same.
    let words = ["run", "--limit", "253", "--save", &out.name()];
    assert_eq!(typed_into(&words, b"N (fix (fn N (add 1 v0)))", &mut Unread, &mut errors), 1);
    assert!(errors.starts_with(b"refused 4: "));
}
