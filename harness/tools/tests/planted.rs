//! Planted errors are found, shrunk to a small recipe and shown; the model itself shows no difference.

use model::run::MOST_WORDS;
use model::{on_large_stack, run, End};
use std::path::Path;
use tools::compare::{
    compare_carded_stack, compare_check, compare_list, compare_priced_stack, compare_run, compare_stack, missing, Plan,
    Room,
};
use tools::engine::{Card, Check, Price, RecipeCard, RecipePriced, RecipeRun, Run};
use tools::stand_in::{check as right_check, run as right_run};

const PLAN: Plan = Plan { files: 3_000, seed: 1, start: 0 };

/// The most words, and a stack that serves the model too.
const ROOM: Room = Room { words: MOST_WORDS, bytes: 64 << 20 };

fn check_shown(engine: Check) -> String {
    on_large_stack(|| compare_check(engine, PLAN)).err().expect("a difference")
}

fn run_shown(engine: Run) -> String {
    on_large_stack(|| compare_run(engine, PLAN)).err().expect("a difference")
}

#[test]
fn no_difference_from_itself() {
    let checks = on_large_stack(|| compare_check(right_check, PLAN)).expect("no difference");
    assert_eq!(missing(&checks.of_checks()), [""; 0]);
    let runs = on_large_stack(|| compare_run(right_run, PLAN)).expect("no difference");
    // Of owners 26 rows for the answers to files, 4 for declared types, 9 for what runs do and 1 for runs as without owners; and 2 for
    // the places of refusals 6 and 7.
    assert_eq!(runs.of_runs().len(), 49 + 6 + 4 + 4 * 3 + 8 + 26 + 4 + 9 + 1 + 2);
    let rows = runs.of_runs();
    let missing = missing(&rows).join("; ");
    assert!(!["end: ", "owner", "refusal"].iter().any(|row| missing.contains(row)), "{missing}");
}

#[test]
fn a_check_that_accepts_all() {
    let shown = check_shown(|_| 0);
    assert!(shown.contains("model:    refused") && shown.contains("engine:   accepted"), "{shown}");
}

#[test]
fn a_check_that_compares_first_words_of_types() {
    let shown = check_shown(|file| match right_check(file) {
        right if right % 256 == 7 && file[16] == 3 && file[20..24] != [1, 0, 0, 0] => 0,
        right => right,
    });
    assert!(shown.contains("refused 7") && shown.contains("declared: {"), "{shown}");
}

#[test]
fn a_run_that_tests_error_before_spent() {
    let shown = run_shown(|file, limit, first, second| {
        let more = run(file, limit.saturating_add(1), first.len(), second.len());
        match more.result {
            Ok(ended) if ended.end == End::Error => right_run(file, limit.saturating_add(1), first, second),
            _ => right_run(file, limit, first, second),
        }
    });
    assert!(
        shown.contains("spent (end 1)") && shown.contains("error (end 2)") && shown.contains("limit 1, buffers of 3"),
        "{shown}"
    );
}

#[test]
fn a_run_that_leaves_rubbish() {
    let shown = run_shown(|file, limit, first, second| {
        let kept = second.last().copied();
        let result = right_run(file, limit, first, second);
        if let (Some(last), Some(kept), true) = (second.last_mut(), kept, result.steps == 2) {
            *last = kept;
        }
        result
    });
    assert!(shown.contains("second:"), "{shown}");
}

#[test]
fn a_run_that_miscounts_wrapped_calls() {
    let shown = run_shown(|file, limit, first, second| {
        let mut result = right_run(file, limit, first, second);
        let wraps = file.chunks(4).any(|word| word == [45, 0, 0, 0]);
        result.steps += u32::from(wraps && result.refusal == 0 && result.steps > 2);
        result
    });
    let term = shown.lines().find(|line| line.starts_with("term:")).unwrap_or("");
    assert!(term.len() < 50 && shown.contains("limit 3, "), "{shown}");
}

#[test]
fn deep_ends_are_known_beforehand() {
    // The model is slow on the deepest terms: one of the ends is enough here.
    let engine: Run = |file, limit, first, second| match file[24] {
        30 => right_run(file, limit, first, second),
        _ => RecipeRun::default(),
    };
    assert!(compare_stack(engine, ROOM).is_err());
}

/// The run of tl nested 16,378 deep around the fix, as it is known beforehand.
fn nested_tl(first: &mut [u32]) -> RecipeRun {
    first[..16_378].fill(27);
    first[16_378..].copy_from_slice(&[20, 18, 3, 1, 27, 16]);
    let (steps, left, wanted) = (16_378, 16_384, 16_385);
    RecipeRun { end: 3, steps, left, wanted, calls: steps, ..RecipeRun::default() }
}

#[test]
fn a_deep_run_that_is_full_and_charged() {
    let engine: Price = |_, _, _, first, _| RecipePriced { run: nested_tl(first), total: 1, ..RecipePriced::default() };
    let shown = compare_priced_stack(engine, ROOM).expect_err("a difference");
    assert!(shown.starts_with("tl nested: ") && shown.contains("total: 0") && shown.contains("total: 1"), "{shown}");
}

#[test]
fn a_deep_run_that_is_full_and_leaves_the_card_as_it_was() {
    let engine: Card = |_, _, _, first, _, _| {
        let priced = RecipePriced { run: nested_tl(first), ..RecipePriced::default() };
        RecipeCard { priced, bytes: 0 }
    };
    let shown = compare_carded_stack(engine, ROOM).expect_err("a difference");
    assert!(shown.starts_with("tl nested: ") && shown.contains("[0, 0") && shown.contains("[7, 7"), "{shown}");
}

#[test]
fn a_listing_that_prints_the_file() {
    let plan = Plan { files: 1, seed: 1, start: 0 };
    let shown = on_large_stack(|| compare_list(Path::new("cat"), plan)).err().expect("a difference");
    assert!(shown.contains("model:\n") && shown.contains("listing:\n"), "{shown}");
}
