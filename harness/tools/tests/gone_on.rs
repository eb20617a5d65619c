//! Planted errors in runs that are saved and go on are found and shrunk to a small recipe.

use crate::common::saving::*;
use model::on_large_stack;
use tools::compare::{compare_saved_stack, SavingEngine};
use tools::engine::{RecipeRun, RecipeSaved, Run, Save};
use tools::stand_in::{check as right_check, run as right_run, save as right_save};

/// The steps that one run tells and those that both tell together, of a difference.
fn steps(text: &str) -> [u32; 2] {
    let (_, told) = text.split_once("one run:\n").expect("both sides");
    let (one, both) = told.split_once("run, saved and run again:\n").expect("both sides");
    [one, both].map(|side| number(side, "steps "))
}

/// The number behind a name.
fn number(text: &str, name: &str) -> u32 {
    let (_, behind) = text.split_once(name).expect("the name");
    let digits: String = behind.chars().take_while(char::is_ascii_digit).collect();
    digits.parse().expect("a number")
}

/// The right run, its answer changed if it has ended.
fn ended(lent: (&[u8], u32, &mut [u32], &mut [u32]), change: fn(&mut RecipeRun)) -> RecipeRun {
    let (file, limit, first, second) = lent;
    let mut run = right_run(file, limit, first, second);
    if run.refusal == 0 {
        change(&mut run);
    }
    run
}

#[test]
fn a_run_that_counts_its_beginning_as_a_step() {
    let run: Run = |file, limit, first, second| ended((file, limit, first, second), |run| run.steps += 1);
    let text = run_shown(run);
    let [one, both] = steps(&text);
    assert_eq!(both, one + 1, "{text}");
}

#[test]
fn a_run_that_counts_its_first_step_as_an_other() {
    let run: Run = |file, limit, first, second| {
        ended((file, limit, first, second), |run| {
            if run.calls > 0 {
                (run.calls, run.others) = (run.calls - 1, run.others + 1);
            }
        })
    };
    let text = run_shown(run);
    let [one, both] = steps(&text);
    assert_eq!(one, both, "{text}");
}

#[test]
fn a_run_that_makes_a_step_too_many_under_limit_1() {
    let run: Run = |file, limit, first, second| match right_run(file, limit, first, second) {
        run if (run.refusal, run.end) == (0, 1) && limit == 1 => right_run(file, 2, first, second),
        run => run,
    };
    run_shown(run);
}

#[test]
fn words_wanted_that_are_told_only_after_a_step() {
    let run: Run = |file, limit, first, second| {
        ended((file, limit, first, second), |run| {
            if run.steps == 0 {
                run.wanted = 0;
            }
        })
    };
    let text = run_shown(run);
    assert!(text.contains("wanted 0") && text.contains("full (end 3)"), "{text}");
}

#[test]
fn rubbish_left_by_a_run_that_goes_on() {
    // Behind the term that a run of a file with a conversion leaves.
    let run: Run = |file, limit, first, second| {
        let run = right_run(file, limit, first, second);
        let converts = file.chunks(4).any(|word| word == [45, 0, 0, 0]);
        if let (Some(last), true) = (second.last_mut(), converts && run.refusal == 0) {
            *last = 7;
        }
        run
    };
    run_shown(run);
}

#[test]
fn codes_of_errors_that_change() {
    // A wrong in the file keeps its code; one that a rule made does not.
    let run: Run = |file, limit, first, second| {
        let wrong = file.chunks(4).any(|word| word[0] == 29 || word[0] == 44);
        let mut run = right_run(file, limit, first, second);
        if run.code != 0 && !wrong {
            run.code += 5;
        }
        run
    };
    let text = run_shown(run);
    assert!(text.contains("error (end 2)"), "{text}");
}

#[test]
fn a_check_that_refuses_what_was_saved() {
    // Files in which a Scheme function was wrapped for ML.
    fn check(file: &[u8]) -> u64 {
        let wraps = file.windows(8).any(|words| words == [45, 0, 0, 0, 1, 0, 0, 0]);
        if wraps {
            6
        } else {
            right_check(file)
        }
    }
    let text = shown(SavingEngine { check, ..RIGHT });
    assert!(text.contains("the file is not accepted, or its words are others"), "{text}");
}

#[test]
fn a_save_of_a_run_refused_by_another() {
    // Terms with an application in Scheme under ms N, as a wrapped function that is called leaves them.
    let save: Save = |declared, term, out| match right_save(declared, term, out) {
        saved if saved.refusal == 0 && term.windows(3).any(|words| words == [30, 1, 35]) => refused(5, 0, out),
        saved => saved,
    };
    answers(save, "saved, ", "refused 5 at place 0");
}

#[test]
fn other_words_left_by_a_run_of_one_step() {
    // A number that a single step comes to is another.
    let run: Run = |file, limit, first, second| {
        let run = right_run(file, limit, first, second);
        if run.end == 0 && run.steps == 1 && run.left == 1 {
            first[0] ^= 256;
        }
        run
    };
    let text = run_shown(run);
    let [one, both] = steps(&text);
    assert_eq!(one, both, "{text}");
}

#[test]
fn deep_saves_are_known_beforehand() {
    let right = on_large_stack(|| compare_saved_stack(right_save, 64 << 20)).expect("as known");
    // Six by hand; 3 parts of types that are types, 16 of ML that are ML, 15 of Scheme and the boundaries, each nested in two ways.
    assert_eq!(right.len(), 6 + 2 * (3 + 16 + 15 + 1));
    let all: Save = |_, _, _| RecipeSaved::default();
    assert!(compare_saved_stack(all, 64 << 20).is_err());
    let kept: Save = |declared, term, out| {
        let last = out[out.len() - 1];
        let saved = right_save(declared, term, out);
        out[16_383] = if saved.refusal == 4 { last } else { 0 };
        saved
    };
    let shown = compare_saved_stack(kept, 64 << 20).expect_err("a difference");
    assert!(shown.starts_with("saved: fix nested 4,091 deep: "), "{shown}");
}
