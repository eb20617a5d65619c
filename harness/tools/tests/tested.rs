//! Planted errors in what becomes of an if0 are found, and shrunk to a small recipe: by the comparison of runs, and of files
//! saved before U4 by that of saves.

use crate::common::saving::{shown, RIGHT};
use model::earlier::before_u4;
use model::node::Tree;
use model::rules::Rule;
use model::step::{Step, Turn};
use model::{check, on_large_stack, Ml, Scheme, Type};
use std::rc::Rc;
use tools::compare::save::Before;
use tools::compare::{compare_run, Plan, SaveCounts, SavingEngine};
use tools::engine::Run;
use tools::make::file_of_text;
use tools::random::Random;
use tools::stand_in::run_by;

/// The comparison of runs shows a small term with this in it, and this of the model's answer and of the engine's.
fn finds(engine: Run, inside: &str, model: &str, planted: &str) {
    let plan = Plan { files: 3_000, seed: 1, start: 0 };
    let shown = on_large_stack(|| compare_run(engine, plan)).err().expect("a difference");
    let term = shown.lines().find_map(|line| line.strip_prefix("term:     ")).unwrap_or("");
    assert!(term.len() < 40 && term.contains(inside), "{shown}");
    let (due, told) = shown.split_once("engine:").expect("both are shown");
    assert!(due.contains(model) && told.contains(planted), "{shown}");
}

/// The term with a Scheme wrong in the place of the node whose turn it is.
fn wrong(turn: &Turn, code: u32) -> Rc<Ml> {
    turn.with(Tree::Scheme(Rc::new(Scheme::Wrong(code))))
}

/// The parts of a Scheme if0 whose turn it is.
fn parts(turn: &Turn) -> Option<[Rc<Scheme>; 3]> {
    let Tree::Scheme(node) = &turn.node else { return None };
    match &**node {
        Scheme::If0(test, yes, no) => Some([test.clone(), yes.clone(), no.clone()]),
        _ => None,
    }
}

/// Today's step, unless it is by this rule: then another.
fn unless(turn: &Turn, rule: Rule, other: impl Fn() -> Step) -> Step {
    match turn.step() {
        Step::Next(found, _) if found == rule => other(),
        step => step,
    }
}

const NO_NUMBER: Rule = Rule::SchemeIf0NoNumber;

/// The words left of ms N of a Scheme wrong 1, and of a Scheme 0.
const WRONG_1: &str = "first:  30 1 300";
const ZERO: &str = "first:  30 1 33";

#[test]
fn a_list_that_still_takes_the_third_part() {
    let engine: Run = |file, limit, first, second| run_by(before_u4, file, limit, first, second);
    finds(engine, "(if0 nil ", WRONG_1, ZERO);
}

#[test]
fn a_function_that_still_takes_the_third_part() {
    fn reduction(turn: &Turn) -> Step {
        match parts(turn) {
            Some([test, ..]) if matches!(*test, Scheme::Lambda(_)) => before_u4(turn),
            _ => turn.step(),
        }
    }
    let engine: Run = |file, limit, first, second| run_by(reduction, file, limit, first, second);
    finds(engine, "(if0 (fn ", WRONG_1, ZERO);
}

#[test]
fn another_code() {
    fn reduction(turn: &Turn) -> Step {
        unless(turn, NO_NUMBER, || Step::Next(NO_NUMBER, wrong(turn, 2)))
    }
    let engine: Run = |file, limit, first, second| run_by(reduction, file, limit, first, second);
    finds(engine, "(if0 nil ", WRONG_1, "first:  30 1 556");
}

#[test]
fn a_number_other_than_0_that_becomes_wrong_1() {
    fn reduction(turn: &Turn) -> Step {
        unless(turn, Rule::SchemeIf0Other, || Step::Next(NO_NUMBER, wrong(turn, 1)))
    }
    let engine: Run = |file, limit, first, second| run_by(reduction, file, limit, first, second);
    finds(engine, "(if0 1 ", ZERO, WRONG_1);
}

#[test]
fn a_number_other_than_0_that_becomes_wrong_1_in_ml() {
    fn reduction(turn: &Turn) -> Step {
        let wrong = || turn.with(Tree::Ml(Rc::new(Ml::Wrong(1, Rc::new(Type::Number)))));
        unless(turn, Rule::MlIf0Other, || Step::Next(NO_NUMBER, wrong()))
    }
    let engine: Run = |file, limit, first, second| run_by(reduction, file, limit, first, second);
    finds(engine, "(if0 1 ", "first:  17", "first:  285 1");
}

#[test]
fn an_if0_that_raises_the_error_itself() {
    fn reduction(turn: &Turn) -> Step {
        unless(turn, NO_NUMBER, || Step::Raised(1))
    }
    let engine: Run = |file, limit, first, second| run_by(reduction, file, limit, first, second);
    finds(engine, "(if0 nil ", "spent (end 1), code 0, steps 1", "error (end 2), code 1, steps 1");
}

#[test]
fn a_wrong_in_a_branch_that_comes_first() {
    fn reduction(turn: &Turn) -> Step {
        match parts(turn) {
            Some([_, yes, _]) if matches!(*yes, Scheme::Wrong(_)) => {
                unless(turn, NO_NUMBER, || Step::Next(NO_NUMBER, turn.with(Tree::Scheme(yes.clone()))))
            }
            _ => turn.step(),
        }
    }
    let engine: Run = |file, limit, first, second| run_by(reduction, file, limit, first, second);
    finds(engine, "(if0 nil (wrong 2) ", WRONG_1, "first:  30 1 556");
}

/// An engine that reduces as before U4 goes on with its own files as one run does: only the files saved before U4 show it.
#[test]
fn files_saved_before_that_go_on_as_before() {
    let run: Run = |file, limit, first, second| run_by(before_u4, file, limit, first, second);
    let text = shown(SavingEngine { run, ..RIGHT });
    assert!(text.contains("\nbefore U4, after ") && text.contains("\nthe recipe that was run:\n"), "{text}");
    assert!(
        text.contains("term:     (ms N (if0 nil 0 0))\n") && text.contains(WRONG_1) && text.contains(ZERO),
        "{text}"
    );
}

/// A recipe whose script tests a list by mistake, in its second step; before U4 it came to 18 in six.
const TESTED: &str = "N (add 12 (ms N (app (fn (x) (if0 x 0 (add (hd x) 1))) {5})))";

/// Lets an engine go on with files of that recipe that were saved before U4, after many numbers of steps.
fn gone_on(engine: SavingEngine) -> Result<SaveCounts, String> {
    let mut counts = SaveCounts::default();
    let recipe = check(&file_of_text(TESTED)).expect("accepted");
    let before = Before::new(recipe);
    (0..40).try_for_each(|index| before.compare(engine, &mut Random::new(1, index), &mut counts))?;
    Ok(counts)
}

#[test]
fn files_saved_before_are_counted_by_what_they_hold() {
    let counts = on_large_stack(|| gone_on(RIGHT)).expect("no difference");
    let rows: Vec<(String, u64)> =
        counts.rows().into_iter().filter(|row| row.0.starts_with("file saved before U4")).collect();
    let of = |name: &str| rows.iter().find(|row| row.0.ends_with(name)).expect("the row").1;
    // After 0 steps or 1 the test is still to come, after 2 to 5 the term is one that the recipe no longer comes to.
    assert_eq!(of(": gone on with"), of(" to come that is no number") + of(" no longer comes to"));
    assert!(of(" to come that is no number") >= 40 && of(" no longer comes to") >= 40, "{rows:?}");
    assert!(of(": a value then, error 1 today") > 0, "{rows:?}");
    assert_eq!(of(": another error then, error 1 today"), 0);
}

#[test]
fn files_saved_before_that_are_refused() {
    let engine = SavingEngine { check: |_| 6, ..RIGHT };
    let text = on_large_stack(|| gone_on(engine)).err().expect("a difference");
    assert!(text.starts_with("before U4, after ") && text.contains(" steps: its file is not accepted\n"), "{text}");
    assert!(text.ends_with(&format!("term:     {}\n", &TESTED[2..])), "{text}");
}
