//! Planted errors in the counts of where the steps went are found, and shrunk to a small recipe.

use model::rules::Rule;
use model::step::{turn, Step, Turn};
use model::{check, on_large_stack, Class};
use tools::compare::{compare_run, Plan};
use tools::engine::{RecipeRun, Run};
use tools::stand_in::run as right_run;

/// What the comparison shows of a run that counts falsely.
fn shown(engine: Run) -> String {
    let plan = Plan { files: 3_000, seed: 1, start: 0 };
    on_large_stack(|| compare_run(engine, plan)).err().expect("a difference")
}

/// The comparison shows a small term with this in it, and these counts of the model and of the engine.
fn finds(engine: Run, inside: &str, model: [u32; 3], planted: [u32; 3]) {
    let shown = shown(engine);
    let term = shown.lines().find_map(|line| line.strip_prefix("term:     ")).unwrap_or("");
    assert!(term.len() < 30 && term.contains(inside), "{shown}");
    let line = |[calls, conversions, others]: [u32; 3]| {
        format!("\n  calls {calls}, conversions {conversions}, others {others}\n")
    };
    let (due, told) = shown.split_once("engine:").expect("both are shown");
    assert!(due.contains(&line(model)) && told.contains(&line(planted)), "{shown}");
}

/// The right run, its steps counted anew by the test given.
fn counted(file: &[u8], limit: u32, first: &mut [u32], second: &mut [u32], class: fn(&Turn) -> Class) -> RecipeRun {
    let mut result = right_run(file, limit, first, second);
    let Ok(recipe) = check(file) else { return result };
    let (mut term, mut counts) = (recipe.term, [0; 3]);
    for _ in 0..result.steps {
        let turn = turn(&term).expect("a step that was made");
        counts[class(&turn) as usize] += 1;
        if let Step::Next(_, next) = turn.step() {
            term = next;
        }
    }
    [result.calls, result.conversions, result.others] = counts;
    result
}

/// The kind of the node whose turn it is.
fn kind(turn: &Turn) -> u32 {
    turn.node.node().word() % 256
}

#[test]
fn a_fix_counted_as_an_other() {
    let engine: Run = |file, limit, first, second| {
        counted(file, limit, first, second, |turn| if kind(turn) == 20 { Class::Other } else { turn.class() })
    };
    finds(engine, "(fix ", [1, 0, 0], [0, 0, 1]);
}

#[test]
fn the_errors_own_step_counted_as_a_call() {
    let engine: Run = |file, limit, first, second| {
        counted(file, limit, first, second, |turn| match turn.step() {
            Step::Raised(_) => Class::Call,
            _ => turn.class(),
        })
    };
    finds(engine, "(", [0, 0, 2], [1, 0, 1]);
}

#[test]
fn an_error_under_an_ms_counted_as_a_conversion() {
    let engine: Run = |file, limit, first, second| {
        counted(file, limit, first, second, |turn| match (turn.context.last(), turn.step()) {
            (Some(frame), Step::Raised(_)) => Class::of(frame.node.node()),
            _ => turn.class(),
        })
    };
    finds(engine, "(ms N (wrong ", [0, 0, 1], [0, 1, 0]);
}

#[test]
fn an_error_that_is_not_counted() {
    let engine: Run = |file, limit, first, second| {
        let result = right_run(file, limit, first, second);
        RecipeRun { others: result.others - u32::from(result.end == 2), ..result }
    };
    finds(engine, "(", [0, 0, 2], [0, 0, 1]);
}

#[test]
fn an_application_that_becomes_wrong_2_counted_as_an_other() {
    let engine: Run = |file, limit, first, second| {
        counted(file, limit, first, second, |turn| match turn.step() {
            Step::Next(Rule::SchemeApplicationOther, _) => Class::Other,
            _ => turn.class(),
        })
    };
    finds(engine, "(app ", [1, 0, 0], [0, 0, 1]);
}

#[test]
fn an_ms_that_becomes_a_wrong_counted_as_an_other() {
    let engine: Run = |file, limit, first, second| {
        counted(file, limit, first, second, |turn| match turn.step() {
            Step::Next(rule, _) if rule.code().is_some() && kind(turn) == 30 => Class::Other,
            _ => turn.class(),
        })
    };
    finds(engine, "(ms N ", [0, 1, 0], [0, 0, 1]);
}

#[test]
fn an_if0_that_becomes_wrong_1_counted_as_a_conversion() {
    let engine: Run = |file, limit, first, second| {
        counted(file, limit, first, second, |turn| match turn.step() {
            Step::Next(Rule::SchemeIf0NoNumber, _) => Class::Conversion,
            _ => turn.class(),
        })
    };
    finds(engine, "(if0 nil ", [0, 0, 1], [0, 1, 0]);
}

#[test]
fn conversions_counted_at_ms_alone() {
    let engine: Run = |file, limit, first, second| {
        counted(file, limit, first, second, |turn| if kind(turn) == 45 { Class::Other } else { turn.class() })
    };
    finds(engine, "(sm ", [0, 1, 0], [0, 0, 1]);
}

#[test]
fn a_step_that_does_not_fit_counted() {
    let engine: Run = |file, limit, first, second| {
        let result = right_run(file, limit, first, second);
        RecipeRun { calls: result.calls + u32::from(result.end == 3), ..result }
    };
    let shown = shown(engine);
    assert!(shown.contains("full (end 3), code 0, steps 0") && shown.contains("calls 1, "), "{shown}");
}

#[test]
fn counts_in_another_order() {
    let engine: Run = |file, limit, first, second| {
        let result = right_run(file, limit, first, second);
        RecipeRun { calls: result.conversions, conversions: result.calls, ..result }
    };
    finds(engine, "(ms N ", [0, 1, 0], [1, 0, 0]);
}

#[test]
fn counts_after_a_refusal() {
    let engine: Run = |file, limit, first, second| {
        let result = right_run(file, limit, first, second);
        RecipeRun { others: result.others + u32::from(result.refusal != 0), ..result }
    };
    let shown = shown(engine);
    assert!(shown.contains("; 0 0 0 0 0; calls 0, conversions 0, others 0\n"), "{shown}");
    assert!(shown.contains("; 0 0 0 0 0; calls 0, conversions 0, others 1\n"), "{shown}");
}
