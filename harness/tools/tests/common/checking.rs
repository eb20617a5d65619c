//! Checks with planted errors, and what the comparison shows of them.

use model::on_large_stack;
use tools::compare::{compare_check, Plan};
use tools::engine::Check;

pub const PLAN: Plan = Plan { files: 3_000, seed: 1, start: 0 };

/// What the comparison of checks shows of a wrong check: few words, and what the answers of model and engine start with.
pub fn finds(engine: Check, model: &str, planted: &str) -> String {
    finds_in(14, engine, model, planted)
}

/// The same of a wrong check that shows in so many words and no fewer, rows of the same word written once.
pub fn finds_in(most: usize, engine: Check, model: &str, planted: &str) -> String {
    let text = on_large_stack(|| compare_check(engine, PLAN)).err().expect("a difference");
    let words = text.lines().find_map(|line| line.strip_prefix("words:    ")).expect("its words");
    assert!(words.split(' ').count() <= most, "{text}");
    let due = text.contains(&format!("\nmodel:    {model}")) && text.contains(&format!("\nengine:   {planted}"));
    assert!(due, "{text}");
    text
}
