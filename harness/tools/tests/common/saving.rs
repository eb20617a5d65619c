//! Saves with planted errors, and what the comparison shows of them.

use model::on_large_stack;
use tools::compare::{compare_save, Plan, SavingEngine};
use tools::engine::{RecipeSaved, Run, Save};
use tools::stand_in;

pub const PLAN: Plan = Plan { files: 1_500, seed: 1, start: 0 };

/// The model in the engine's place.
pub const RIGHT: SavingEngine = SavingEngine { check: stand_in::check, run: stand_in::run, save: stand_in::save };

/// What the comparison shows of an engine that is wrong.
pub fn shown(engine: SavingEngine) -> String {
    on_large_stack(|| compare_save(engine, PLAN)).err().expect("a difference")
}

/// What it shows of a wrong save, which is small or a long row of the same words.
pub fn save_shown(save: Save) -> String {
    let text = shown(SavingEngine { save, ..RIGHT });
    assert!(text.lines().all(|line| line.len() < 1_000), "{text}");
    text
}

/// What it shows of a wrong run, which is small.
pub fn run_shown(run: Run) -> String {
    let text = shown(SavingEngine { run, ..RIGHT });
    let term = text.lines().find(|line| line.starts_with("term:     ")).unwrap_or("");
    assert!(term.len() < 110, "{text}");
    text
}

/// The answers of model and engine start so, the model's first. Answers with all that is shown.
pub fn answers(save: Save, model: &str, engine: &str) -> String {
    let text = save_shown(save);
    let due = text.contains(&format!("model:\n  {model}")) && text.contains(&format!("engine:\n  {engine}"));
    assert!(due, "{text}");
    text
}

/// A refusal, with the buffer cleared.
pub fn refused(number: u32, place: usize, out: &mut [u8]) -> RecipeSaved {
    out.fill(0);
    RecipeSaved { refusal: number, place: place as u32, bytes: 0 }
}

/// The right save, with the file's bytes changed if one is written.
pub fn changed(declared: &[u32], term: &[u32], out: &mut [u8], change: impl Fn(&mut [u8])) -> RecipeSaved {
    let saved = stand_in::save(declared, term, out);
    change(&mut out[..saved.bytes as usize]);
    saved
}

/// The bytes of the file that words make.
pub fn bytes(declared: &[u32], term: &[u32]) -> usize {
    16 + 4 * (declared.len() + term.len())
}
