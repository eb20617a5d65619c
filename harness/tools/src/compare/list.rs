//! The listing compared: what the built program prints of a file, byte by byte, with what the model says.

use super::plan::follow;
use super::report::show_file;
use super::{Counts, Plan};
use crate::make::*;
use crate::random::Random;
use model::file::file;
use model::text::parse_recipe;
use model::{run, Class, Run};
use std::io::Write;
use std::path::Path;
use std::process::{Command, Stdio};

/// "lends 1,000,000 steps and 4,096 words".
const STEPS: u32 = 1_000_000;
const WORDS: usize = 4_096;

/// Recipes whose runs are long, with two calls, two conversions and an other in each round: one that is spent, and one
/// whose terms grow until they are full.
const LONG: [&str; 2] = [
    "N (app (fix (fn (N to N) (fn N (app v1 (ms N (add (sm N v0) 0)))))) 7)",
    "{N} (app (fix (fn (N to {N}) (fn N (cons v0 (app v1 (ms N (add (sm N v0) 1))))))) 0)",
];

/// One file at the edges of so many is listed: most are wrong headers, which the check's comparison takes all.
const EDGES_EVERY: usize = 20;

/// Compares on files at the edges, the long recipes and random files.
pub fn compare_list(program: &Path, plan: Plan) -> Result<Counts, String> {
    let mut counts = Counts::default();
    if plan.start == 0 {
        let edges = edges().into_iter().step_by(EDGES_EVERY).filter(|file| follow(file).ends);
        for file in edges.chain(LONG.map(recipe)) {
            compare(program, &file, &mut counts)?;
        }
    }
    plan.each_file(|index| {
        let mut random = Random::new(plan.seed, index);
        let file = if random.chance(75) { well_typed_file(&mut random) } else { damaged_file(&mut random) };
        match follow(&file).ends {
            true => compare(program, &file, &mut counts),
            false => Ok(()),
        }
    })?;
    Ok(counts)
}

/// What the listing prints of a file, by the model.
pub fn listed(bytes: &[u8]) -> String {
    text(&run(bytes, STEPS, WORDS, WORDS))
}

fn text(run: &Run) -> String {
    match &run.result {
        Err(refusal) => format!("refused {} {}\n", refusal.number, refusal.place),
        Ok(e) => {
            let classes = Class::ALL.map(|class| e.classes.of(class));
            let numbers = [&[e.code, e.steps, e.left, e.wanted][..], &classes].concat();
            format!("{} {}\n{}\n", e.end.name(), row(&numbers), row(&run.first[..e.left as usize]))
        }
    }
}

/// Numbers with single blanks between them.
fn row(numbers: &[u32]) -> String {
    numbers.iter().map(u32::to_string).collect::<Vec<_>>().join(" ")
}

fn recipe(text: &str) -> Vec<u8> {
    let recipe = parse_recipe(text).expect("a recipe");
    file(&recipe.declared, &recipe.term)
}

fn compare(program: &Path, file: &[u8], counts: &mut Counts) -> Result<(), String> {
    let model = run(file, STEPS, WORDS, WORDS);
    counts.files += 1;
    match &model.result {
        Ok(ended) => counts.ended(ended),
        Err(refusal) => counts.refused(refusal),
    }
    counts.file(file, model.result.as_ref().err());
    let (due, printed) = (text(&model), printed(program, file)?);
    match printed == due.as_bytes() {
        true => Ok(()),
        false => {
            let printed = String::from_utf8_lossy(&printed).into_owned();
            Err(format!("{}model:\n{due}listing:\n{printed}", show_file(file)))
        }
    }
}

/// What the program prints. It may end before it has read all of a file that is too long.
fn printed(program: &Path, file: &[u8]) -> Result<Vec<u8>, String> {
    let fault = |fault: std::io::Error| format!("{}: {fault}\n", program.display());
    let mut child = Command::new(program).stdin(Stdio::piped()).stdout(Stdio::piped()).spawn().map_err(fault)?;
    if let Some(mut input) = child.stdin.take() {
        let _ = input.write_all(file);
    }
    Ok(child.wait_with_output().map_err(fault)?.stdout)
}
