//! The check compared: the engine's answer, number and place, with the model's.

use super::report::show_file;
use super::{Counts, Plan};
use crate::engine::Check;
use crate::make::*;
use crate::random::Random;
use crate::shrink::shrink;
use model::check;
use model::check::answer;

/// Compares on every small file, on the edges and on random files. A difference comes back shrunk and shown.
pub fn compare_check(engine: Check, plan: Plan) -> Result<Counts, String> {
    let mut counts = Counts::default();
    if plan.start == 0 {
        fixed(engine, &mut counts)?;
    }
    plan.each_file(|index| {
        compare_file(engine, &random_file(plan.seed, index), &mut counts)?;
        match index.is_multiple_of(MISMATCHED_EVERY) {
            true => compare_file(engine, &mismatched_file(&mut Random::new(plan.seed, index)), &mut counts),
            false => Ok(()),
        }
    })?;
    Ok(counts)
}

/// With one random file of so many comes a recipe with parts of other types.
const MISMATCHED_EVERY: u64 = 2;

fn random_file(seed: u64, index: u64) -> Vec<u8> {
    let mut random = Random::new(seed, index);
    if random.chance(40) {
        well_typed_file(&mut random)
    } else {
        damaged_file(&mut random)
    }
}

/// The files that are the same in every comparison.
fn fixed(engine: Check, counts: &mut Counts) -> Result<(), String> {
    let mut outcome = Ok(());
    let mut each = |file: Vec<u8>| {
        if outcome.is_ok() {
            outcome = compare_file(engine, &file, counts);
        }
    };
    every_small_term(&mut each);
    every_small_type(&mut each);
    every_small_recipe(&mut each);
    edges().into_iter().for_each(&mut each);
    outcome
}

/// The engine's check of one file beside the model's. A difference comes back shrunk and shown.
pub fn compare_file(engine: Check, file: &[u8], counts: &mut Counts) -> Result<(), String> {
    let checked = check(file);
    counts.files += 1;
    match &checked {
        Ok(_) => counts.accepted += 1,
        Err(refusal) => counts.refused(refusal),
    }
    counts.file(file, checked.as_ref().err());
    match engine(file) == answer(&checked) {
        true => Ok(()),
        false => Err(difference(engine, file)),
    }
}

fn difference(engine: Check, file: &[u8]) -> String {
    let small = shrink(file.to_vec(), &mut |file| engine(file) != answer(&check(file)));
    let (model, engine) = (spoken(answer(&check(&small))), spoken(engine(&small)));
    format!("{}model:    {model}\nengine:   {engine}\n", show_file(&small))
}

fn spoken(answer: u64) -> String {
    match answer {
        0 => "accepted".into(),
        _ => format!("refused {} at place {}", answer % 256, answer / 256),
    }
}
