//! The run compared: result and every word of both buffers, under many limits and capacities, with demand 3's laws, the law of
//! the counts, and the law that owners change no run.

use super::case::Case;
use super::lent::at_the_edges;
use super::ownerless::tried_ownerless;
use super::plan::{follow, plans};
use super::seen::{lend, show_both, Seen};
use super::tested::tested;
use super::{Counts, Plan};
use crate::engine::{RecipeRun, Run};
use crate::make::*;
use crate::random::Random;
use crate::stand_in::told;
use model::laws::{ends_alike, try_counts, try_reduction};
use model::{check, End};
use std::collections::BTreeSet;

/// Compares on every small recipe, every test of if0, every place of an owner, on the edges and on random files. A difference comes
/// back shrunk and shown.
pub fn compare_run(engine: Run, plan: Plan) -> Result<Counts, String> {
    let mut counts = Counts::default();
    if plan.start == 0 {
        fixed(engine, &mut counts)?;
    }
    plan.each_file(|index| random_file(engine, plan.seed, index, &mut counts))?;
    Ok(counts)
}

/// How often the laws are tried on a recipe's whole reduction, and comes a recipe with parts of other types.
const LAWS_EVERY: u64 = 8;

/// A maker of random files.
type Make = fn(&mut Random) -> Vec<u8>;

fn random_file(engine: Run, seed: u64, index: u64, counts: &mut Counts) -> Result<(), String> {
    let mut random = Random::new(seed, index);
    let make = random.weighted(&[(84, well_typed_file as Make), (4, mistaken_file), (12, damaged_file)]);
    let file = make(&mut random);
    counts.files += 1;
    let (case, larger) = plans(&mut random, file);
    let ran = compare_twice(engine, &case, &larger, counts)?;
    counts.tested(tested(&case.file, &ran));
    counts.owners.ran(&case.file, &ran);
    if !index.is_multiple_of(LAWS_EVERY) {
        return Ok(());
    }
    laws(&case.file, &ran, counts)?;
    counts.files += 1;
    compare_once(engine, &Case::new(mismatched_file(&mut random), 3, 9, 8), counts).map(drop)
}

/// A run, and if it ends as a value or an error a second that is lent at least as much and must end the same. Answers
/// with the first.
pub fn compare_twice(engine: Run, case: &Case, larger: &Case, counts: &mut Counts) -> Result<model::Run, String> {
    let first = compare_once(engine, case, counts)?;
    if first.result.is_ok_and(|ended| matches!(ended.end, End::Value | End::Error)) {
        let second = compare_once(engine, larger, counts)?;
        if !ends_alike(&first, &second) {
            return Err(format!("two runs end apart\n{}{}", case.show(), larger.show()));
        }
    }
    Ok(first)
}

/// Tries demand 3 on what a file's reduction comes to, and the law of the counts on its run.
pub fn laws(file: &[u8], ran: &model::Run, counts: &mut Counts) -> Result<(), String> {
    let Ok(recipe) = check(file) else { return Ok(()) };
    let shown = |law: String| format!("{law}\n{}", super::show_file(file));
    counts.laws += u64::from(try_reduction(&recipe, 60, 3_000).map_err(shown)?);
    match &ran.result {
        Ok(ended) => try_counts(&recipe, ended).map_err(shown),
        Err(_) => Ok(()),
    }
}

/// The files that are the same in every comparison.
fn fixed(engine: Run, counts: &mut Counts) -> Result<(), String> {
    let mut outcome = Ok(());
    every_small_recipe(&mut |file| {
        if outcome.is_ok() {
            outcome = small(engine, file, counts);
        }
    });
    outcome?;
    for file in every_test().into_iter().chain(every_sealed()).chain(every_owner()).chain(every_two_owners()) {
        small(engine, file, counts)?;
    }
    for file in edges() {
        counts.files += 1;
        compare_once(engine, &Case::new(file, 3, 9, 8), counts)?;
    }
    let lent = at_the_edges();
    counts.files += lent.iter().map(|case| &case.file).collect::<BTreeSet<_>>().len() as u64;
    for case in lent {
        compare_once(engine, &case, counts)?;
    }
    for (file, capacity) in deep_recipes(3_000) {
        counts.files += 1;
        compare_once(engine, &Case::new(file.clone(), u32::MAX, capacity, capacity + 1), counts)?;
        compare_once(engine, &Case::new(file, 100, 4_096, 4_096), counts)?;
    }
    Ok(())
}

/// A small recipe under every small limit and capacity.
fn small(engine: Run, file: Vec<u8>, counts: &mut Counts) -> Result<(), String> {
    if check(&file).is_err() {
        return Ok(());
    }
    counts.files += 1;
    let followed = follow(&file);
    let largest = followed.largest();
    for limit in [0, 1, 2, if followed.ends { u32::MAX } else { 3 }] {
        for capacity in [0, largest.saturating_sub(1), largest, largest + 1] {
            compare_once(engine, &Case::new(file.clone(), limit, capacity, capacity + 1), counts)?;
        }
    }
    Ok(())
}

/// One run of the engine beside one of the model, and beside its own run without owners. A difference comes back shrunk and shown.
pub fn compare_once(engine: Run, case: &Case, counts: &mut Counts) -> Result<model::Run, String> {
    let model = by_model(case);
    counts.runs += 1;
    match &model.result {
        Ok(ended) => counts.ended(ended),
        Err(refusal) => counts.refused(refusal),
    }
    counts.file(&case.file, model.result.as_ref().err());
    counts.rules(&model.rules);
    let seen = by_engine(engine, case);
    if seen_of(&model) != seen {
        let differs = |case: &Case| seen_of(&by_model(case)) != by_engine(engine, case);
        let small = case.shrunk(&mut |case| case.is_short() && differs(case));
        return Err(small.show() + &show_both(&seen_of(&by_model(&small)), &by_engine(engine, &small)));
    }
    counts.owners.ownerless += u64::from(tried_ownerless(engine, case, &seen)?);
    Ok(model)
}

/// The model's run.
fn by_model(case: &Case) -> model::Run {
    model::run(&case.file, case.limit, case.first, case.second)
}

/// The engine's run with buffers full of rubbish.
pub fn by_engine(engine: Run, case: &Case) -> Seen<RecipeRun> {
    lend(case, |first, second| engine(&case.file, case.limit, first, second))
}

/// What the model answered and left.
fn seen_of(run: &model::Run) -> Seen<RecipeRun> {
    Seen { answer: told(&run.result), first: run.first.clone(), second: run.second.clone(), within: true }
}
