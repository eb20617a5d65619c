//! The save compared: the answer and every byte of the buffer, over words of recipes, damaged words and any others; runs that
//! are saved and go on beside one run, under many limits and capacities; and files that an earlier release has saved.

mod case;
mod counts;
mod earlier;
pub mod edges;
pub mod faults;
mod going;

use super::plan::{follow, lengths, Followed};
use super::{Case, Plan};
use crate::engine::{Check, Run, Save};
use crate::make::saves::{any_room, any_words, outgrowing};
use crate::make::*;
use crate::random::Random;
use earlier::EarlierCounts;
use model::check;
use model::run::MOST_WORDS;

pub use case::SaveCase;
pub use counts::{SaveCounts, PAIRS};
pub use earlier::Before;
pub use going::GoingOn;

/// The engine's functions that a saved run goes through.
#[derive(Clone, Copy)]
pub struct SavingEngine {
    pub check: Check,
    pub run: Run,
    pub save: Save,
}

/// Compares at the edges, with every choice of faults, on small recipes, on runs that outgrow a file, on random words and
/// files, and on files that were saved before U4. A difference comes back shrunk and shown.
pub fn compare_save(engine: SavingEngine, plan: Plan) -> Result<SaveCounts, String> {
    let mut counts = SaveCounts::default();
    if plan.start == 0 {
        fixed(engine, &mut counts)?;
    }
    plan.each_file(|index| random_file(engine, plan.seed, index, &mut counts))?;
    Ok(counts)
}

/// Pairs that are tried with a random recipe.
const PAIRS_EACH: usize = 3;

/// With one random file of so many comes a recipe that was run and saved before U4.
const EARLIER_EVERY: u64 = 4;

/// Random words in a random buffer, a random recipe whose run is saved and goes on, now and then one that was saved before U4,
/// and one with parts of other types.
fn random_file(engine: SavingEngine, seed: u64, index: u64, counts: &mut SaveCounts) -> Result<(), String> {
    let mut random = Random::new(seed, index);
    let (declared, term) = any_words(&mut random);
    let case = SaveCase { declared, term, room: 0 };
    let room = any_room(&mut random, case.file_bytes());
    case.in_room(room).compare(engine.save, counts)?;
    let file = well_typed_file(&mut random);
    let followed = follow(&file);
    for _ in 0..PAIRS_EACH {
        any_going_on(&mut random, &file, &followed).compare(engine, counts)?;
    }
    if index.is_multiple_of(EARLIER_EVERY) {
        saved_before(engine, &mut random, counts)?;
    }
    match SaveCase::of_file(&mismatched_file(&mut random)) {
        Some(case) => case.compare(engine.save, counts).map(drop),
        None => Ok(()),
    }
}

/// A recipe that was run and saved before U4; most often a script in it tests what is no number.
fn saved_before(engine: SavingEngine, random: &mut Random, counts: &mut SaveCounts) -> Result<(), String> {
    let file = if random.chance(80) { mistaken_file(random) } else { well_typed_file(random) };
    match check(&file) {
        Ok(recipe) => Before::new(recipe).compare(engine, random, counts),
        Err(_) => Ok(()),
    }
}

/// Limits around the steps that the run makes in a capacity, buffers that are equal or not, and now and then a short buffer
/// for the save.
fn any_going_on(random: &mut Random, file: &[u8], followed: &Followed) -> GoingOn {
    if random.chance(20) {
        return any_widened(random, file, followed);
    }
    let capacity = followed.capacity(random);
    let (steps, ends) = followed.steps_in(capacity);
    let (first, second) = lengths(random, capacity);
    let (any, over) = (random.below(steps as usize + 1) as u32, steps + 1 + random.below(3) as u32);
    let limit = random.weighted(&[(10, 0), (65, any), (10, steps), (15, over)]);
    let more = any_more(random, steps.saturating_sub(limit), ends.then_some(u32::MAX - limit));
    let any_room = any_room(random, 16 + 4 * capacity);
    let room = random.weighted(&[(96, going::ROOM), (4, any_room)]);
    GoingOn { lent: Case::new(file.to_vec(), limit, first, second), room, more, wider: 0 }
}

/// A run in less words than it takes, so that it ends as full, and more words for the second run.
fn any_widened(random: &mut Random, file: &[u8], followed: &Followed) -> GoingOn {
    let capacity = followed.too_small(random);
    let (steps, _) = followed.steps_in(capacity);
    let (first, second) = lengths(random, capacity);
    let wider = 1 + random.below(followed.largest());
    let (rest, ends) = followed.steps_in(capacity + wider);
    let more = any_more(random, rest.saturating_sub(steps), ends.then_some(u32::MAX - steps - 1));
    GoingOn { wider, ..GoingOn::new(Case::new(file.to_vec(), steps + 1, first, second), more) }
}

/// A second limit, at least 1: around the steps that are left, any, or the last, where the run ends by itself.
fn any_more(random: &mut Random, rest: u32, last: Option<u32>) -> u32 {
    let some = 1 + random.below(rest as usize + 3) as u32;
    random.weighted(&[(15, 1), (15, rest.max(1)), (15, rest + 1), (30, some), (25, last.unwrap_or(some))])
}

/// What is the same in every comparison.
fn fixed(engine: SavingEngine, counts: &mut SaveCounts) -> Result<(), String> {
    for case in edges::all() {
        case.compare(engine.save, counts)?;
    }
    every_choice_of_faults(engine, counts)?;
    small_words(engine, counts)?;
    small_recipes(engine, counts)?;
    outgrown(engine, counts)
}

/// Every choice of faults. One that is given while another fits too is counted as given before that one: without its own
/// fault, the other is given.
fn every_choice_of_faults(engine: SavingEngine, counts: &mut SaveCounts) -> Result<(), String> {
    for faults in faults::every() {
        let Err(given) = faults::case(faults).compare(engine.save, counts)?.result else { continue };
        let cured = faults::case(faults.without(given.number)).compare(engine.save, counts)?;
        if let Err(next) = cured.result {
            counts.given_before(given.number, next.number);
        }
    }
    Ok(())
}

/// The words of every small term, type and recipe, and of files at the edges whose header is in order, in buffers that are
/// just long enough, a byte too short and longer, by turns.
fn small_words(engine: SavingEngine, counts: &mut SaveCounts) -> Result<(), String> {
    let (mut outcome, mut turn) = (Ok(()), 0);
    let mut each = |file: Vec<u8>| {
        if let (true, Some(case)) = (outcome.is_ok(), SaveCase::of_file(&file)) {
            turn += 1;
            let rooms = [case.room, case.room - 1, case.room + turn % 7];
            outcome = case.in_room(rooms[turn % 3]).compare(engine.save, counts).map(drop);
        }
    };
    every_small_term(&mut each);
    every_small_type(&mut each);
    every_small_recipe(&mut each);
    crate::make::edges().into_iter().for_each(each);
    outcome
}

/// Every small recipe that has a first step, saved before it, and after it where there is a second, in the least capacity; and
/// recipes with lumps of two owners, saved after each of their steps.
fn small_recipes(engine: SavingEngine, counts: &mut SaveCounts) -> Result<(), String> {
    let mut outcome = Ok(());
    every_small_recipe(&mut |file| {
        if outcome.is_ok() && model::check(&file).is_ok() {
            outcome = (0..2).try_for_each(|limit| saved_after(engine, &file, limit, counts));
        }
    });
    outcome?;
    every_sealed().iter().try_for_each(|file| (0..8).try_for_each(|limit| saved_after(engine, file, limit, counts)))
}

/// A small recipe saved after so many steps, in the least capacity, or a word less after one.
fn saved_after(engine: SavingEngine, file: &[u8], limit: u32, counts: &mut SaveCounts) -> Result<(), String> {
    let capacity = follow(file).largest() - usize::from(limit == 1);
    let lent = Case::new(file.to_vec(), limit, capacity, capacity + 1);
    GoingOn::new(lent, 1 + limit).compare(engine, counts)
}

/// Runs that outgrow a file, saved after many numbers of steps; in large buffers and in small ones.
fn outgrown(engine: SavingEngine, counts: &mut SaveCounts) -> Result<(), String> {
    for (file, limit) in outgrowing().into_iter().flat_map(|file| limits().map(move |limit| (file.clone(), limit))) {
        for (capacity, more) in [(2_000, 40), (MOST_WORDS, 7)] {
            let lent = Case::new(file.clone(), limit, capacity, capacity + limit as usize % 2);
            GoingOn::new(lent, more + limit).compare(engine, counts)?;
        }
    }
    Ok(())
}

/// Numbers of steps: the first ones, around 256, and some between.
fn limits() -> impl Iterator<Item = u32> {
    (0..20).chain((20..800).step_by(29)).chain(250..260)
}
