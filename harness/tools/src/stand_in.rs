//! The model in the engine's place: its check, its run, its pricing, its card, its save and its reader of nodes with the
//! engine's own signatures.

use crate::engine::{RecipeCard, RecipePriced, RecipePrices, RecipeRun, RecipeSaved};
use model::check::answer;
use model::step::{Reduction, Turn};
use model::{Carded, Charges, Class, Ended, Priced, Refusal};

/// The model's check: 0 for accepted, else number + 256 x place.
pub fn check(file: &[u8]) -> u64 {
    answer(&model::check(file))
}

/// The model's run in two lent buffers.
pub fn run(file: &[u8], limit: u32, first: &mut [u32], second: &mut [u32]) -> RecipeRun {
    run_by(Turn::step, file, limit, first, second)
}

/// The same under another reduction.
pub fn run_by(reduction: Reduction, file: &[u8], limit: u32, first: &mut [u32], second: &mut [u32]) -> RecipeRun {
    let ran = model::run::run_by(reduction, file, limit, (first.len(), second.len()));
    first.copy_from_slice(&ran.first);
    second.copy_from_slice(&ran.second);
    told(&ran.result)
}

/// A result as the engine tells it.
pub fn told(result: &Result<Ended, Refusal>) -> RecipeRun {
    match *result {
        Err(Refusal { number, place }) => RecipeRun { refusal: number, place, ..RecipeRun::default() },
        Ok(Ended { end, code, steps, left, wanted, classes }) => {
            let [calls, conversions, others] = Class::ALL.map(|class| classes.of(class));
            RecipeRun { refusal: 0, place: 0, end: end as u32, code, steps, left, wanted, calls, conversions, others }
        }
    }
}

/// The model's pricing in two lent buffers.
pub fn price(prices: &RecipePrices, file: &[u8], limit: u32, first: &mut [u32], second: &mut [u32]) -> RecipePriced {
    let priced = model::price(&prices.cents, file, limit, first.len(), second.len());
    first.copy_from_slice(&priced.run.first);
    second.copy_from_slice(&priced.run.second);
    told_priced(&priced)
}

/// A pricing as the engine tells it: all amounts are 0 where there is no charge.
pub fn told_priced(priced: &Priced) -> RecipePriced {
    let (total, charge) = match &priced.charges {
        Some(Charges { total, each, .. }) => (*total, *each),
        None => (0, [0; 9]),
    };
    RecipePriced { run: told(&priced.run.result), total, charge }
}

/// The model's card in three lent buffers.
pub fn card(
    prices: &RecipePrices,
    file: &[u8],
    limit: u32,
    first: &mut [u32],
    second: &mut [u32],
    card: &mut [u8],
) -> RecipeCard {
    let carded = model::card(&prices.cents, file, limit, (first.len(), second.len()), card.len());
    first.copy_from_slice(&carded.priced.run.first);
    second.copy_from_slice(&carded.priced.run.second);
    card.copy_from_slice(&carded.card);
    told_card(&carded)
}

/// A card as the engine tells it.
pub fn told_card(carded: &Carded) -> RecipeCard {
    RecipeCard { priced: told_priced(&carded.priced), bytes: carded.bytes as u32 }
}

/// The model's save in a lent buffer.
pub fn save(declared: &[u32], term: &[u32], out: &mut [u8]) -> RecipeSaved {
    let saved = model::save(declared, term, out.len());
    out.copy_from_slice(&saved.buffer);
    told_saved(&saved.result)
}

/// A save as the engine tells it.
pub fn told_saved(result: &Result<usize, Refusal>) -> RecipeSaved {
    match *result {
        Ok(length) => RecipeSaved { refusal: 0, place: 0, bytes: length as u32 },
        Err(Refusal { number, place }) => RecipeSaved { refusal: number, place, bytes: 0 },
    }
}

/// The model's reader of nodes.
pub fn node(words: &[u32], at: usize) -> usize {
    model::nodes::size_at(words, at)
}
