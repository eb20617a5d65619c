//! The batch card compared: the answer with every number, every byte of the card's buffer and every word of both others, over
//! cans, other recipes and damaged files, in buffers of many lengths; and what document 02 says of a card looked at in the
//! engine's answers alone.

mod case;
mod counts;
pub mod edges;
pub mod faults;
pub mod laws;

use super::plan::plans;
use super::price::{any_file, PriceCase};
use super::{Case, Plan};
use crate::engine::{Card, Price};
use crate::make::prices::{any_prices, differing};
use crate::make::*;
use crate::random::Random;
use laws::LINE;

pub use case::{kept_by, CardCase, Kept};
pub use counts::CardCounts;

/// The engine's functions that a card is compared with.
#[derive(Clone, Copy)]
pub struct CardingEngine {
    pub price: Price,
    pub card: Card,
}

/// Compares at the edges, with every choice of faults, on small recipes and on random files. A difference comes back shrunk
/// and shown.
pub fn compare_card(engine: CardingEngine, plan: Plan) -> Result<CardCounts, String> {
    let mut counts = CardCounts::default();
    if plan.start == 0 {
        fixed(engine, &mut counts)?;
    }
    plan.each_file(|index| random_file(engine, plan.seed, index, &mut counts))?;
    Ok(counts)
}

/// A random file under random prices, with a random buffer for its card; where there is a card or might be one, once more
/// with more lent.
fn random_file(engine: CardingEngine, seed: u64, index: u64, counts: &mut CardCounts) -> Result<(), String> {
    let mut random = Random::new(seed, index);
    let file = any_file(&mut random);
    let prices = any_prices(&mut random);
    let (lent, larger) = plans(&mut random, file);
    let length = LINE * (1 + random.below(10));
    let room = any_room(&mut random, length);
    let first = CardCase { priced: PriceCase { prices, lent }, room }.compare(engine, counts)?;
    if first.bytes == 0 && first.priced.run.result.is_err_and(|refusal| refusal.number != 14) {
        return Ok(());
    }
    let due = if first.bytes > 0 { first.bytes } else { 10 * LINE };
    let room = any_room(&mut random, due);
    CardCase { priced: PriceCase { prices, lent: larger }, room }.compare(engine, counts).map(drop)
}

/// A length of the card's buffer, where a card of so many bytes is due: just that, a byte or a line less or more, none, any.
fn any_room(random: &mut Random, due: usize) -> usize {
    let any = random.below(due + 2 * LINE);
    let lengths = [(30, due), (12, due - 1), (8, due + 1), (6, due - LINE), (6, due + LINE), (18, 10 * LINE)];
    random.weighted(&[&lengths[..], &[(10, 0), (10, any)]].concat())
}

/// What is the same in every comparison.
fn fixed(engine: CardingEngine, counts: &mut CardCounts) -> Result<(), String> {
    for case in edges::all() {
        case.compare(engine, counts)?;
    }
    every_choice_of_faults(engine, counts)?;
    let (mut outcome, mut turn) = (Ok(()), 0);
    let mut each = |file: Vec<u8>| {
        if outcome.is_ok() {
            turn += 1;
            let priced = PriceCase { prices: differing(), lent: Case::new(file, 3, 9, 8) };
            let room = [0, 10 * LINE, LINE, 2 * LINE - 1, 3 * LINE][turn % 5];
            outcome = CardCase { priced, room }.compare(engine, counts).map(drop);
        }
    };
    every_small_recipe(&mut each);
    crate::make::edges().into_iter().for_each(each);
    outcome
}

/// Every choice of faults. One that is given while another fits too is counted as given before that one: without its own
/// fault, the other is given.
fn every_choice_of_faults(engine: CardingEngine, counts: &mut CardCounts) -> Result<(), String> {
    for faults in faults::every() {
        let Err(given) = faults::case(faults).compare(engine, counts)?.priced.run.result else { continue };
        let cured = faults::case(faults.without(given.number)).compare(engine, counts)?;
        if let Err(next) = cured.priced.run.result {
            counts.given_before(given.number, next.number);
        }
    }
    Ok(())
}
