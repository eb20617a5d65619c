//! The pricing compared: the answer with every charge and the total, and every word of both buffers, over cans, other
//! recipes and damaged files, under many price tables, limits and capacities.

mod case;
mod counts;
pub mod edges;
pub mod faults;

use super::plan::plans;
use super::{Case, Plan};
use crate::engine::Price;
use crate::make::cans::can_file;
use crate::make::prices::{any_prices, differing};
use crate::make::*;
use crate::random::Random;
use model::laws::ends_alike;
use model::{End, Priced};

pub use case::PriceCase;
pub use counts::PriceCounts;

/// Compares at the edges, with every choice of faults, on small recipes and on random files. A difference comes back shrunk
/// and shown.
pub fn compare_price(engine: Price, plan: Plan) -> Result<PriceCounts, String> {
    let mut counts = PriceCounts::default();
    if plan.start == 0 {
        fixed(engine, &mut counts)?;
    }
    plan.each_file(|index| random_file(engine, plan.seed, index, &mut counts))?;
    Ok(counts)
}

/// A random file under random prices; at a value or an error also with more lent, which must end the same.
fn random_file(engine: Price, seed: u64, index: u64, counts: &mut PriceCounts) -> Result<(), String> {
    let mut random = Random::new(seed, index);
    let file = any_file(&mut random);
    let prices = any_prices(&mut random);
    let (lent, larger) = plans(&mut random, file);
    let (case, larger) = (PriceCase { prices, lent }, PriceCase { prices, lent: larger });
    let first = case.compare(engine, counts)?;
    if first.run.result.is_ok_and(|ended| matches!(ended.end, End::Value | End::Error)) {
        let second = larger.compare(engine, counts)?;
        if !priced_alike(&first, &second) {
            return Err(format!("two pricings end apart\n{}{}", case.show(), larger.show()));
        }
    }
    Ok(())
}

/// Whether the second, lent at least as much, ended as the first did, with the same charges.
fn priced_alike(first: &Priced, second: &Priced) -> bool {
    ends_alike(&first.run, &second.run) && first.charges == second.charges
}

/// A can, a recipe of any type, or one of these damaged.
pub fn any_file(random: &mut Random) -> Vec<u8> {
    let mut bytes = if random.chance(85) { can_file(random) } else { well_typed_file(random) };
    for _ in 0..random.weighted(&[(78, 0), (17, 1), (4, 2), (1, 4)]) {
        bytes = damage(random, bytes);
    }
    bytes
}

/// What is the same in every comparison.
fn fixed(engine: Price, counts: &mut PriceCounts) -> Result<(), String> {
    for case in edges::all() {
        case.compare(engine, counts)?;
    }
    every_choice_of_faults(engine, counts)?;
    let mut outcome = Ok(());
    let mut each = |file: Vec<u8>| {
        if outcome.is_ok() {
            outcome = small(engine, file, counts);
        }
    };
    every_small_recipe(&mut each);
    crate::make::edges().into_iter().for_each(each);
    outcome
}

/// A file with few words lent.
fn small(engine: Price, file: Vec<u8>, counts: &mut PriceCounts) -> Result<(), String> {
    PriceCase { prices: differing(), lent: Case::new(file, 3, 9, 8) }.compare(engine, counts).map(drop)
}

/// Every choice of faults. One that is given while another fits too is counted as given before that one: without its own
/// fault, the other is given.
fn every_choice_of_faults(engine: Price, counts: &mut PriceCounts) -> Result<(), String> {
    for faults in faults::every() {
        let Err(given) = faults::case(faults).compare(engine, counts)?.run.result else { continue };
        let cured = faults::case(faults.without(given.number)).compare(engine, counts)?;
        if let Err(next) = cured.run.result {
            counts.given_before(given.number, next.number);
        }
    }
    Ok(())
}
