//! Cans with any choice of faults.

use super::PriceCase;
use crate::compare::faults::{self, Faults};
use crate::compare::Case;
use crate::engine::RecipePrices;
use crate::make::cans::PULSES;
use crate::make::prices::{differing, with_price, OVER, PLACES};
use model::file::{bytes_of, file};

/// The refusals in the order in which they are given.
pub const ORDER: [u32; 11] = [11, 1, 2, 3, 4, 5, 6, 7, 9, 8, 10];

/// The items of a can without the fault of 10.
pub const FEW: usize = 3;

/// Every choice of faults.
pub fn every() -> impl Iterator<Item = Faults> {
    faults::every(&ORDER)
}

/// The can with these faults, and prices, limit and buffers to show them.
pub fn case(faults: Faults) -> PriceCase {
    let (declared, term) = (if faults.has(9) { [3, 2] } else { [3, 1] }, term(faults));
    let words = term.len() - usize::from(faults.has(8));
    let longer = words + faults.chosen as usize % 3;
    let (first, second) = if faults.nesting_first { (words, longer) } else { (longer, words) };
    PriceCase { prices: prices(faults), lent: Case::new(bytes(faults, &declared, &term), u32::MAX, first, second) }
}

/// 11: a price that is too large, somewhere.
fn prices(faults: Faults) -> RecipePrices {
    let (place, over) = (faults.chosen as usize % PLACES, OVER[faults.chosen as usize % OVER.len()]);
    match faults.has(11) {
        true => with_price(differing(), place, over),
        false => differing(),
    }
}

/// 1: one byte too many. 2: a term offset that is too large.
fn bytes(faults: Faults, declared: &[u32], term: &[u32]) -> Vec<u8> {
    let mut bytes = file(declared, term);
    if faults.has(2) {
        bytes[12..16].copy_from_slice(&bytes_of(&[5 + declared.len() as u32]));
    }
    if faults.has(1) {
        bytes.push(0);
    }
    bytes
}

/// (if0 test list list): the test is 0 or a sum of the faults of 3 to 6, the list has the others.
fn term(faults: Faults) -> Vec<u32> {
    let list = list(faults);
    [&[23][..], &faults.sum(None), &list, &list].concat()
}

/// 10: more than nine items. 7: items that are not of the declared type. 9: the declared type is not {N}.
fn list(faults: Faults) -> Vec<u32> {
    let count = if faults.has(10) { 12 } else { FEW };
    let numbers = faults.has(7) == faults.has(9);
    let item = |pulses: u32| if numbers { vec![25, 17 + 256 * pulses] } else { vec![25, 30, 2, 33 + 256 * pulses] };
    let items = PULSES.iter().cycle().skip(faults.chosen as usize % PULSES.len()).take(count);
    let end = if numbers { [24, 1] } else { [24, 2] };
    items.flat_map(|&pulses| item(pulses)).chain(end).collect()
}
