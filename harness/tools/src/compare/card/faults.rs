//! Cans with any choice of faults, a card's buffer that is too short among them.

use super::laws::LINE;
use super::CardCase;
use crate::compare::faults::{self, Faults};
use crate::compare::price::faults as priced;

/// The refusals in the order in which they are given.
pub const ORDER: [u32; 12] = [11, 1, 2, 3, 4, 5, 6, 7, 9, 8, 10, 14];

/// Every choice of faults.
pub fn every() -> impl Iterator<Item = Faults> {
    faults::every(&ORDER)
}

/// The can with these faults. 14: a buffer that is a byte too short for the card of three items, or of no bytes; a can that
/// has the fault of 10 has twelve.
pub fn case(faults: Faults) -> CardCase {
    let length = LINE * (priced::FEW + 1);
    let room = match (faults.has(14), faults.nesting_first) {
        (true, true) => length - 1,
        (true, false) => 0,
        (false, _) => length + faults.chosen as usize % 3,
    };
    CardCase { priced: priced::case(faults), room }
}
