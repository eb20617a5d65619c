//! Cards at the edges: every number of items and every end in buffers of every telling length, numbers of each count of
//! digits at each pump, the widest numbers.

use super::laws::LINE;
use super::CardCase;
use crate::compare::price::{edges, PriceCase};
use crate::compare::Case;
use crate::engine::RecipePrices;
use crate::make::cans::can_text;
use crate::make::file_of_text;
use crate::make::prices::{differing, table_of};

/// All of them.
pub fn all() -> Vec<CardCase> {
    [every_room(), every_end(), every_digit(), every_pump_alone(), rounded(), widest()].concat()
}

/// Words that serve every can here.
const PLENTY: usize = 40;

/// The can of these pulses, as a value, with a buffer of so many bytes for its card.
fn can(prices: RecipePrices, pulses: &[u32], room: usize) -> CardCase {
    let items: Vec<String> = pulses.iter().map(u32::to_string).collect();
    let file = file_of_text(&format!("{{N}} {}", can_text(&items)));
    CardCase { priced: PriceCase { prices, lent: Case::new(file, 0, PLENTY, PLENTY + 1) }, room }
}

/// Lists of 0 to 12 items in card buffers of every length up to more than the longest card has.
pub fn every_room() -> Vec<CardCase> {
    let longest = 10 * LINE;
    let rooms = (0..=longest + LINE + 1).chain([1_000, 16_384, 70_000]);
    let both = rooms.flat_map(|room| (0..=12).map(move |items| (items, room)));
    both.map(|(items, room)| can(differing(), &vec![1_001; items], room)).collect()
}

/// Each end of the pricing's own edges, its lists of up to 12 items that end as value, spent, error and full and its small
/// recipes, with card buffers of none, of a byte, too short by a byte, and of enough.
pub fn every_end() -> Vec<CardCase> {
    let cases = edges::other_ends().into_iter().chain(edges::small_buffers()).chain(edges::every_number_of_items());
    let rooms = [0, 10 * LINE, 1, 2 * LINE, 10 * LINE - 1, 2 * LINE - 1, LINE, 9 * LINE];
    cases.enumerate().map(|(turn, priced)| CardCase { priced, room: rooms[turn % rooms.len()] }).collect()
}

/// The least and the largest number of each count of digits from 1 to 8; 0 has one, too.
fn by_digits() -> impl Iterator<Item = u32> {
    (0..8).flat_map(|zeros| [10_u32.pow(zeros), (10_u32.pow(zeros + 1) - 1).min(16_777_215)]).chain([0])
}

/// Numbers of each count of digits at each pump, beside 1 and beside as many digits as there can be, at prices that leave
/// the number as it is, divide it by 1,000 or put three zeros behind it.
pub fn every_digit() -> Vec<CardCase> {
    let mut cases = Vec::new();
    let tables = [1_000, 1_000_000, 1].map(|price| table_of(|_| price));
    for (pump, pulses) in (0..9).flat_map(|pump| by_digits().map(move |pulses| (pump, pulses))) {
        for (table, other) in tables.iter().flat_map(|table| [(table, 1), (table, 16_777_215)]) {
            let mut items = [other; 9];
            items[pump] = pulses;
            cases.push(can(*table, &items, 10 * LINE + pump));
        }
    }
    cases
}

/// The same at the last of a list's pumps, those before it without a pulse, so that the total is the one charge.
pub fn every_pump_alone() -> Vec<CardCase> {
    let mut cases = Vec::new();
    for (pump, pulses) in (0..9).flat_map(|pump| by_digits().map(move |pulses| (pump, pulses))) {
        let items = [vec![0; pump], vec![pulses]].concat();
        for price in [0, 1, 10, 1_000, 100_000, 1_000_000] {
            cases.push(can(table_of(|_| price), &items, LINE * (pump + 2)));
        }
    }
    cases
}

/// Charges of one cent to a thousand that are rounded up, and the cent before and behind a power of ten.
fn rounded() -> Vec<CardCase> {
    let pulses = [1, 9, 11, 99, 101, 999, 1_001, 8_999, 9_001, 9_999];
    let tables = [999, 1_001, 99_999, 999_999].map(|price| table_of(|_| price));
    let both = tables.into_iter().flat_map(|table| pulses.map(|pulses| (table, pulses)));
    both.map(|(table, pulses)| can(table, &[pulses; 9], 10 * LINE)).collect()
}

/// The widest pulses, charges and totals, of one to nine pumps; and totals at each power of ten that nine charges reach.
pub fn widest() -> Vec<CardCase> {
    let dearest = table_of(|_| 1_000_000);
    let same = (1..=9).map(|items| can(dearest, &vec![16_777_215; items], LINE * (items + 1)));
    // Nine pumps at 1,000 cents a pulse: 100,000,000,000 cents are 100,000,000 pulses.
    let shares = [11_111_112, 11_111_111, 11_111_111, 11_111_111, 11_111_111, 11_111_111, 11_111_111, 11_111_111];
    let power = [&shares[..], &[11_111_111]].concat();
    let less = [&shares[..], &[11_111_110]].concat();
    same.chain([power, less].map(|items| can(dearest, &items, 10 * LINE))).collect()
}
