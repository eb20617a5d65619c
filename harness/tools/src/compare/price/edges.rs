//! Pricings at the edges: each price and each count of pulses at each pump, each number of items at each end, short and
//! unequal buffers, long lists.

use super::PriceCase;
use crate::compare::Case;
use crate::engine::RecipePrices;
use crate::make::cans::{can_text, counted_down, PULSES};
use crate::make::file_of_text;
use crate::make::prices::{differing, table_of, with_price, OVER, PLACES, PRICES};

/// All of them.
pub fn all() -> Vec<PriceCase> {
    [every_price(), every_count(), every_number_of_items(), other_ends(), small_buffers(), long_lists()].concat()
}

/// Words that serve every recipe here but the long lists.
const PLENTY: usize = 100;

/// A pricing of the recipe of a text.
fn case(prices: RecipePrices, text: &str, limit: u32, lengths: (usize, usize)) -> PriceCase {
    PriceCase { prices, lent: Case::new(file_of_text(text), limit, lengths.0, lengths.1) }
}

/// A can of these pulses, as a value, with enough lent.
fn can(prices: RecipePrices, pulses: &[u32]) -> PriceCase {
    let items: Vec<String> = pulses.iter().map(u32::to_string).collect();
    case(prices, &format!("{{N}} {}", can_text(&items)), 0, (PLENTY, PLENTY))
}

/// Nine counts of pulses in each band.
const IN_BAND: [[u32; 9]; 3] = [
    [1, 999, 1_000, 1_001, 9_999, 5_000, 2, 3_333, 9_998],
    [10_000, 99_999, 10_001, 54_321, 99_998, 20_000, 77_777, 10_999, 90_001],
    [100_000, 16_777_215, 100_001, 16_777_214, 1_000_000, 999_999, 4_294_968, 123_457, 8_388_608],
];

/// Each telling price at each of the 27 places, the others all differing, with every pump in each band.
pub fn every_price() -> Vec<PriceCase> {
    let prices = PRICES.into_iter().chain(OVER);
    let tables = prices.flat_map(|price| (0..PLACES).map(move |place| with_price(differing(), place, price)));
    tables.flat_map(|table| IN_BAND.map(|pulses| can(table, &pulses))).collect()
}

/// Each telling count of pulses at each pump, the others one pulse each or none, under prices that differ or do not.
pub fn every_count() -> Vec<PriceCase> {
    let mut cases = Vec::new();
    let tables = [differing(), table_of(|_| 1), table_of(|_| 999_999), table_of(|_| 1_000_000), table_of(|_| 0)];
    for table in tables {
        for (pump, pulses) in (0..9).flat_map(|pump| PULSES.map(|pulses| (pump, pulses))) {
            let (mut others, mut alone) = ([1; 9], vec![0; pump]);
            others[pump] = pulses;
            alone.push(pulses);
            cases.extend([can(table, &others), can(table, &alone)]);
        }
    }
    cases
}

/// Lists of 0 to 12 items that are values, that come from Scheme, or that a function counts down, under every limit from 0
/// to more than enough.
pub fn every_number_of_items() -> Vec<PriceCase> {
    let mut cases = Vec::new();
    for count in 0..=12 {
        let items = vec!["1001".to_string(); count];
        let scheme = items.iter().fold("nil".to_string(), |rest, item| format!("(cons {item} {rest})"));
        for list in [can_text(&items), format!("(ms {{N}} {scheme})"), counted_down(count)] {
            let text = format!("{{N}} {list}");
            let limits = (0..=5 * count as u32 + 3).chain([u32::MAX]);
            cases.extend(limits.map(|limit| case(differing(), &text, limit, (PLENTY, PLENTY + 1))));
        }
    }
    cases
}

/// Terms of type N, as the last item of a list that is no value: a sum, which is spent under limit 0; a wrong; and a step
/// to a term of four words more.
const LAST: [&str; 3] = ["(add 1 2)", "(wrong 9 N)", "(app (ms (N to N) (fn v0)) 7)"];

/// Lists of 1 to 12 items that end as spent, error and full, and with one step or word more as a value, if they do.
pub fn other_ends() -> Vec<PriceCase> {
    let mut cases = Vec::new();
    for (count, last) in (1..=12).flat_map(|count| LAST.map(|last| (count, last))) {
        let mut items = vec!["1001".to_string(); count];
        items[count - 1] = last.into();
        let text = format!("{{N}} {}", can_text(&items));
        let words = (file_of_text(&text).len() - 24) / 4;
        for (limit, more) in (0..=6).chain([u32::MAX]).flat_map(|limit| [0, 3, 4, 5].map(|more| (limit, more))) {
            cases.push(case(differing(), &text, limit, (words + more, words + more + 1)));
            cases.push(case(differing(), &text, limit, (words + more + 1, words + more)));
        }
    }
    cases
}

/// Recipes of few words: cans that end in each of the ways, and one that is none.
const SMALL: [&str; 6] = [
    "{N} (nil N)",
    "{N} (cons 10000 (nil N))",
    "{N} (cons (add 2 3) (nil N))",
    "{N} (ms {N} (cons 1 nil))",
    "{N} (wrong 9 {N})",
    "N 5",
];

/// Each small recipe with every two lengths from none to more than its terms have, under the first limits and the last.
pub fn small_buffers() -> Vec<PriceCase> {
    let mut cases = Vec::new();
    for (text, limit) in SMALL.into_iter().flat_map(|text| [0, 1, u32::MAX].map(|limit| (text, limit))) {
        let lengths = (0..=12).flat_map(|first| (0..=12).map(move |second| (first, second)));
        cases.extend(lengths.map(|lengths| case(differing(), text, limit, lengths)));
    }
    cases
}

/// Lists of far more than nine items: as a value in the file, and counted down in many steps.
pub fn long_lists() -> Vec<PriceCase> {
    let literal = can_text(&vec!["16777215".to_string(); 250]);
    [literal, counted_down(100), counted_down(700)]
        .iter()
        .flat_map(|list| [0, 1, 50, u32::MAX].map(|limit| (format!("{{N}} {list}"), limit)))
        .map(|(text, limit)| case(differing(), &text, limit, (4_096, 4_100)))
        .collect()
}
