//! What a comparison of readers of nodes has reached: kinds, owners, words that are no node, faults inside nodes, places past the
//! end, sizes and nesting.

use crate::compare::counts::add;
use model::kinds::{Kind, KINDS, LUMP};
use model::nodes::{is_one_word, Not, Whole, Why};
use model::read::DEEPEST;
use model::run::MOST_WORDS;
use model::text::kind_name;
use model::tree::MOST_OWNER;

/// All that is counted of asks.
pub struct NodeCounts {
    pub asks: u64,
    /// Whole nodes by the kind of their first word.
    whole: [u64; 256],
    /// By `OWNERS`, `SIZES`, `NONE`, `INSIDE` and `PAST`.
    owners: [u64; OWNERS.len()],
    sizes: [u64; SIZES.len()],
    none: [u64; NONE.len()],
    inside: [u64; INSIDE.len()],
    past: [u64; PAST.len()],
    nested: u64,
    empty: u64,
}

/// Counts of a whole node's words.
const SIZES: [&str; 6] = [
    "of 1 word",
    "of 2 words",
    "of 3 words",
    "of over 100 words",
    "of over 1,000 words",
    "of 16,384 words, the most tried",
];

/// Words at the place itself that start no node, whatever stands behind them.
const NONE: [&str; 11] = [
    "kind 0",
    "kind 5 to 15",
    "kind 31",
    "kind 46 to 63",
    "kind 64 to 255",
    "N with an operand",
    "L with an owner over 255",
    "Scheme nil with an operand",
    "Scheme wrong with code 0",
    "Scheme wrong with a code over 65,535",
    "a kind with parts and an operand past its range",
];

/// Why a node that starts is not whole.
const INSIDE: [&str; 5] = [
    "a part that is no kind",
    "a part of another sort",
    "a part with an operand past its range",
    "parts that run out",
    "a part that is an L with an owner over 255",
];

/// Owners of an L that is a whole node.
const OWNERS: [&str; 3] = ["owner 0", "an owner from 1 to 254", "owner 255"];

/// Places past the end of words that are some.
const PAST: [&str; 7] = [
    "just past the end",
    "one further",
    "two further",
    "at 2^32",
    "at 2^63",
    "at the last place but one that can be asked about",
    "at the last place that can be asked about",
];

impl Default for NodeCounts {
    fn default() -> NodeCounts {
        let (sizes, none) = ([0; SIZES.len()], [0; NONE.len()]);
        let (inside, past, owners) = ([0; INSIDE.len()], [0; PAST.len()], [0; OWNERS.len()]);
        NodeCounts { asks: 0, whole: [0; 256], owners, sizes, none, inside, past, nested: 0, empty: 0 }
    }
}

impl NodeCounts {
    /// Counts an ask, by what the model answers.
    pub fn asked(&mut self, words: &[u32], at: usize, answer: &Result<Whole, Not>) {
        self.asks += 1;
        self.empty += u64::from(words.is_empty());
        match (answer, words.get(at)) {
            (Ok(whole), Some(word)) => self.answered(*word, whole),
            (Err(Not { place, .. }), Some(word)) if *place == at => self.started_none(*word),
            (Err(Not { why, place }), Some(_)) => {
                let lump = *why == Why::Operand && words[*place] % 256 == LUMP;
                let [no_kind, sort, operand, past] =
                    [Why::NoKind, Why::OtherSort, Why::Operand, Why::PastTheEnd].map(|kind| kind == *why);
                add(&mut self.inside, [no_kind, sort, operand, past, lump]);
            }
            (_, None) => self.asked_past(words, at),
        }
    }

    /// Counts a whole node, by its first word.
    fn answered(&mut self, word: u32, whole: &Whole) {
        let words = whole.words;
        self.whole[word as usize % 256] += 1;
        self.nested += u64::from(whole.levels > DEEPEST);
        let owner = (word % 256 == LUMP).then_some(word / 256);
        let kinds = [0..=0, 1..=MOST_OWNER - 1, MOST_OWNER..=MOST_OWNER];
        add(&mut self.owners, kinds.map(|kind| owner.is_some_and(|owner| kind.contains(&owner))));
        add(&mut self.sizes, [words == 1, words == 2, words == 3, words > 100, words > 1_000, words == MOST_WORDS]);
    }

    /// Counts a word that starts no node, whatever stands behind it.
    fn started_none(&mut self, word: u32) {
        let (kind, operand) = (word % 256, word / 256);
        add(
            &mut self.none,
            [
                kind == 0,
                (5..=15).contains(&kind),
                kind == 31,
                (46..=63).contains(&kind),
                kind >= 64,
                kind == 1,
                kind == 2,
                kind == 39,
                kind == 44 && operand == 0,
                kind == 44 && operand > 0,
                KINDS.iter().any(|row| row.number == kind && !row.parts.is_empty()),
            ],
        );
    }

    /// Counts a place past the end, if there are words before it.
    fn asked_past(&mut self, words: &[u32], at: usize) {
        let further = at - words.len();
        let (last, far) = (usize::MAX, [at == 1 << 32, at == 1 << 63]);
        let kinds = [further == 0, further == 1, further == 2, far[0], far[1], at == last - 1, at == last];
        if !words.is_empty() {
            add(&mut self.past, kinds);
        }
    }

    /// The table of the comparison.
    pub fn rows(&self) -> Vec<(String, u64)> {
        let named = |name: &str, names: &[&str], counts: &[u64]| -> Vec<(String, u64)> {
            names.iter().zip(counts).map(|(row, count)| (format!("{name}{row}"), *count)).collect()
        };
        let whole = KINDS.iter().map(|row| (kind_row(row), self.whole[row.number as usize]));
        let nested = (format!("node nested deeper than {DEEPEST}"), self.nested);
        let rows = whole.chain(named("type L with ", &OWNERS, &self.owners));
        let rows = rows.chain(named("node ", &SIZES, &self.sizes)).chain([nested]);
        let rows = rows.chain(named("none: ", &NONE, &self.none)).chain(named("none: ", &INSIDE, &self.inside));
        rows.chain(named("place ", &PAST, &self.past)).chain([("the empty words".to_string(), self.empty)]).collect()
    }
}

/// The row of the whole nodes of a kind.
fn kind_row(row: &Kind) -> String {
    let name = kind_name(row);
    match is_one_word(row.number + 256 * row.least) {
        true => format!("{name}, one word"),
        false => format!("{name}, with its parts"),
    }
}
