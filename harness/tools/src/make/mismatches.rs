//! Recipes that are refused by 6 or 7: every way in which a node is not in order, at every depth and beside others; types that differ
//! in any word, and types longer than any file; and random recipes with parts exchanged for others.

use super::edges::balanced;
use super::forms::Maker;
use super::owners::{any_owner, compared, lump, wrong};
use super::types::any_type;
use crate::random::Random;
use model::build::n;
use model::file::file;
use model::kinds::{row_of, Sort, LUMP};
use model::node::{ml_words, Node};
use model::nodes::size_at;

/// Terms of which the root is not in order, or of an ms the sm in it, while its parts are: each way, most of them by several types.
pub const FAULTY: [&[u32]; 32] = [
    &[19, 17, 17],
    &[19, 24, 1, 17],
    &[19, 30, 2, 39, 17],
    &[19, 18, 1, 16, 24, 1],
    &[19, 18, lump(9), 17, 30, lump(7), 33],
    &[19, 18, 4, 1, 1, 17, 18, 1, 24, 1],
    &[20, 17],
    &[20, 24, 1],
    &[20, 18, 1, 24, 1],
    &[20, 18, lump(1), 30, 2, 39],
    &[21, 24, 1, 17],
    &[21, 17, 18, 1, 16],
    &[21, 24, 1, 24, 1],
    &[22, 30, 2, 39, 17],
    &[22, 17, 24, 1],
    &[23, 24, 1, 17, 17],
    &[23, 18, 1, 16, 24, 1, 17],
    &[23, 17, 17, 24, 1],
    &[23, 17, 24, lump(7), 24, lump(8)],
    &[25, 17, 17],
    &[25, 17, 24, 2],
    &[25, 17, 24, 3, 1],
    &[25, 24, 1, 24, 1],
    &[26, 17],
    &[26, 18, 3, 1, 16],
    &[27, 17],
    &[27, 30, 2, 39],
    &[28, 17],
    &[28, 18, 1, 24, 1],
    &[30, 1, 45, 3, 1, 17],
    &[30, 1, 45, lump(9), 30, lump(7), 39],
    &[30, 1, 40, 39, 45, 1, 24, 1],
];

/// What may stand around a term, the words before it and behind it, and by how many levels it is deeper then.
pub struct Around {
    before: &'static [u32],
    after: &'static [u32],
    levels: usize,
}

const fn around(before: &'static [u32], after: &'static [u32], levels: usize) -> Around {
    Around { before, after, levels }
}

/// Around a term of type N, so that the whole has type N again: in each part of ML's nodes, and in scripts.
pub const FITTING: [Around; 14] = [
    around(&[21, 17], &[], 1),
    around(&[21], &[17], 1),
    around(&[22, 17], &[], 1),
    around(&[23], &[17, 17], 1),
    around(&[23, 17], &[17], 1),
    around(&[23, 17, 17], &[], 1),
    around(&[19, 18, 1, 16], &[], 1),
    around(&[19, 18, 1], &[17], 2),
    around(&[20, 18, 1], &[], 2),
    around(&[26, 25], &[24, 1], 2),
    around(&[28, 25, 17, 25], &[24, 1], 3),
    around(&[30, 1, 45, 1], &[], 2),
    around(&[30, 1, 36, 45, 1], &[33], 3),
    around(&[30, 1, 35, 34, 45, 1], &[39], 4),
];

/// Around a term of type N, so that the node right around it has no type even if all its parts are in order. Of the first five this is
/// to be seen before the term is looked at.
pub const UNFIT: [Around; 9] = [
    around(&[21, 24, 1], &[], 1),
    around(&[22, 18, 1, 16], &[], 1),
    around(&[23, 24, 1], &[17], 1),
    around(&[23, 24, 1, 17], &[], 1),
    around(&[19, 17], &[], 1),
    around(&[20], &[], 1),
    around(&[26], &[], 1),
    around(&[25], &[17], 1),
    around(&[30, 1, 45, 2], &[], 2),
];

impl Around {
    /// The term so many levels deeper, or one step less than that.
    fn deep(&self, term: &[u32], levels: usize) -> Vec<u32> {
        let times = levels / self.levels;
        [&self.before.repeat(times), term, &self.after.repeat(times)].concat()
    }

    /// The term with this around it once.
    pub fn once(&self, term: &[u32]) -> Vec<u32> {
        self.deep(term, self.levels)
    }
}

/// How deep a term may be put: it nests a few levels itself.
const DEEPEST: usize = 251;

/// All that are the same in every comparison.
pub fn every_mismatch() -> Vec<Vec<u8>> {
    [every_way(), every_two_ways(), far_apart(), every_difference(), late_differences(), longest_types()].concat()
}

/// Each term that is not in order, by itself, with each thing around it once and as often as a file allows, and behind long types.
fn every_way() -> Vec<Vec<u8>> {
    let long = balanced(4, 1, 1_000);
    let each = |term: &&[u32]| {
        let fitting =
            FITTING.iter().flat_map(|around| [1, 3, 40, 120, DEEPEST].map(|levels| around.deep(term, levels)));
        let unfit = UNFIT.iter().flat_map(|around| {
            let once = around.once(term);
            [FITTING[0].once(&once), FITTING[11].deep(&once, 200), FITTING[13].once(&around.once(&once)), once]
        });
        let files = fitting.chain(unfit).map(|term| file(&[1], &term));
        files.chain([file(&[1], term), file(&[3, 2], term), file(&long, term)]).collect::<Vec<_>>()
    };
    FAULTY.iter().flat_map(each).collect()
}

/// Every two of these terms beside each other, in some nodes of both languages, by themselves and deep inside.
fn every_two_ways() -> Vec<Vec<u8>> {
    let pairs = || FAULTY.iter().flat_map(|one| FAULTY.iter().map(move |other| (*one, *other)));
    let beside = |(one, other): (&[u32], &[u32])| {
        [
            [&[21], one, other].concat(),
            [&[23, 24, 1], one, other].concat(),
            FITTING[5].deep(&[&[19], one, other].concat(), 100),
            [&[30, 1, 40, 45, 1], one, &[45, 2], other].concat(),
        ]
    };
    pairs().flat_map(beside).map(|term| file(&[1], &term)).collect()
}

/// hd 0 among the leaves of sums and among the elements of lists, the first, the last or one between, and two of them: some have as
/// many words as a file has room for.
fn far_apart() -> Vec<Vec<u8>> {
    let terms = |count: usize, other: &[u32], faulty: &[usize]| -> Vec<Vec<u32>> {
        (0..count).map(|at| if faulty.contains(&at) { vec![26, 17] } else { other.to_vec() }).collect()
    };
    let choices =
        |count: usize| [vec![0], vec![count / 2], vec![count - 1], vec![0, count - 1], vec![count / 2, count - 1]];
    let sums =
        [3, 60, 2_000].into_iter().flat_map(|count| choices(count).map(|faulty| sum(&terms(count, &[17], &faulty))));
    let element = balanced(21, 17, 7);
    let lists =
        [3, 60, 250].into_iter().flat_map(|count| choices(count).map(|faulty| list(&terms(count, &element, &faulty))));
    sums.map(|term| file(&[1], &term)).chain(lists.map(|term| file(&[3, 1], &term))).collect()
}

/// Two types that differ, in their first word, their last or one between; in a list, an argument or a result; in owners alone; the one
/// shorter than the other.
const PAIRS: [[&[u32]; 2]; 16] = [
    [&[1], &[2]],
    [&[1], &[3, 1]],
    [&[4, 1, 1], &[3, 4, 1, 1]],
    [&[3, 1], &[3, 2]],
    [&[3, 1], &[3, 3, 1]],
    [&[4, 1, 1], &[4, 1, 2]],
    [&[4, 1, 1], &[4, 2, 1]],
    [&[4, 1, 1], &[4, 2, 2]],
    [&[4, 4, 1, 1, 1], &[4, 4, 1, 2, 1]],
    [&[4, 1, 4, 1, 1], &[4, 1, 1]],
    [&[4, 3, 1, 1], &[4, 3, 3, 1, 1]],
    [&[4, 1, 3, 3, 1], &[4, 1, 3, 1]],
    [&[lump(7)], &[lump(9)]],
    [&[4, lump(0), lump(255)], &[4, lump(0), lump(254)]],
    [&[4, 3, lump(1), 1], &[4, 3, lump(0), 1]],
    [&[4, lump(7), 4, lump(8), 1], &[4, lump(7), 4, lump(9), 2]],
];

/// Each two types at every rule that wants them equal, either of them being the one due.
fn every_difference() -> Vec<Vec<u8>> {
    PAIRS.iter().flat_map(|[one, other]| [compared(one, other), compared(other, one)].concat()).collect()
}

/// The words of a type up to one of them, then another word and N for every part that is missing.
pub fn begins(t: &[u32], count: usize, word: u32) -> Vec<u32> {
    let start = [&t[..count], &[word]].concat();
    let parts: usize = start.iter().filter_map(|word| row_of(*word)).map(|row| row.parts.len()).sum();
    let missing = parts + 1 - start.len();
    [start, vec![1; missing]].concat()
}

/// Types of many words that differ in one: the first, the last and some between, at every rule and as declared; there the types have
/// more than 2,000 words.
fn late_differences() -> Vec<Vec<u8>> {
    let (long, longest) = (balanced(4, 1, 500), balanced(4, 1, 1_020));
    let words = |t: &[u32]| [0, 1, 2, t.len() / 3, t.len() / 2, t.len() - 2, t.len() - 1];
    let rules = words(&long).into_iter().flat_map(|at| {
        let other = begins(&long, at, lump(7));
        [compared(&long, &other), compared(&other, &long)].concat()
    });
    let declared = words(&longest).into_iter().flat_map(|at| {
        let other = begins(&longest, at, lump(7));
        [file(&longest, &wrong(&other)), file(&other, &wrong(&longest))]
    });
    rules.chain(declared).collect()
}

/// Types that are found and have more words than any file: fn t v0 has 1 + 2 |t|. As declared, they differ in a word that a file has
/// room for; elsewhere they stand where another type is due, or a list.
fn longest_types() -> Vec<Vec<u8>> {
    let (half, most) = (balanced(4, 1, 1_250), balanced(4, 1, 2_030));
    let identity = |t: &[u32]| [&[18], t, &[16]].concat();
    let found = [&[4], &half[..], &half].concat();
    let words = [0, 1, 2, 12, 13, 400, 1_000, 1_570];
    let declared = words.into_iter().flat_map(|at| {
        let others = [begins(&found, at, lump(3)), begins(&found, at, 3)];
        others.map(|other| file(&other, &identity(&half)))
    });
    let places: [Around; 15] = [
        around(&[19], &[17], 1),
        around(&[19, 18, 1, 17], &[], 1),
        around(&[19, 17], &[], 1),
        around(&[21], &[17], 1),
        around(&[21, 17], &[], 1),
        around(&[22], &[17], 1),
        around(&[22, 17], &[], 1),
        around(&[23], &[17, 17], 1),
        around(&[23, 17], &[17], 1),
        around(&[23, 17, 17], &[], 1),
        around(&[25], &[24, 1], 1),
        around(&[25, 17], &[], 1),
        around(&[26], &[], 1),
        around(&[20, 18, 1], &[], 2),
        around(&[30, 1, 45, 1], &[], 2),
    ];
    let inside = places.iter().map(|around| file(&[1], &around.once(&identity(&most))));
    declared.chain(inside).chain([file(&[1], &identity(&most))]).collect()
}

/// A random recipe in which one part or some are exchanged for others, most often of another type; most are deep or wide.
pub fn mismatched_file(random: &mut Random) -> Vec<u8> {
    let (mut declared, mut term) = match random.below(4) {
        0 => wide(random),
        1 => deep(random),
        _ => recipe(random),
    };
    if random.chance(15) {
        exchange_type(random, &mut declared);
        return file(&declared, &term);
    }
    for _ in 0..random.weighted(&[(60, 1), (25, 2), (15, 5)]) {
        exchange(random, &mut term);
    }
    file(&declared, &term)
}

/// The words of a type and of a random term that has it.
fn recipe(random: &mut Random) -> (Vec<u32>, Vec<u32>) {
    let (budget, t) = (2 + random.below(60), any_type(random, 3));
    let term = Maker::new(random, budget).ml(&t);
    (Node::Type(&t).words(), ml_words(&term))
}

/// A small random term of type N.
fn number(random: &mut Random) -> Vec<u32> {
    let budget = random.below(8);
    ml_words(&Maker::new(random, budget).ml(&n()))
}

/// A sum that nests little, or a list, of many random terms of type N.
fn wide(random: &mut Random) -> (Vec<u32>, Vec<u32>) {
    let count = 2 + random.below(120);
    let terms: Vec<Vec<u32>> = (0..count).map(|_| number(random)).collect();
    match random.chance(50) {
        true => (vec![1], sum(&terms)),
        false => (vec![3, 1], list(&terms)),
    }
}

/// The list of some terms of type N.
fn list(terms: &[Vec<u32>]) -> Vec<u32> {
    let items = terms.iter().flat_map(|term| [&[25], &term[..]].concat());
    items.chain([24, 1]).collect()
}

/// The sum of some terms, halved again and again.
fn sum(terms: &[Vec<u32>]) -> Vec<u32> {
    match terms {
        [term] => term.clone(),
        _ => {
            let (first, second) = terms.split_at(terms.len() / 2);
            [vec![21], sum(first), sum(second)].concat()
        }
    }
}

/// A random term of type N under many random things, up to the level that a file allows; now and then one of them is unfit.
fn deep(random: &mut Random) -> (Vec<u32>, Vec<u32>) {
    let (mut term, mut levels) = (number(random), 5 + random.below(230));
    let unfit = random.chance(30);
    while levels > 4 {
        let around = match unfit && random.chance(3) {
            true => &UNFIT[random.below(UNFIT.len())],
            false => &FITTING[random.below(FITTING.len())],
        };
        term = around.once(&term);
        levels -= around.levels;
    }
    (vec![1], term)
}

/// Puts a random term, or a random type, in the place of one.
fn exchange(random: &mut Random, term: &mut Vec<u32>) {
    if random.chance(25) {
        return exchange_type(random, term);
    }
    let (budget, t) = (random.below(6), any_type(random, 2));
    let other = ml_words(&Maker::new(random, budget).ml(&t));
    put(random, term, Sort::Ml, &other);
}

/// Puts a random type in the place of one; of a lump, now and then only another owner.
fn exchange_type(random: &mut Random, words: &mut Vec<u32>) {
    let lumps: Vec<usize> = (0..words.len()).filter(|at| words[*at] % 256 == LUMP).collect();
    if !lumps.is_empty() && random.chance(40) {
        words[random.pick(&lumps)] = lump(any_owner(random));
        return;
    }
    let other = Node::Type(&any_type(random, 2)).words();
    put(random, words, Sort::Type, &other);
}

/// Puts words in the place of a random node of a sort, where there is one.
fn put(random: &mut Random, words: &mut Vec<u32>, sort: Sort, other: &[u32]) {
    let nodes: Vec<usize> =
        (0..words.len()).filter(|at| row_of(words[*at]).is_some_and(|row| row.sort == sort)).collect();
    if !nodes.is_empty() {
        let at = random.pick(&nodes);
        let end = at + size_at(words, at);
        words.splice(at..end, other.iter().copied());
    }
}
