//! What a comparison has reached of refusals 6 and 7: in which way the node named is not in order, how deep it stands and beside which
//! others; and which declared word differs from the type found.

use super::counts::add;
use model::check::read_words;
use model::file::{regions, words_of, MOST_BYTES};
use model::kinds::row_of;
use model::node::Node;
use model::read::DEEPEST;
use model::typing::{difference, Mismatch};
use model::untyped::{judge, Untyped};
use model::{Refusal, Type};
use std::rc::Rc;

/// All that is counted of refusals 6 and 7.
#[derive(Default)]
pub struct MismatchCounts {
    /// Refusals 6, by `WAYS` and `STANDING`.
    ways: [[u64; STANDING.len()]; WAYS.len()],
    /// Refusals 6, by `INSIDE`; those of two types that were to be equal, by `DIFFERENCES`.
    inside: [u64; INSIDE.len()],
    unequal: [u64; DIFFERENCES.len()],
    /// Refusals 7, by `DIFFERENCES` of the declared type from the one found.
    declared: [u64; DIFFERENCES.len()],
}

/// The ways in which a node is not in order while all its own parts are.
const WAYS: [&str; 15] = [
    "app of no function",
    "app of another argument",
    "fix of no function",
    "fix of unequal sides",
    "add with no number first",
    "add with no number second",
    "subtract with no number first",
    "subtract with no number second",
    "if0 of no number",
    "if0 with branches of two types",
    "cons with another list",
    "hd of no list",
    "tl of no list",
    "null? of no list",
    "sm of another type",
];

/// The last of these ways: an sm is never the root, which is an ML node.
const SM: usize = WAYS.len() - 1;

/// Where the node stands, and whether there are others of which it is the lowest.
const STANDING: [&str; 4] = ["at the root", "inside", "over 100 levels deep, the only one", "the lowest of several"];

/// Levels that are deep, and as deep as a term can be that has a part.
const DEEP: usize = 100;
const LAST_LEVELS: usize = 250;

/// What else is told of the node that is named.
const INSIDE: [&str; 9] = [
    "over 250 levels deep",
    "behind 2,000 words of the term",
    "behind a declared type of 1,000 words",
    "under a Scheme lambda",
    "inside 20 boundaries",
    "inside an app of no function",
    "inside an add or a subtract with no number first",
    "inside an if0 of no number",
    "by a type of more words than a file has",
];

/// How two types differ.
const DIFFERENCES: [&str; 11] = [
    "in the first word",
    "in a word between",
    "in the last word",
    "in an owner",
    "in a list",
    "in an argument",
    "in a result",
    "and is shorter than the one found",
    "and is longer than the one found",
    "behind 400 words or more",
    "from one of more words than a file has",
];

/// The words of the largest file.
const MOST_WORDS: usize = MOST_BYTES / 4;

impl MismatchCounts {
    /// Counts a file by the answer to it: none is a refusal.
    pub fn file(&mut self, bytes: &[u8], refusal: Option<&Refusal>) {
        let Ok(words) = words_of(bytes) else { return };
        if let Ok(regions) = regions(&words) {
            self.words(regions.declared, regions.term, refusal);
        }
    }

    /// The same of the words of a type and of a term.
    pub fn words(&mut self, declared: &[u32], term: &[u32], refusal: Option<&Refusal>) {
        if !matches!(refusal, Some(Refusal { number: 6 | 7, .. })) {
            return;
        }
        let Ok(recipe) = read_words(declared, term, DEEPEST) else { return };
        match judge(&recipe.term) {
            Ok(found) => count_difference(&mut self.declared, &recipe.declared, &found),
            Err(nodes) => self.refused_6(declared, term, &nodes),
        }
    }

    /// Counts a refusal 6 by all the nodes that are not in order while their parts are.
    fn refused_6(&mut self, declared: &[u32], term: &[u32], nodes: &[Untyped]) {
        let Some(node) = nodes.iter().min_by_key(|node| node.before) else { return };
        let Some(way) = way(node) else { return };
        let around = around(term, node.before);
        let level = 1 + around.len();
        let (root, alone) = (level == 1, nodes.len() == 1);
        add(&mut self.ways[way], [root, !root, level > DEEP && alone, !alone]);
        let kinds = |kinds: &[u32]| around.iter().filter(|at| kinds.contains(&(term[**at] % 256))).count();
        let [app, sum, if0] = unfit(term, around.last().copied(), node.before);
        let long = types(&node.mismatch).iter().any(|t| Node::Type(t).size() > MOST_WORDS);
        add(
            &mut self.inside,
            [
                level > LAST_LEVELS,
                node.before >= 2_000,
                declared.len() >= 1_000,
                kinds(&[34]) > 0,
                kinds(&[30, 45]) >= 20,
                app,
                sum,
                if0,
                long,
            ],
        );
        if let Some([due, found]) = node.mismatch.unequal() {
            count_difference(&mut self.unequal, &due, &found);
        }
    }

    /// The table's rows.
    pub fn rows(&self) -> Vec<(String, u64)> {
        let ways = WAYS.iter().zip(&self.ways).enumerate().flat_map(|(index, (way, counts))| {
            let standing = STANDING.iter().zip(counts).skip(usize::from(index == SM));
            standing.map(move |(standing, count)| (format!("refusal 6 at {way}, {standing}"), *count))
        });
        let inside = INSIDE.iter().zip(self.inside).map(|(inside, count)| (format!("refusal 6 {inside}"), count));
        let differences = |name: &'static str, counts: [u64; DIFFERENCES.len()]| {
            DIFFERENCES.iter().zip(counts).map(move |(row, count)| (format!("{name} {row}"), count))
        };
        let unequal = differences("refusal 6 by a type that differs", self.unequal);
        let declared = differences("refusal 7 by a declared type that differs", self.declared);
        ways.chain(inside).chain(unequal).chain(declared).collect()
    }

    /// The rows of a comparison in which refusals are not the main thing: places that are not the first.
    pub fn few_rows(&self) -> Vec<(String, u64)> {
        let inside = self.ways.iter().map(|counts| counts[1]).sum();
        let later = self.declared[1] + self.declared[2];
        [("refusal 6 inside the term", inside), ("refusal 7 behind the first word", later)]
            .map(|(name, count)| (name.to_string(), count))
            .to_vec()
    }
}

/// Which of the ways it is, of a node that a file in order can have.
fn way(node: &Untyped) -> Option<usize> {
    use Mismatch::*;
    let first = matches!(node.mismatch, NoFunction(_) | Another { part: 0, .. });
    let second = usize::from(!first);
    match (node.kind, &node.mismatch) {
        (_, Unbound) => None,
        (19, _) => Some(second),
        (20, _) => Some(2 + second),
        (21, _) => Some(4 + second),
        (22, _) => Some(6 + second),
        (23, _) => Some(8 + second),
        (kind @ 25..=28, _) => Some(10 + (kind - 25) as usize),
        _ => Some(SM),
    }
}

/// The types that a mismatch tells.
fn types(mismatch: &Mismatch) -> Vec<Rc<Type>> {
    match mismatch {
        Mismatch::Unbound => vec![],
        Mismatch::NoFunction(t) | Mismatch::NoList(t) => vec![t.clone()],
        Mismatch::Sides([t, u]) => vec![Rc::new(Type::Function(t.clone(), u.clone()))],
        Mismatch::Another { due, found, .. } => vec![due.clone(), found.clone()],
    }
}

/// The places of the nodes around a word of a node, the outermost first; the words before it are in order.
pub fn around(words: &[u32], place: usize) -> Vec<usize> {
    // Each node around the next word, and how many of its parts are still to come.
    let mut open: Vec<(usize, usize)> = Vec::new();
    for (at, word) in words[..place].iter().enumerate() {
        if let Some((_, left)) = open.last_mut() {
            *left -= 1;
        }
        open.push((at, row_of(*word).map_or(0, |row| row.parts.len())));
        while open.last().is_some_and(|(_, left)| *left == 0) {
            open.pop();
        }
    }
    open.into_iter().map(|(at, _)| at).collect()
}

/// Whether the node around a place has a first part before it by which it has no type: an app a part that is no function, an add or a
/// subtract no number, an if0 no number. That part is in order; its kind alone tells it here.
fn unfit(term: &[u32], around: Option<usize>, place: usize) -> [bool; 3] {
    let Some(at) = around.filter(|at| at + 1 < place) else { return [false; 3] };
    let (kind, first) = (term[at] % 256, term[at + 1] % 256);
    let no_number = matches!(first, 18 | 24 | 25 | 27);
    let no_function = matches!(first, 17 | 21 | 22 | 24 | 25 | 27 | 28);
    [kind == 19 && no_function, matches!(kind, 21 | 22) && no_number, kind == 23 && no_number]
}

/// Counts how a type differs from the one found.
fn count_difference(counts: &mut [u64; DIFFERENCES.len()], due: &Rc<Type>, found: &Rc<Type>) {
    let Some(at) = difference(due, found) else { return };
    let [due, found] = [due, found].map(|t| Node::Type(t).words());
    let last = at + 1 == due.len();
    let inside = around(&due, at).last().map(|node| (due[*node], *node + 1 == at));
    let lumps = due[at] % 256 == 2 && found[at] % 256 == 2;
    add(
        counts,
        [
            at == 0,
            at > 0 && !last,
            at > 0 && last,
            lumps,
            inside.is_some_and(|(kind, _)| kind == 3),
            inside == Some((4, true)),
            inside == Some((4, false)),
            due.len() < found.len(),
            due.len() > found.len(),
            at >= 400,
            found.len() > MOST_WORDS,
        ],
    );
}
