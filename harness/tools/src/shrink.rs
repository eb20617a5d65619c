//! A file, or words, made smaller as long as a property holds, so that what is shown of a difference is small.

use model::file::{bytes_of, file, regions, words_of};
use model::kinds::{row_of, Sort, LUMP};
use model::node::Node;
use model::owners::owners;
use model::read::{read_ml, DEEPEST};
use model::typing::type_of;
use std::time::{Duration, Instant};

/// Attempts after which the smallest file so far is taken, and the time after which it is: large runs take long.
const ATTEMPTS: usize = 200_000;
const LONGEST: Duration = Duration::from_secs(20);

/// What is left to spend on a file.
struct Budget {
    attempts: usize,
    started: Instant,
}

impl Budget {
    /// Whether nothing is left.
    fn is_spent(&self) -> bool {
        self.attempts > ATTEMPTS || self.started.elapsed() > LONGEST
    }
}

/// A smaller file for which the property still holds. It holds for the file given.
pub fn shrink(start: Vec<u8>, holds: &mut dyn FnMut(&[u8]) -> bool) -> Vec<u8> {
    smallest(start, &Ways { candidates, measure }, holds)
}

/// The same of the words of one node, or of any words.
pub fn shrink_words(start: Vec<u32>, holds: &mut dyn FnMut(&[u32]) -> bool) -> Vec<u32> {
    let measure = |words: &[u32]| (words.len(), words.iter().map(|&word| u64::from(word)).sum());
    smallest(start, &Ways { candidates: word_candidates, measure }, holds)
}

/// How something is made smaller: it calls with one candidate after another until the answer is that it is enough, and
/// measures them.
struct Ways<T> {
    candidates: fn(&[T], &mut dyn FnMut(Vec<T>) -> bool) -> bool,
    measure: fn(&[T]) -> (usize, u64),
}

/// The smallest that is found within the budget.
fn smallest<T>(start: Vec<T>, ways: &Ways<T>, holds: &mut dyn FnMut(&[T]) -> bool) -> Vec<T> {
    let mut best = start;
    let mut budget = Budget { attempts: 0, started: Instant::now() };
    while let Some(smaller) = improve(&best, ways, holds, &mut budget) {
        best = smaller;
    }
    best
}

/// The first candidate that is smaller and has the property.
fn improve<T>(best: &[T], ways: &Ways<T>, holds: &mut dyn FnMut(&[T]) -> bool, budget: &mut Budget) -> Option<Vec<T>> {
    let mut found = None;
    (ways.candidates)(best, &mut |candidate| {
        budget.attempts += 1;
        if !budget.is_spent() && (ways.measure)(&candidate) < (ways.measure)(best) && holds(&candidate) {
            found = Some(candidate);
        }
        found.is_some() || budget.is_spent()
    });
    found
}

/// Shorter first, then smaller words.
fn measure(bytes: &[u8]) -> (usize, u64) {
    let words = bytes.chunks(4).map(|chunk| chunk.iter().rev().fold(0, |sum, &byte| 256 * sum + u64::from(byte)));
    (bytes.len(), words.sum())
}

/// Calls with one candidate after another until the answer is that it is enough.
fn candidates(bytes: &[u8], enough: &mut dyn FnMut(Vec<u8>) -> bool) -> bool {
    match words_of(bytes) {
        Ok(words) => match regions(&words) {
            Ok(regions) => in_regions(regions.declared, regions.term, enough) || in_words(&words, enough),
            Err(_) => in_words(&words, enough),
        },
        Err(_) => (0..bytes.len()).any(|length| enough(bytes[..length].to_vec())),
    }
}

/// Words past which only large parts are cut out, or all words become the same.
const LONG: usize = 300;

/// The words of one node, or any words.
fn word_candidates(words: &[u32], enough: &mut dyn FnMut(Vec<u32>) -> bool) -> bool {
    let length = words.len();
    [0, 1, 17].into_iter().any(|word| enough(vec![word; length]))
        || match length > LONG {
            true => {
                let large = |cut: &(usize, usize)| cut.1 - cut.0 > length / 64;
                cuts(length).into_iter().filter(large).any(|(from, to)| enough(without(words, from, to)))
            }
            false => changed(words, enough),
        }
}

/// Any words: one fewer, or one of them smaller.
fn in_words(words: &[u32], enough: &mut dyn FnMut(Vec<u8>) -> bool) -> bool {
    (0..words.len()).any(|at| enough(bytes_of(&without(words, at, at + 1))))
        || (0..words.len()).any(|at| {
            smaller_words(words[at]).into_iter().any(|word| enough(bytes_of(&with(words, at, at + 1, &[word]))))
        })
}

/// The words of the type and of the term, the header kept in order.
fn in_regions(declared: &[u32], term: &[u32], enough: &mut dyn FnMut(Vec<u8>) -> bool) -> bool {
    owners(declared).chain(owners(term)).any(|owner| renamed(declared, term, owner, enough))
        || changed(term, &mut |term| enough(file(declared, &term)) || retyped(&term).is_some_and(&mut *enough))
        || changed(declared, &mut |declared| enough(file(&declared, term)))
}

/// A smaller owner for all lumps of one owner, so that types that are equal stay so.
fn renamed(declared: &[u32], term: &[u32], owner: u32, enough: &mut dyn FnMut(Vec<u8>) -> bool) -> bool {
    let word = LUMP + 256 * owner;
    smaller_words(word).into_iter().any(|smaller| {
        let with = |words: &[u32]| words.iter().map(|&w| if w == word { smaller } else { w }).collect::<Vec<_>>();
        enough(file(&with(declared), &with(term)))
    })
}

/// The file of a term declared with the type that it has, if it has one.
fn retyped(term: &[u32]) -> Option<Vec<u8>> {
    let found = type_of(&read_ml(term, 0, DEEPEST).ok()?)?;
    Some(file(&Node::Type(&found).words(), term))
}

/// Words with a node replaced by a smaller one, a part cut out, or a word made smaller.
fn changed(words: &[u32], enough: &mut dyn FnMut(Vec<u32>) -> bool) -> bool {
    (0..words.len()).any(|at| replaced(words, at, enough))
        || cuts(words.len()).into_iter().any(|(from, to)| enough(without(words, from, to)))
        || (0..words.len())
            .any(|at| smaller_words(words[at]).into_iter().any(|word| enough(with(words, at, at + 1, &[word]))))
}

/// How many nodes inside a node are tried in its place.
const INSIDE: usize = 12;

fn replaced(words: &[u32], at: usize, enough: &mut dyn FnMut(Vec<u32>) -> bool) -> bool {
    let (Some(row), Some(end)) = (row_of(words[at]), node_end(words, at)) else { return false };
    let leaves: &[u32] = match row.sort {
        Sort::Type => &[1],
        Sort::Ml => &[17, 16],
        Sort::Scheme => &[33, 39, 32],
    };
    if leaves.iter().any(|&leaf| end > at + 1 && enough(with(words, at, end, &[leaf]))) {
        return true;
    }
    if opened(words, at).is_some_and(|body| enough(with(words, at, end, &body))) {
        return true;
    }
    let same = |inner: &usize| row_of(words[*inner]).is_some_and(|other| other.sort == row.sort);
    let inside: Vec<usize> = (at + 1..end).filter(same).take(INSIDE).collect();
    inside.into_iter().any(|inner| match node_end(words, inner) {
        Some(inner_end) => enough(with(words, at, end, &words[inner..inner_end])),
        None => false,
    })
}

/// The body of a lambda, or of a lambda that is applied, without that lambda: its variable becomes 0.
fn opened(words: &[u32], at: usize) -> Option<Vec<u32>> {
    let lambda = if matches!(words[at] % 256, 19 | 35) { at + 1 } else { at };
    let body = match words.get(lambda)? % 256 {
        18 => node_end(words, lambda + 1)?,
        34 => lambda + 1,
        _ => return None,
    };
    let mut inner: Vec<usize> = Vec::new();
    let mut found = Vec::new();
    for place in body..node_end(words, body)? {
        inner.retain(|&end| end > place);
        found.push(lowered(words[place], inner.len() as u32));
        if matches!(words[place] % 256, 18 | 34) {
            inner.push(node_end(words, place)?);
        }
    }
    Some(found)
}

/// A word under so many inner lambdas, once the lambda around them is gone.
fn lowered(word: u32, inner: u32) -> u32 {
    match (word % 256, word / 256) {
        (16 | 32, operand) if operand == inner => word % 256 + 1,
        (16 | 32, operand) if operand > inner => word - 256,
        _ => word,
    }
}

/// One past the last word of the node that starts at a place, if a whole one does.
fn node_end(words: &[u32], at: usize) -> Option<usize> {
    let mut due = 1;
    let mut end = at;
    while due > 0 {
        due += row_of(*words.get(end)?)?.parts.len();
        due -= 1;
        end += 1;
    }
    Some(end)
}

/// Ranges to cut out, the long ones first.
fn cuts(length: usize) -> Vec<(usize, usize)> {
    let mut found = Vec::new();
    let mut size = length / 2;
    while size > 0 {
        found.extend((0..length / size).map(|index| (index * size, (index + 1) * size)));
        size /= 2;
    }
    found
}

fn smaller_words(word: u32) -> Vec<u32> {
    let (kind, operand) = (word % 256, word / 256);
    let mut operands = vec![0, 1, operand / 2, operand.saturating_sub(1)];
    operands.retain(|&smaller| smaller < operand);
    let mut found: Vec<u32> = operands.into_iter().map(|operand| kind + 256 * operand).collect();
    if row_of(word).is_none() {
        found.extend([0, word / 2]);
    }
    found
}

fn without(words: &[u32], from: usize, to: usize) -> Vec<u32> {
    with(words, from, to, &[])
}

fn with(words: &[u32], from: usize, to: usize, put: &[u32]) -> Vec<u32> {
    [&words[..from], put, &words[to..]].concat()
}
