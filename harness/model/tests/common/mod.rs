//! What the tests share: words of the document written by hand, and whole files from them.
#![allow(dead_code)]

use model::file::file;
use model::{on_large_stack, run, ClassCounts, End, Ended, Refusal, Run};

/// A word: kind + 256 x operand.
pub const fn w(kind: u32, operand: u32) -> u32 {
    kind + 256 * operand
}

/// Steps plentiful, buffers as the listing lends them.
pub fn plenty(declared: &[u32], term: &[u32]) -> Run {
    lent(declared, term, 1_000_000, 4096)
}

pub fn lent(declared: &[u32], term: &[u32], limit: u32, capacity: usize) -> Run {
    let bytes = file(declared, term);
    let run = on_large_stack(|| run(&bytes, limit, capacity, capacity));
    assert!(run.second.iter().all(|&word| word == 0));
    run
}

/// Calls, conversions and others.
pub type Went = [u32; 3];

pub fn ended(end: End, code: u32, steps: u32, left: u32, wanted: u32, went: Went) -> Result<Ended, Refusal> {
    Ok(Ended { end, code, steps, left, wanted, classes: counts(went) })
}

pub fn counts([calls, conversions, others]: Went) -> ClassCounts {
    ClassCounts::new(calls, conversions, others)
}

/// The run ends as said, with these words first in the first buffer and zeros behind them.
pub fn leaves(run: &Run, result: Result<Ended, Refusal>, words: &[u32]) {
    assert_eq!(run.result, result);
    assert!(run.first[..words.len()] == *words);
    assert!(run.first[words.len()..].iter().all(|&word| word == 0));
}

pub fn value(declared: &[u32], term: &[u32], steps: u32, went: Went, words: &[u32]) {
    let count = words.len() as u32;
    leaves(&plenty(declared, term), ended(End::Value, 0, steps, count, 0, went), words);
}

pub fn error(declared: &[u32], term: &[u32], code: u32, steps: u32, went: Went) {
    leaves(&plenty(declared, term), ended(End::Error, code, steps, 0, 0, went), &[]);
}

/// The refusal of a file given as words.
pub fn refused(words: &[u32]) -> (u32, u32) {
    refused_bytes(&model::file::bytes_of(words))
}

pub fn refused_bytes(bytes: &[u8]) -> (u32, u32) {
    on_large_stack(|| match model::check(bytes) {
        Ok(_) => (0, 0),
        Err(refusal) => (refusal.number, refusal.place),
    })
}

/// So many words, one group after another, and then the rest.
pub fn chain(words: &[u32], count: usize, rest: &[u32]) -> Vec<u32> {
    [words.repeat(count), rest.to_vec()].concat()
}

/// A tree of so many leaves that nests little.
pub fn balanced(join: u32, leaf: u32, leaves: usize) -> Vec<u32> {
    if leaves == 1 {
        return vec![leaf];
    }
    let half = leaves / 2;
    [vec![join], balanced(join, leaf, half), balanced(join, leaf, leaves - half)].concat()
}
