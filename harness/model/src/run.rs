//! A run and its ends, with every word of the two lent buffers.

use crate::check::{check, Refusal};
use crate::class::ClassCounts;
use crate::node::{ml_words, Node};
use crate::rules::RuleCounts;
use crate::step::{turn, Reduction, Step, Turn};
use crate::tree::Ml;
use std::rc::Rc;

/// The largest capacity.
pub const MOST_WORDS: usize = 16_384;

#[derive(Clone, Copy, Debug, PartialEq, Eq)]
pub enum End {
    Value,
    Spent,
    Error,
    Full,
}

impl End {
    pub const ALL: [End; 4] = [End::Value, End::Spent, End::Error, End::Full];

    pub fn name(self) -> &'static str {
        ["value", "spent", "error", "full"][self as usize]
    }
}

#[derive(Clone, Copy, Debug, PartialEq, Eq)]
pub struct Ended {
    pub end: End,
    pub code: u32,
    pub steps: u32,
    pub left: u32,
    pub wanted: u32,
    /// Where the steps went.
    pub classes: ClassCounts,
}

/// What a run answers, both buffers after it, and the rules of the steps that it made.
pub struct Run {
    pub result: Result<Ended, Refusal>,
    pub first: Vec<u32>,
    pub second: Vec<u32>,
    pub rules: RuleCounts,
}

impl Run {
    /// A run that left a term, or none, in two buffers of the given lengths: every other word is zero.
    pub fn new(
        result: Result<Ended, Refusal>,
        left: Option<Rc<Ml>>,
        lengths: (usize, usize),
        rules: RuleCounts,
    ) -> Run {
        let mut first = left.as_ref().map_or(Vec::new(), ml_words);
        first.resize(lengths.0, 0);
        Run { result, first, second: vec![0; lengths.1], rules }
    }
}

/// Checks the file and runs it with the step limit and two buffers of the given lengths.
pub fn run(bytes: &[u8], limit: u32, first_len: usize, second_len: usize) -> Run {
    run_by(Turn::step, bytes, limit, (first_len, second_len))
}

/// The same under another reduction.
pub fn run_by(reduction: Reduction, bytes: &[u8], limit: u32, lengths: (usize, usize)) -> Run {
    let capacity = capacity(lengths.0, lengths.1);
    let mut rules = RuleCounts::default();
    let (result, left) = match check(bytes).and_then(|recipe| fitting(recipe.term, capacity)) {
        Err(refusal) => (Err(refusal), None),
        Ok(term) => {
            let (ended, left) = reduce_by(reduction, term, limit, capacity, &mut rules);
            (Ok(ended), left)
        }
    };
    Run::new(result, left, lengths, rules)
}

/// "Capacity is the shorter length, at most 16,384."
pub fn capacity(first_len: usize, second_len: usize) -> usize {
    first_len.min(second_len).min(MOST_WORDS)
}

/// An accepted file's term that fits the capacity, or refusal 8.
pub fn fitting(term: Rc<Ml>, capacity: usize) -> Result<Rc<Ml>, Refusal> {
    match Node::Ml(&term).size() > capacity {
        true => Err(Refusal::new(8, 0)),
        false => Ok(term),
    }
}

/// Reduces a term to one of the four ends; the term that the run leaves comes second, none after an error.
pub fn reduce(term: Rc<Ml>, limit: u32, capacity: usize, rules: &mut RuleCounts) -> (Ended, Option<Rc<Ml>>) {
    reduce_by(Turn::step, term, limit, capacity, rules)
}

/// The same under another reduction.
fn reduce_by(
    reduction: Reduction,
    mut term: Rc<Ml>,
    limit: u32,
    capacity: usize,
    rules: &mut RuleCounts,
) -> (Ended, Option<Rc<Ml>>) {
    let mut made = Ended { end: End::Value, code: 0, steps: 0, left: 0, wanted: 0, classes: ClassCounts::default() };
    loop {
        let Some(turn) = turn(&term) else { return keep(Ended { end: End::Value, ..made }, term) };
        if made.steps == limit {
            return keep(Ended { end: End::Spent, ..made }, term);
        }
        let step = reduction(&turn);
        if let Step::Next(_, next) = &step {
            let wanted = Node::Ml(next).size();
            if wanted > capacity {
                return keep(Ended { end: End::Full, wanted: wanted as u32, ..made }, term);
            }
        }
        made.steps += 1;
        made.classes.count(turn.class());
        match step {
            Step::Raised(code) => return (Ended { end: End::Error, code, ..made }, None),
            Step::Next(rule, next) => {
                rules.count(rule);
                term = next;
            }
            Step::Value | Step::Stuck => panic!("stuck, against demand 3: {:?}", ml_words(&term)),
        }
    }
}

/// The end with the term that it leaves.
fn keep(ended: Ended, term: Rc<Ml>) -> (Ended, Option<Rc<Ml>>) {
    (Ended { left: Node::Ml(&term).size() as u32, ..ended }, Some(term))
}
