//! What an operation answers and leaves in the buffers that it is lent.

use super::case::Case;
use super::report::list;
use crate::engine::{RecipePriced, RecipeRun};
use crate::random::Random;
use std::fmt;

/// An answer, both buffers, and whether the words around them are untouched.
#[derive(PartialEq, Eq)]
pub struct Seen<A> {
    pub answer: A,
    pub first: Vec<u32>,
    pub second: Vec<u32>,
    pub within: bool,
}

impl<A: fmt::Display> fmt::Display for Seen<A> {
    fn fmt(&self, f: &mut fmt::Formatter<'_>) -> fmt::Result {
        writeln!(f, "  {}", self.answer)?;
        writeln!(f, "  first:  {}", list(&self.first))?;
        writeln!(f, "  second: {}", list(&self.second))?;
        match self.within {
            true => Ok(()),
            false => writeln!(f, "  words around the buffers were written"),
        }
    }
}

impl fmt::Display for RecipeRun {
    fn fmt(&self, f: &mut fmt::Formatter<'_>) -> fmt::Result {
        let RecipeRun { refusal, place, end, code, steps, left, wanted, calls, conversions, others } = self;
        let name = ["value", "spent", "error", "full"].get(*end as usize).unwrap_or(&"no end");
        let counts = format!("calls {calls}, conversions {conversions}, others {others}");
        let numbers = format!("code {code}, steps {steps}, left {left}, wanted {wanted}, place {place}");
        match refusal {
            0 => write!(f, "{name} (end {end}), {numbers}\n  {counts}"),
            _ => write!(f, "refused {refusal} at place {place}; {end} {code} {steps} {left} {wanted}; {counts}"),
        }
    }
}

impl fmt::Display for RecipePriced {
    fn fmt(&self, f: &mut fmt::Formatter<'_>) -> fmt::Result {
        let charges = self.charge.map(|charge| charge.to_string()).join(" ");
        write!(f, "{}\n  total {}, charges {charges}", self.run, self.total)
    }
}

/// Calls an operation with buffers full of rubbish, as long as the case says.
pub fn lend<A>(case: &Case, operation: impl FnOnce(&mut [u32], &mut [u32]) -> A) -> Seen<A> {
    let mut random = Random::new(case.limit.into(), case.file.len() as u64);
    let mut words = |length| Lent::new(length, || random.word() | 1);
    let (mut first, mut second) = (words(case.first), words(case.second));
    let answer = operation(first.part(), second.part());
    let within = first.is_within() && second.is_within();
    Seen { answer, first: first.part().to_vec(), second: second.part().to_vec(), within }
}

/// What a difference shows of both sides.
pub fn show_both<A: fmt::Display>(model: &Seen<A>, engine: &Seen<A>) -> String {
    format!("model:\n{model}engine:\n{engine}")
}

/// Words or bytes on either side of a lent buffer that must stay as they are.
const AROUND: usize = 4;

/// A buffer full of rubbish inside a longer one.
pub struct Lent<T> {
    items: Vec<T>,
    before: Vec<T>,
}

impl<T: Clone + PartialEq> Lent<T> {
    pub fn new(length: usize, mut rubbish: impl FnMut() -> T) -> Lent<T> {
        let items: Vec<T> = (0..length + 2 * AROUND).map(|_| rubbish()).collect();
        Lent { before: items.clone(), items }
    }

    pub fn part(&mut self) -> &mut [T] {
        let end = self.items.len() - AROUND;
        &mut self.items[AROUND..end]
    }

    pub fn is_within(&self) -> bool {
        let end = self.items.len() - AROUND;
        self.items[..AROUND] == self.before[..AROUND] && self.items[end..] == self.before[end..]
    }
}
