//! A run carried along as flat words, each with its origin in the file: the program's own steps, without the engine.

use super::contracta::contract;
use super::due::rule_at;
use super::flat::{behind, kind_at, turn, Frame};
use super::input::Input;
use model::check::DECLARED;
use model::file::{regions, words_of};
use model::kinds::{ml, scheme};
use model::laws::class_at;
use model::rules::{Rule, RuleCounts};
use model::{Class, ClassCounts};
use std::ops::Range;

/// Where a word of a term comes from.
#[derive(Clone, Copy, Debug, PartialEq, Eq)]
pub struct Origin {
    /// The place in the file of the word that it is a copy of, or of the node that it was made from.
    pub place: usize,
    /// Whether a rule made it; else it is the file's own word.
    pub made: bool,
}

/// Words, and the origin of each.
#[derive(Clone, Debug, Default, PartialEq, Eq)]
pub struct Term {
    pub words: Vec<u32>,
    pub origins: Vec<Origin>,
}

impl Term {
    /// The term of a file, whose first word stands at a place.
    fn of_file(words: &[u32], start: usize) -> Term {
        let origins = (start..start + words.len()).map(|place| Origin { place, made: false }).collect();
        Term { words: words.to_vec(), origins }
    }

    pub fn put(&mut self, word: u32, origin: Origin) {
        self.words.push(word);
        self.origins.push(origin);
    }

    /// Puts the words of another term, with their origins.
    pub fn copy(&mut self, from: &Term, range: Range<usize>) {
        self.words.extend_from_slice(&from.words[range.clone()]);
        self.origins.extend_from_slice(&from.origins[range]);
    }

    /// Replaces the words of a range by all of another term; words before and after keep their origins.
    fn replace(&mut self, range: Range<usize>, by: &Term) {
        self.words.splice(range.clone(), by.words.iter().copied());
        self.origins.splice(range, by.origins.iter().copied());
    }
}

/// What comes next at the node whose turn it is: a rule, or the end of the run with a code.
#[derive(Clone, Copy, Debug, PartialEq, Eq)]
pub enum Next {
    Rule(Rule),
    Raised(u32),
}

/// The node whose turn it is: its first word in the term, how many it has, what comes next, and what that is counted as.
#[derive(Clone, Copy, Debug, PartialEq, Eq)]
pub struct Due {
    pub place: usize,
    pub size: usize,
    pub next: Next,
    pub class: Class,
}

/// The last step before a wrong that a rule made: the rule, the term before it, and the node whose turn it was.
#[derive(Clone, Debug)]
pub struct Failed {
    pub rule: Rule,
    pub term: Term,
    pub due: Due,
}

/// What a step came to.
#[derive(Clone, Copy, Debug, PartialEq, Eq)]
pub enum Carry {
    /// The term is another.
    Made,
    /// The term is a value: no step is made.
    Value,
    /// The step ends the run with this code; the term stays, to be looked at.
    Raised(u32),
    /// No step is made: the next term has so many words.
    Full(usize),
}

/// A run on the way: its term, the node whose turn it is, and what was counted.
pub struct Carried {
    pub term: Term,
    pub due: Option<Due>,
    pub steps: u32,
    pub classes: ClassCounts,
    pub rules: RuleCounts,
    pub failed: Option<Failed>,
    /// Kept from step to step, so that nothing is set aside anew.
    made: Term,
    frames: Vec<Frame>,
}

impl Carried {
    /// The run of a term of a file, of which the first word stands at a place.
    fn new(words: &[u32], start: usize) -> Carried {
        let (classes, rules) = (ClassCounts::default(), RuleCounts::default());
        let (term, made, frames) = (Term::of_file(words, start), Term::default(), Vec::new());
        let mut run = Carried { term, due: None, steps: 0, classes, rules, failed: None, made, frames };
        run.look();
        run
    }

    /// The run of a file that is accepted.
    pub fn of(input: &Input) -> Result<Carried, &'static str> {
        let words = words_of(&input.bytes).map_err(|_| "the engine has run a file of a wrong size")?;
        let found = regions(&words).map_err(|_| "the engine has run a file with a wrong header")?;
        Ok(Carried::new(found.term, DECLARED + found.declared.len()))
    }

    /// Finds the node whose turn it is.
    fn look(&mut self) {
        let words = &self.term.words;
        self.due = turn(words, &mut self.frames).and_then(|place| {
            let next = match kind_at(words, place) {
                ml::WRONG | scheme::WRONG => Next::Raised(words[place] / 256),
                _ => Next::Rule(rule_at(words, place)?),
            };
            Some(Due { place, size: behind(words, place) - place, next, class: class_at(words[place]) })
        });
    }

    /// Makes the step that is due, unless the next term has more words than the capacity.
    pub fn step(&mut self, capacity: usize) -> Carry {
        let Some(due) = self.due else { return Carry::Value };
        let rule = match due.next {
            Next::Raised(code) => {
                self.count(due.class);
                return Carry::Raised(code);
            }
            Next::Rule(rule) => rule,
        };
        let around = self.term.words.len() - due.size;
        self.made.words.clear();
        self.made.origins.clear();
        let size = contract(rule, &self.term, due.place, capacity.saturating_sub(around), &mut self.made);
        if around + size > capacity {
            return Carry::Full(around + size);
        }
        if rule.code().is_some() {
            self.failed = Some(Failed { rule, term: self.term.clone(), due });
        }
        self.count(due.class);
        self.rules.count(rule);
        self.term.replace(due.place..due.place + due.size, &self.made);
        self.look();
        Carry::Made
    }

    fn count(&mut self, class: Class) {
        self.steps += 1;
        self.classes.count(class);
    }
}
