//! The run of a file step by step in one pass, each term the engine's own.
//!
//! The engine makes a step; what it leaves is saved by the engine as a file, and the next step goes on from there: running,
//! saving and running again is one run. Beside it the term is carried along with the origin of each word, and both have to be
//! the same, word for word. Where a term is too large or too deep for a file, the engine runs from the last file again, but
//! only after 1, 2, 4, 8 and so on further steps, at the run's end, and where a term is to be shown.

use super::carried::{Carried, Carry};
use super::input::Input;
use super::run::refused;
use super::{without, Engine, Failure};
use crate::engine::{RecipeRun, Run, Save};
use model::check::DECLARED;
use model::file::{words_of, MOST_BYTES};
use model::read::DEEPEST;
use model::run::MOST_WORDS;
use model::{Class, ClassCounts, End};
use std::rc::Rc;

pub use super::carried::{Due, Next, Origin};

/// A file from which the engine runs: the term of a step, and what had been counted until then.
struct File {
    bytes: Vec<u8>,
    steps: u32,
    classes: ClassCounts,
}

/// The engine's functions, and the buffers that they are lent, which serve all steps.
struct Asked {
    run: Run,
    save: Save,
    first: Vec<u32>,
    second: Vec<u32>,
    saved: Vec<u8>,
}

/// A run on the way.
pub struct Walk {
    asked: Asked,
    declared: Vec<u32>,
    carried: Carried,
    file: Rc<File>,
    /// The last step whose term the engine has given.
    confirmed: u32,
    ended: Option<RecipeRun>,
}

/// A term of the walk, kept to be shown later.
pub struct Kept {
    pub steps: u32,
    pub words: Vec<u32>,
    pub origins: Vec<Origin>,
    pub due: Option<Due>,
    file: Rc<File>,
    expected: RecipeRun,
    is_confirmed: bool,
}

impl Walk {
    /// The run of a file before its first step, unless it is refused.
    pub fn new(engine: &Engine, input: &Input, capacity: usize) -> Result<Walk, Failure> {
        let (run, save) = engine.run.zip(engine.save).ok_or(without("run"))?;
        let buffer = vec![0; capacity.min(MOST_WORDS)];
        let mut asked = Asked { run, save, first: buffer.clone(), second: buffer, saved: vec![0; MOST_BYTES] };
        let result = (asked.run)(&input.bytes, 0, &mut asked.first, &mut asked.second);
        if result.refusal != 0 {
            return Err(Failure::Refused(refused(input, &result, capacity)));
        }
        let carried = Carried::of(input)?;
        let first = carried.term.origins.first().map_or(DECLARED, |origin| origin.place);
        let words = words_of(&input.bytes).map_err(|_| "the engine has run a file of a wrong size")?;
        let declared = words[DECLARED..first].to_vec();
        let file = Rc::new(File { bytes: input.bytes.clone(), steps: 0, classes: ClassCounts::default() });
        let mut walk = Walk { asked, declared, carried, file, confirmed: 0, ended: None };
        walk.ask(&walk.expected())?;
        Ok(walk)
    }

    /// How many steps are made.
    pub fn steps(&self) -> u32 {
        self.carried.steps
    }

    /// The term's words.
    pub fn words(&self) -> &[u32] {
        &self.carried.term.words
    }

    /// Of each word of the term: where it comes from.
    pub fn origins(&self) -> &[Origin] {
        &self.carried.term.origins
    }

    /// The node whose turn it is; none at a value.
    pub fn due(&self) -> Option<&Due> {
        self.carried.due.as_ref()
    }

    /// The run beside the engine's, with what it has counted.
    pub fn carried(&self) -> &Carried {
        &self.carried
    }

    /// What a run of as many steps answers.
    pub fn result(&self) -> RecipeRun {
        self.ended.unwrap_or_else(|| self.since(0, ClassCounts::default()))
    }

    /// Makes a step. Answers with the run's result where it has ended: with an error, full, or before it at a value.
    pub fn step(&mut self) -> Result<Option<RecipeRun>, Failure> {
        if self.ended.is_some() || self.carried.due.is_none() {
            return Ok(Some(self.result()));
        }
        let (end, left) = match self.carried.step(self.asked.first.len()) {
            Carry::Made | Carry::Value => {
                self.go_on()?;
                return Ok(None);
            }
            Carry::Raised(code) => (RecipeRun { end: End::Error as u32, code, ..RecipeRun::default() }, 0),
            Carry::Full(wanted) => {
                let end = RecipeRun { end: End::Full as u32, wanted: wanted as u32, ..RecipeRun::default() };
                (end, self.words().len() as u32)
            }
        };
        let of = |counts: RecipeRun| RecipeRun { end: end.end, code: end.code, wanted: end.wanted, left, ..counts };
        let expected = of(self.expected());
        self.ask(&expected)?;
        self.ended = Some(of(self.result()));
        Ok(self.ended)
    }

    /// Has the engine give the term of this step, where it has not yet.
    pub fn confirm(&mut self) -> Result<(), Failure> {
        match self.confirmed == self.steps() {
            true => Ok(()),
            false => self.ask(&self.expected()),
        }
    }

    /// The term of this step, to be shown later.
    pub fn kept(&self) -> Kept {
        Kept {
            steps: self.steps(),
            words: self.words().to_vec(),
            origins: self.origins().to_vec(),
            due: self.carried.due,
            file: Rc::clone(&self.file),
            expected: self.expected(),
            is_confirmed: self.confirmed == self.steps(),
        }
    }

    /// Has the engine give a term that was kept, where it has not yet.
    pub fn confirm_kept(&mut self, kept: &Kept) -> Result<(), Failure> {
        match kept.is_confirmed {
            true => Ok(()),
            false => self.asked.term(&kept.file, &kept.expected, &kept.words).ok_or_else(|| differ(kept.steps)),
        }
    }

    /// After a step: the engine makes it too, and saves what it leaves, if that can be.
    fn go_on(&mut self) -> Result<(), Failure> {
        let further = self.steps() - self.file.steps;
        let fits = 4 * (4 + self.declared.len() + self.words().len()) <= MOST_BYTES;
        if !further.is_power_of_two() && !(fits && levels(self.words()) <= DEEPEST) {
            return Ok(());
        }
        self.ask(&self.expected())?;
        if let Some(bytes) = self.asked.file(&self.declared, &self.carried.term.words) {
            self.file = Rc::new(File { bytes, steps: self.steps(), classes: self.carried.classes });
        }
        Ok(())
    }

    /// What the engine is to answer to a run from the last file to here, of a run that has not ended or has come to a value.
    fn expected(&self) -> RecipeRun {
        self.since(self.file.steps, self.file.classes)
    }

    /// The result of the steps since a step at which so much had been counted.
    fn since(&self, steps: u32, classes: ClassCounts) -> RecipeRun {
        let end = if self.carried.due.is_none() { End::Value } else { End::Spent };
        let [calls, conversions, others] = Class::ALL.map(|class| self.carried.classes.of(class) - classes.of(class));
        let (steps, left) = (self.steps() - steps, self.words().len() as u32);
        RecipeRun { end: end as u32, steps, left, calls, conversions, others, ..RecipeRun::default() }
    }

    /// Runs the engine from the last file to here: it has to answer as expected, and to leave the words that were carried.
    fn ask(&mut self, expected: &RecipeRun) -> Result<(), Failure> {
        let words: &[u32] = if expected.left == 0 { &[] } else { &self.carried.term.words };
        self.asked.term(&self.file, expected, words).ok_or_else(|| differ(self.carried.steps))?;
        self.confirmed = self.carried.steps;
        Ok(())
    }
}

/// How deep a term nests.
fn levels(words: &[u32]) -> usize {
    model::nodes::node_at(words, 0).map_or(usize::MAX, |whole| whole.levels)
}

/// The failure where the engine does not do what was carried.
fn differ(steps: u32) -> Failure {
    Failure::Other(format!("the engine and the program differ at step {steps}"))
}

impl Asked {
    /// Nothing but that the engine answers a run from the file as expected and leaves the words; none where it does not.
    fn term(&mut self, file: &File, expected: &RecipeRun, words: &[u32]) -> Option<()> {
        let full = u32::from(expected.end == End::Full as u32);
        let result = (self.run)(&file.bytes, expected.steps + full, &mut self.first, &mut self.second);
        let left = self.first.get(..result.left as usize)?;
        (result == *expected && left == words).then_some(())
    }

    /// The file that the engine saves of the words that it has left.
    fn file(&mut self, declared: &[u32], words: &[u32]) -> Option<Vec<u8>> {
        let room = self.saved.len().min(4 * (4 + declared.len() + words.len()));
        let saved = (self.save)(declared, words, &mut self.saved[..room]);
        match saved.refusal {
            0 => self.saved.get(..saved.bytes as usize).map(<[u8]>::to_vec),
            _ => None,
        }
    }
}
