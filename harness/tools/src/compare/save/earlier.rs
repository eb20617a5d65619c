//! Files that a release before document 02's request U4 has saved, and that the engine goes on with: "A file saved before the
//! change is read and continued under the new reduction from the term it holds."

use super::going::ROOM;
use super::{SaveCase, SaveCounts, SavingEngine};
use crate::compare::plan::{plans, FOLLOWED};
use crate::compare::run::{compare_twice, laws};
use crate::compare::{show_file, Counts};
use crate::random::Random;
use model::build::recipe_file;
use model::earlier::before_u4;
use model::laws::try_term;
use model::node::{ml_words, Node};
use model::rules::Rule;
use model::run::{run_by, MOST_WORDS};
use model::step::{turn, Step};
use model::values::is_ml_value;
use model::{End, Ml, Recipe, Run};
use std::collections::BTreeSet;
use std::rc::Rc;

/// A recipe, each term that a release before U4 comes to, as far as that is followed, and the steps on an if0 that tests no
/// number.
pub struct Before {
    recipe: Recipe,
    terms: Vec<Rc<Ml>>,
    mistakes: Vec<usize>,
}

impl Before {
    /// Follows a recipe under the reduction before U4.
    pub fn new(recipe: Recipe) -> Before {
        let mut before = Before { terms: vec![recipe.term.clone()], mistakes: Vec::new(), recipe };
        while let Some(next) = before.next() {
            before.terms.push(next);
        }
        before
    }

    /// The term after the last, if it is followed so far.
    fn next(&mut self) -> Option<Rc<Ml>> {
        let steps = self.terms.len() - 1;
        let turn = turn(&self.terms[steps])?;
        if matches!(turn.step(), Step::Next(Rule::SchemeIf0NoNumber, _)) {
            self.mistakes.push(steps);
        }
        match before_u4(&turn) {
            Step::Next(_, next) if steps < FOLLOWED && Node::Ml(&next).size() <= MOST_WORDS => Some(next),
            _ => None,
        }
    }

    /// Tries what holds of each term behind a test that is no number, saves the run after some numbers of steps, and lets the
    /// engine go on with each file. A difference comes back shown.
    pub fn compare(&self, engine: SavingEngine, random: &mut Random, counts: &mut SaveCounts) -> Result<(), String> {
        let shown = |steps: usize, fault: String| format!("before U4, after {steps} steps: {fault}\n{}", self.show());
        let first = self.mistakes.first().map_or(self.terms.len(), |&first| first);
        for (steps, term) in self.terms.iter().enumerate().skip(first) {
            try_term(term, &self.recipe.declared).map_err(|law| shown(steps, law))?;
        }
        for steps in self.stops(random) {
            let file = self.saved(steps, engine, counts).map_err(|fault| shown(steps, fault))?;
            if let Some(file) = file {
                self.go_on(steps, file, engine, random, counts).map_err(|fault| shown(steps, fault))?;
            }
        }
        Ok(())
    }

    /// Numbers of steps after which the run is saved: at the first test that is no number, right after it, and any two. A
    /// value is not saved.
    fn stops(&self, random: &mut Random) -> BTreeSet<usize> {
        let around = self.mistakes.first().map_or(vec![], |&first| vec![first, first + 1]);
        let any = [0; 2].map(|_| random.below(self.terms.len()));
        let saved = |steps: &usize| self.terms.get(*steps).is_some_and(|term| !is_ml_value(term));
        around.into_iter().chain(any).filter(saved).collect()
    }

    /// The file of the term after so many steps, unless that is too deep or too large for one.
    fn saved(&self, steps: usize, engine: SavingEngine, counts: &mut SaveCounts) -> Result<Option<Vec<u8>>, String> {
        let declared = Node::Type(&self.recipe.declared).words();
        let saved = SaveCase::new(&declared, &ml_words(&self.terms[steps]), ROOM).compare(engine.save, counts)?;
        match saved.result {
            Ok(length) => Ok(Some(saved.buffer[..length].to_vec())),
            Err(refusal) if matches!(refusal.number, 4 | 12) => Ok(None),
            Err(refusal) => Err(format!("its save is refused by {}", refusal.number)),
        }
    }

    /// The file is accepted, and the engine's runs of it are the model's under the reduction of today, to which demand 3 and
    /// the law of the counts apply.
    fn go_on(
        &self,
        steps: usize,
        file: Vec<u8>,
        engine: SavingEngine,
        random: &mut Random,
        counts: &mut SaveCounts,
    ) -> Result<(), String> {
        if (engine.check)(&file) != 0 {
            return Err(format!("its file is not accepted\n{}", show_file(&file)));
        }
        let (lent, larger) = plans(random, file);
        let now = compare_twice(engine.run, &lent, &larger, &mut counts.earlier.runs)?;
        laws(&lent.file, &now, &mut counts.earlier.runs)?;
        // Before U4 it may never have ended.
        let limit = lent.limit.min(FOLLOWED as u32);
        let then = run_by(before_u4, &lent.file, limit, (lent.first, lent.second));
        counts.earlier.count([self.is_to_test(steps), self.is_left_behind(steps)], &then, &now);
        Ok(())
    }

    /// Whether a test that is no number is still to come after so many steps.
    fn is_to_test(&self, steps: usize) -> bool {
        self.mistakes.iter().any(|&mistake| mistake >= steps)
    }

    /// Whether the reduction of today never comes from the recipe to the term after so many steps: it comes to the terms up to
    /// the first test that is no number, and from there to a raised error.
    fn is_left_behind(&self, steps: usize) -> bool {
        let Some(&first) = self.mistakes.first() else { return false };
        let (common, term) = (&self.terms[..=first], &self.terms[steps]);
        let raised = turn(&self.terms[first]).map(|turn| turn.step());
        !common.contains(term) && !matches!(raised, Some(Step::Next(_, raised)) if raised == *term)
    }

    /// The recipe that was run.
    fn show(&self) -> String {
        let Recipe { declared, term } = &self.recipe;
        format!("the recipe that was run:\n{}", show_file(&recipe_file(declared, term)))
    }
}

/// What is counted of files saved before U4.
#[derive(Default)]
pub struct EarlierCounts {
    pub files: u64,
    /// The runs of today.
    pub runs: Counts,
    /// By `HELD`.
    held: [u64; HELD.len()],
    /// Those that end as error 1 today and otherwise before, by the end before.
    otherwise: [u64; 4],
}

/// What a file holds.
const HELD: [&str; 2] = ["a test to come that is no number", "a term that its recipe no longer comes to"];

impl EarlierCounts {
    /// Counts a file by what it holds and by its runs before U4 and today.
    fn count(&mut self, held: [bool; HELD.len()], then: &Run, now: &Run) {
        self.files += 1;
        self.held.iter_mut().zip(held).for_each(|(count, is)| *count += u64::from(is));
        if let (Ok(then), Ok(now)) = (then.result, now.result) {
            let otherwise = (now.end, now.code) == (End::Error, 1) && (then.end, then.code) != (End::Error, 1);
            self.otherwise[then.end as usize] += u64::from(otherwise);
        }
    }

    /// The table's rows.
    pub fn rows(&self) -> Vec<(String, u64)> {
        let named = |name: String, count: u64| (format!("file saved before U4: {name}"), count);
        let held = HELD.iter().zip(self.held).map(|(held, count)| named(held.to_string(), count));
        let ends = ["a value", "spent", "another error", "full"].iter().zip(self.otherwise);
        let ends = ends.map(|(end, count)| named(format!("{end} then, error 1 today"), count));
        [named("gone on with".into(), self.files)].into_iter().chain(held).chain(ends).collect()
    }
}
