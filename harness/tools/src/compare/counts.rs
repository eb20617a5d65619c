//! What a comparison has reached: the outcomes of the rules, the ends and where the steps to them went, the refusals and the places
//! of 6 and 7, owners.

use super::mismatches::MismatchCounts;
use super::owners::OwnerCounts;
use super::tested::TESTS;
use model::rules::{Rule, RuleCounts};
use model::{Class, End, Ended, Refusal};
use std::fmt::Write;

#[derive(Default)]
pub struct Counts {
    pub files: u64,
    pub runs: u64,
    pub laws: u64,
    pub accepted: u64,
    refusals: [u64; 14],
    ends: [u64; 4],
    /// Runs with a step of the class, for each end.
    classes: [[u64; 3]; 4],
    rules: RuleCounts,
    /// By `TESTS`, of random recipes.
    tests: [u64; TESTS.len()],
    pub owners: OwnerCounts,
    mismatches: MismatchCounts,
}

impl Counts {
    /// Counts the answer to a file, a refusal or none, by its owners and by the types that do not fit.
    pub fn file(&mut self, bytes: &[u8], refusal: Option<&Refusal>) {
        self.owners.file(bytes, refusal);
        self.mismatches.file(bytes, refusal);
    }

    pub fn refused(&mut self, refusal: &Refusal) {
        self.refusals[refusal.number as usize - 1] += 1;
    }

    pub fn ended(&mut self, ended: &Ended) {
        self.ends[ended.end as usize] += 1;
        for class in Class::ALL {
            self.classes[ended.end as usize][class as usize] += u64::from(has(ended, class));
        }
    }

    pub fn rules(&mut self, rules: &RuleCounts) {
        self.rules.join(rules);
    }

    /// Counts what Scheme's if0 has tested in the run of a random recipe.
    pub fn tested(&mut self, kinds: [bool; TESTS.len()]) {
        self.tests.iter_mut().zip(kinds).for_each(|(count, is)| *count += u64::from(is));
    }

    /// The table of a comparison of checks: the answers, those that owners decide, and the places of refusals 6 and 7.
    pub fn of_checks(&self) -> Vec<(String, u64)> {
        let mut rows = vec![("accepted".to_string(), self.accepted)];
        rows.extend(self.refusal_rows(7));
        rows.extend(self.owners.rows());
        rows.extend(self.owners.declared_rows());
        rows.extend(self.mismatches.rows());
        rows
    }

    /// The table of a comparison of listings: 4 ends, 3 classes of steps to each, the refusals that a listing can show, and
    /// owners.
    pub fn of_listings(&self) -> Vec<(String, u64)> {
        let rows = self.end_rows().chain(self.class_rows()).chain(self.refusal_rows(7));
        rows.chain(self.owners.few_rows()).chain(self.mismatches.few_rows()).collect()
    }

    /// The table of a comparison of runs: 49 outcomes of rules, 6 kinds of tests that are no numbers, 4 ends, 3 classes of
    /// steps to each, 8 refusals, and owners.
    pub fn of_runs(&self) -> Vec<(String, u64)> {
        let rules = Rule::ALL.iter().map(|rule| (rule.name().to_string(), self.rules.of(*rule)));
        let tests =
            TESTS.iter().zip(self.tests).map(|(test, count)| (format!("random recipe that tests {test}"), count));
        let rows = rules.chain(tests).chain(self.end_rows());
        let rows = rows.chain(self.class_rows()).chain(self.refusal_rows(8));
        let rows = rows.chain(self.owners.rows()).chain(self.owners.declared_rows()).chain(self.owners.step_rows());
        rows.chain(self.mismatches.few_rows()).collect()
    }

    /// The rows that a comparison of pricings has of its runs: 4 ends, 3 classes of steps to each, 11 refusals, and owners.
    pub fn of_pricings(&self) -> Vec<(String, u64)> {
        let rows = self.end_rows().chain(self.class_rows()).chain(self.refusal_rows(11));
        rows.chain(self.owners.rows()).chain(self.mismatches.few_rows()).collect()
    }

    /// The rows that a comparison of cards has of its runs: 4 ends, 3 classes of steps to each, and 12 refusals.
    pub fn of_cards(&self) -> Vec<(String, u64)> {
        let refusals = self.refusal_rows(11).into_iter().chain([refusal_row(14, &self.refusals)]);
        self.end_rows().chain(self.class_rows()).chain(refusals).chain(self.mismatches.few_rows()).collect()
    }

    fn end_rows(&self) -> impl Iterator<Item = (String, u64)> + '_ {
        End::ALL.iter().map(|end| (format!("end: {}", end.name()), self.ends[*end as usize]))
    }

    fn class_rows(&self) -> Vec<(String, u64)> {
        let both = End::ALL.iter().flat_map(|end| Class::ALL.map(|class| (*end, class)));
        both.map(|(end, class)| (class_row(end, class), self.classes[end as usize][class as usize])).collect()
    }

    fn refusal_rows(&self, last: usize) -> Vec<(String, u64)> {
        (1..=last).map(|number| refusal_row(number, &self.refusals)).collect()
    }
}

fn refusal_row(number: usize, refusals: &[u64]) -> (String, u64) {
    (format!("refusal {number}"), refusals[number - 1])
}

/// Whether a run has made a step of the class. Every error has an other, its own step, which says nothing.
fn has(ended: &Ended, class: Class) -> bool {
    let own = u32::from((ended.end, class) == (End::Error, Class::Other));
    ended.classes.of(class) > own
}

fn class_row(end: End, class: Class) -> String {
    match (end, class) {
        (End::Error, Class::Other) => "end: error, with an other before the error's own".into(),
        (end, Class::Other) => format!("end: {}, with an other", end.name()),
        (end, class) => format!("end: {}, with a {}", end.name(), class.name()),
    }
}

/// Of an order of refusals, for each the least count over those that come after it; `before` counts those that were given
/// while another fits, by both numbers. 3 and 4 are given by whichever word comes first.
pub fn order_rows<const N: usize>(order: &[u32], before: &[[u64; N]; N]) -> Vec<(String, u64)> {
    let row = |given: u32, others: &[u32]| {
        let least = others.iter().map(|&other| before[given as usize][other as usize]).min().unwrap_or(0);
        let named = others.iter().map(u32::to_string).collect::<Vec<_>>().join(", ");
        let each = if others.len() > 1 { "each of " } else { "" };
        (format!("refusal {given} before {each}{named}, where both fit"), least)
    };
    (1..order.len()).map(|at| row(order[at - 1], &order[at..])).chain([row(4, &[3])]).collect()
}

/// Adds one to each count whose kind it is.
pub fn add<const N: usize>(counts: &mut [u64; N], kinds: [bool; N]) {
    counts.iter_mut().zip(kinds).for_each(|(count, is)| *count += u64::from(is));
}

pub fn table(rows: &[(String, u64)]) -> String {
    let mut text = String::new();
    for (name, count) in rows {
        let _ = writeln!(text, "{count:>10}  {name}");
    }
    text
}

/// The names of what was never reached.
pub fn missing(rows: &[(String, u64)]) -> Vec<&str> {
    rows.iter().filter(|row| row.1 == 0).map(|row| row.0.as_str()).collect()
}
