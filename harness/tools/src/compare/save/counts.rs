//! What a comparison of saves has reached: refusals, their places and their order, lengths of buffers, empty words, the ends
//! of runs that were saved and went on, files that were saved before U4, owners, and the types that do not fit.

use super::faults::ORDER;
use super::going::{GoingOn, WentOn};
use super::{EarlierCounts, SaveCase};
use crate::compare::counts::{add, order_rows};
use crate::compare::mismatches::MismatchCounts;
use crate::compare::owners::OwnerCounts;
use crate::engine::RecipeRun;
use model::file::MOST_BYTES;
use model::{End, Refusal, Saved};

/// So many pairs, a run saved and gone on with in the same capacity, a comparison has at least.
pub const PAIRS: u64 = 20_000;

/// Bytes by which a buffer is much longer than the file.
const LONGER: usize = 100;

/// All that is counted of saves.
#[derive(Default)]
pub struct SaveCounts {
    pub saves: u64,
    /// Those in the same capacity.
    pub pairs: u64,
    accepted: u64,
    refusals: [u64; 14],
    /// Refusals given while another fits, by both numbers.
    before: [[u64; 14]; 14],
    /// By `ROOMS`, `WORDS` and `PLACES`.
    rooms: [u64; ROOMS.len()],
    words: [u64; WORDS.len()],
    places: [u64; PLACES.len()],
    /// Pairs by the first end and the second; those in more words than the first run had, by both ends too.
    ends: [[u64; 4]; 4],
    wider: [[u64; 4]; 4],
    /// By `LENT` and by the class of a step that both runs have made.
    lent: [u64; LENT.len()],
    classes: [u64; 3],
    /// Refused saves of runs, by the refusal.
    unsaved: [u64; 14],
    pub earlier: EarlierCounts,
    owners: OwnerCounts,
    mismatches: MismatchCounts,
}

/// Buffers for words that are otherwise in order.
const ROOMS: [&str; 5] = ["of no byte", "a byte too short", "just long enough", "a byte longer", "much longer"];

/// Kinds of words handed over.
const WORDS: [&str; 9] = [
    "an empty type",
    "an empty term",
    "both empty",
    "a term that ends with the words of the type, so that they overlap",
    "a file of 16,384 bytes",
    "one of 16,388 bytes, in order",
    "one too long by the type alone",
    "one too long by the term alone",
    "a type of two or more words",
];

/// Where refusals 3, 4 and 5 are told.
const PLACES: [&str; 7] = [
    "3 in the type",
    "3 one past the type, where it runs out",
    "3 in the term",
    "3 one past the term",
    "4 in the type",
    "4 in the term",
    "5 behind a type of two or more words",
];

/// What pairs are lent.
const LENT: [&str; 5] = [
    "a first limit of 0",
    "a second limit of 1",
    "limits whose sum is 4,294,967,295",
    "a first buffer that is shorter",
    "a second buffer that is shorter",
];

impl SaveCounts {
    /// Counts a save, by what the model answers.
    pub fn saved(&mut self, case: &SaveCase, saved: &Saved) {
        self.saves += 1;
        let refusal = saved.result.as_ref().err();
        self.owners.words(&case.declared, &case.term, refusal);
        self.mismatches.words(&case.declared, &case.term, refusal);
        match &saved.result {
            Ok(_) => self.accepted += 1,
            Err(refusal) => self.refused(refusal, case),
        }
        let (bytes, most) = (case.file_bytes(), MOST_BYTES);
        let number = saved.result.map_or_else(|refusal| refusal.number, |_| 0);
        if matches!(number, 0 | 13) {
            let room = case.room;
            let kinds = [room == 0, room + 1 == bytes, room == bytes, room == bytes + 1, room >= bytes + LONGER];
            add(&mut self.rooms, kinds);
        }
        let (types, terms) = (case.declared.len(), case.term.len());
        let alone = |words: usize, others: usize| 16 + 4 * words > most && others <= 1;
        add(
            &mut self.words,
            [
                types == 0 && terms > 0,
                types > 0 && terms == 0,
                types + terms == 0,
                number == 0 && case.overlaps(),
                number == 0 && bytes == most,
                bytes == most + 4 && case.in_order(),
                alone(types, terms),
                alone(terms, types),
                number == 0 && types > 1,
            ],
        );
    }

    /// Counts a refusal and where it is told.
    fn refused(&mut self, refusal: &Refusal, case: &SaveCase) {
        self.refusals[refusal.number as usize] += 1;
        let (place, start) = (refusal.place as usize, 4 + case.declared.len());
        let past = start + case.term.len();
        let number = refusal.number;
        add(
            &mut self.places,
            [
                number == 3 && place < start,
                number == 3 && start > 4 && case.type_runs_out(),
                number == 3 && start < place && place < past,
                number == 3 && start < place && place == past,
                number == 4 && place < start,
                number == 4 && place >= start,
                number == 5 && start > 5,
            ],
        );
    }

    /// One refusal was given although another fits too.
    pub fn given_before(&mut self, given: u32, other: u32) {
        self.before[given as usize][other as usize] += 1;
    }

    /// Counts a run that was to be saved and to go on.
    pub fn went_on(&mut self, going: &GoingOn, went: &WentOn) {
        match went {
            WentOn::NothingLeft => {}
            WentOn::Unsaved(number) => self.unsaved[*number as usize] += 1,
            WentOn::Pair(first, second) => self.pair(going, first, second),
        }
    }

    /// Counts a pair.
    fn pair(&mut self, going: &GoingOn, first: &RecipeRun, second: &RecipeRun) {
        self.pairs += u64::from(going.wider == 0);
        let ends = if going.wider == 0 { &mut self.ends } else { &mut self.wider };
        ends[first.end as usize % 4][second.end as usize % 4] += 1;
        let (lent, more) = (&going.lent, going.more);
        let last = lent.limit.checked_add(more) == Some(u32::MAX);
        add(&mut self.lent, [lent.limit == 0, more == 1, last, lent.first < lent.second, lent.second < lent.first]);
        let of = |run: &RecipeRun| [run.calls, run.conversions, run.others];
        let both: Vec<bool> = of(first).iter().zip(of(second)).map(|(one, other)| *one > 0 && other > 0).collect();
        self.classes.iter_mut().zip(both).for_each(|(count, is)| *count += u64::from(is));
    }

    /// The table of the comparison.
    pub fn rows(&self) -> Vec<(String, u64)> {
        let named = |name: &str, names: &[&str], counts: &[u64]| -> Vec<(String, u64)> {
            names.iter().zip(counts).map(|(row, count)| (format!("{name}{row}"), *count)).collect()
        };
        let refusals = ORDER.map(|number| (format!("refusal {number}"), self.refusals[number as usize]));
        let rows = [("accepted".to_string(), self.accepted)].into_iter().chain(refusals);
        let rows = rows.chain(named("refusal ", &PLACES, &self.places)).chain(order_rows(&ORDER, &self.before));
        let rows = rows.chain(named("buffer ", &ROOMS, &self.rooms)).chain(named("words: ", &WORDS, &self.words));
        let rows = rows.chain(self.pair_rows()).chain(named("pair with ", &LENT, &self.lent));
        let classes = ["a call", "a conversion", "an other"].map(|class| format!("pair with {class} in both runs"));
        let rows = rows.chain(classes.into_iter().zip(self.classes)).chain(self.earlier.rows());
        rows.chain(self.owners.rows()).chain(self.owners.declared_rows()).chain(self.mismatches.rows()).collect()
    }

    /// Pairs by their ends, how many times as many as are due, and refused saves of runs. A full run is full again in the
    /// same capacity.
    fn pair_rows(&self) -> Vec<(String, u64)> {
        let row = |ends: &[[u64; 4]; 4], first: End, second: End, more: &str| {
            let name = format!("pair: {}, then {}{more}", first.name(), second.name());
            (name, ends[first as usize][second as usize])
        };
        let spent = End::ALL.map(|second| row(&self.ends, End::Spent, second, ""));
        let full = row(&self.ends, End::Full, End::Full, "");
        let wider = End::ALL.map(|second| row(&self.wider, End::Full, second, " with more words"));
        let unsaved = [4, 12, 13]
            .map(|number: u32| (format!("the save of a run refused by {number}"), self.unsaved[number as usize]));
        let enough = (format!("{PAIRS} pairs in the same capacity, so many times"), self.pairs / PAIRS);
        spent.into_iter().chain([full]).chain(wider).chain([enough]).chain(unsaved).collect()
    }
}
