//! One save of the engine beside one of the model.

use super::SaveCounts;
use crate::compare::case::less;
use crate::compare::report::{list, show_words};
use crate::compare::seen::Lent;
use crate::engine::{RecipeSaved, Save};
use crate::random::Random;
use crate::shrink::shrink_words;
use crate::stand_in::told_saved;
use model::check::{judged, read_words};
use model::file::{regions, words_of};
use model::read::{read_type, DEEPEST};
use model::{Refusal, Saved};
use std::fmt;

/// A save: the words of type and term that are handed over, and the bytes of the buffer lent.
#[derive(Clone)]
pub struct SaveCase {
    pub declared: Vec<u32>,
    pub term: Vec<u32>,
    pub room: usize,
}

/// What a save answers and leaves in the buffer, and whether the bytes around it are untouched.
#[derive(PartialEq, Eq)]
pub struct Kept {
    pub answer: RecipeSaved,
    pub buffer: Vec<u8>,
    within: bool,
}

impl SaveCase {
    pub fn new(declared: &[u32], term: &[u32], room: usize) -> SaveCase {
        SaveCase { declared: declared.to_vec(), term: term.to_vec(), room }
    }

    /// The words of a file whose header is in order, with room for just that file.
    pub fn of_file(bytes: &[u8]) -> Option<SaveCase> {
        let words = words_of(bytes).ok()?;
        let regions = regions(&words).ok()?;
        Some(SaveCase::new(regions.declared, regions.term, bytes.len()))
    }

    /// The bytes of the file to be written.
    pub fn file_bytes(&self) -> usize {
        16 + 4 * (self.declared.len() + self.term.len())
    }

    /// The same in a buffer of another length.
    pub fn in_room(&self, room: usize) -> SaveCase {
        SaveCase { room, ..self.clone() }
    }

    /// Saves by both. A difference comes back shrunk and shown.
    pub fn compare(&self, engine: Save, counts: &mut SaveCounts) -> Result<Saved, String> {
        let model = self.by_model();
        counts.saved(self, &model);
        match kept_by(&model) == self.by_engine(engine) {
            true => Ok(model),
            false => Err(self.shrunk(engine).shown(engine)),
        }
    }

    /// What the model answers.
    pub fn by_model(&self) -> Saved {
        model::save(&self.declared, &self.term, self.room)
    }

    /// What the engine answers and leaves in a buffer full of rubbish.
    pub fn by_engine(&self, engine: Save) -> Kept {
        let mut random = Random::new(self.room as u64, self.term.len() as u64);
        let mut out = Lent::new(self.room, || random.word() as u8 | 1);
        let answer = engine(self.handed(), &self.term, out.part());
        Kept { answer, within: out.is_within(), buffer: out.part().to_vec() }
    }

    /// The declared type's words; where the term ends with them, those in the term: what is only read may overlap.
    fn handed(&self) -> &[u32] {
        match self.overlaps() {
            true => &self.term[self.term.len() - self.declared.len()..],
            false => &self.declared,
        }
    }

    /// Whether the term ends with the words of the type.
    pub fn overlaps(&self) -> bool {
        !self.declared.is_empty() && self.term.ends_with(&self.declared)
    }

    /// Whether conditions 3 to 7 hold.
    pub fn in_order(&self) -> bool {
        read_words(&self.declared, &self.term, DEEPEST).and_then(judged).is_ok()
    }

    /// Whether the type's words run out.
    pub fn type_runs_out(&self) -> bool {
        read_type(&self.declared, 4, DEEPEST) == Err(Refusal::new(3, 4 + self.declared.len()))
    }

    /// Whether the two differ.
    pub fn differs(&self, engine: Save) -> bool {
        kept_by(&self.by_model()) != self.by_engine(engine)
    }

    /// A smaller case in which the two still differ.
    fn shrunk(&self, engine: Save) -> SaveCase {
        let mut best = self.clone();
        for _ in 0..2 {
            best.shrink_room(engine);
            best = best.shrunk_words(engine, |case| &mut case.term);
            best = best.shrunk_words(engine, |case| &mut case.declared);
        }
        best.shrink_room(engine);
        best
    }

    /// Makes the buffer shorter while there is a difference.
    fn shrink_room(&mut self, engine: Save) {
        let mut rooms = less(self.room).into_iter().chain([self.file_bytes(), self.file_bytes() - 1]);
        while let Some(room) = rooms.find(|&room| room < self.room && self.in_room(room).differs(engine)) {
            self.room = room;
            rooms = less(room).into_iter().chain([self.file_bytes(), self.file_bytes() - 1]);
        }
    }

    /// Makes the words of the type or of the term fewer or smaller, and the buffer shorter with them, or not.
    fn shrunk_words(&self, engine: Save, part: fn(&mut SaveCase) -> &mut Vec<u32>) -> SaveCase {
        let mut best = self.clone();
        let start = part(&mut best).clone();
        shrink_words(start, &mut |words| {
            let mut case = best.clone();
            let fewer = part(&mut case).len().saturating_sub(words.len());
            *part(&mut case) = words.to_vec();
            let rooms = [best.room.saturating_sub(4 * fewer), best.room];
            let found = rooms.into_iter().map(|room| case.in_room(room)).find(|case| case.differs(engine));
            found.map(|found| best = found).is_some()
        });
        best
    }

    /// The case as it was handed over.
    pub fn show(&self) -> String {
        format!("{}buffer of {} bytes\n", show_words(&self.declared, &self.term), self.room)
    }

    /// The case, and what both sides answer and leave.
    fn shown(&self, engine: Save) -> String {
        format!("{}model:\n{}engine:\n{}", self.show(), kept_by(&self.by_model()), self.by_engine(engine))
    }
}

/// What the model answered and left.
fn kept_by(saved: &Saved) -> Kept {
    Kept { answer: told_saved(&saved.result), buffer: saved.buffer.clone(), within: true }
}

impl fmt::Display for Kept {
    fn fmt(&self, f: &mut fmt::Formatter<'_>) -> fmt::Result {
        writeln!(f, "  {}", self.answer)?;
        writeln!(f, "  buffer: {}", list(&self.buffer))?;
        match self.within {
            true => Ok(()),
            false => writeln!(f, "  bytes around the buffer were written"),
        }
    }
}

impl fmt::Display for RecipeSaved {
    fn fmt(&self, f: &mut fmt::Formatter<'_>) -> fmt::Result {
        let RecipeSaved { refusal, place, bytes } = self;
        match refusal {
            0 => write!(f, "saved, {bytes} bytes, place {place}"),
            _ => write!(f, "refused {refusal} at place {place}, {bytes} bytes"),
        }
    }
}
