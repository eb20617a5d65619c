//! A run that is saved and goes on beside one run, all of them the engine's.

use super::{SaveCase, SaveCounts, SavingEngine};
use crate::compare::case::{less, Case};
use crate::compare::seen::{lend, Seen};
use crate::engine::RecipeRun;
use model::file::{regions, words_of};
use model::End;

/// A run, the save of what it leaves, and a second run: what the first is lent, the bytes of the buffer lent to the save, the
/// limit of the second, and by how many words its buffers are longer.
#[derive(Clone)]
pub struct GoingOn {
    pub lent: Case,
    pub room: usize,
    pub more: u32,
    pub wider: usize,
}

/// What became of it.
pub enum WentOn {
    /// The run was refused, or came to a value or an error.
    NothingLeft,
    /// The save was refused by this number.
    Unsaved(u32),
    /// The answers of both runs: a pair.
    Pair(RecipeRun, RecipeRun),
}

/// A buffer that serves every file.
pub const ROOM: usize = 16_384;

impl GoingOn {
    /// With a buffer that serves every file, and the same capacity again.
    pub fn new(lent: Case, more: u32) -> GoingOn {
        GoingOn { lent, room: ROOM, more, wider: 0 }
    }

    /// Runs, saves and runs again, beside one run; the save beside the model's. A difference comes back shrunk and shown.
    pub fn compare(&self, engine: SavingEngine, counts: &mut SaveCounts) -> Result<(), String> {
        let first = self.first(engine);
        if let Some(case) = self.left(&first) {
            case.compare(engine.save, counts)?;
        }
        match self.after(&first, engine) {
            Ok(went) => {
                counts.went_on(self, &went);
                Ok(())
            }
            Err(_) => Err(self.shrunk(engine).shown(engine)),
        }
    }

    /// The first run, with buffers full of rubbish.
    fn first(&self, engine: SavingEngine) -> Seen<RecipeRun> {
        lend(&self.lent, |first, second| (engine.run)(&self.lent.file, self.lent.limit, first, second))
    }

    /// What is to be saved of a run that ended as spent or full: the type that its file declares, and the words left.
    fn left(&self, first: &Seen<RecipeRun>) -> Option<SaveCase> {
        let RecipeRun { refusal, end, left, .. } = first.answer;
        if refusal != 0 || (end != End::Spent as u32 && end != End::Full as u32) {
            return None;
        }
        let words = words_of(&self.lent.file).ok()?;
        let declared = regions(&words).ok()?.declared;
        Some(SaveCase::new(declared, first.first.get(..left as usize)?, self.room))
    }

    /// What becomes of the run after the first, or what is wrong with it.
    fn after(&self, first: &Seen<RecipeRun>, engine: SavingEngine) -> Result<WentOn, String> {
        let Some(case) = self.left(first) else { return Ok(WentOn::NothingLeft) };
        let kept = case.by_engine(engine.save);
        match kept.answer.refusal {
            0 => {}
            number @ (4 | 12 | 13) => return Ok(WentOn::Unsaved(number)),
            _ => return Err(format!("the save of a run is refused by another than 4, 12 and 13:\n{kept}")),
        }
        let saved =
            kept.buffer.get(..kept.answer.bytes as usize).ok_or(format!("bytes that are not there:\n{kept}"))?;
        if (engine.check)(saved) != 0 || !reads_as(saved, &case) {
            return Err(format!("the file is not accepted, or its words are others:\n{kept}"));
        }
        let second = self.again(saved, self.more, engine);
        let whole = self.again(&self.lent.file, self.whole_limit(&first.answer), engine);
        let answer = added(&first.answer, &second.answer);
        let (pair, together) = (WentOn::Pair(first.answer, second.answer), Seen { answer, ..second });
        match together == whole && first.within {
            true => Ok(pair),
            false => Err(format!("saved:\n{kept}one run:\n{whole}run, saved and run again:\n{together}")),
        }
    }

    /// The limit of the one run: both together; with more words, in which a full run would have gone on, the steps that the
    /// first has made and the second limit.
    fn whole_limit(&self, first: &RecipeRun) -> u32 {
        match self.wider {
            0 => self.lent.limit + self.more,
            _ => first.steps + self.more,
        }
    }

    /// A run in the second run's buffers.
    fn again(&self, file: &[u8], limit: u32, engine: SavingEngine) -> Seen<RecipeRun> {
        let Case { first, second, .. } = self.lent;
        let case = Case::new(file.to_vec(), limit, first + self.wider, second + self.wider);
        lend(&case, |first, second| (engine.run)(file, limit, first, second))
    }

    /// Whether something is wrong; a run that may take very long is not tried.
    fn is_wrong(&self, engine: SavingEngine) -> bool {
        let limit = self.lent.limit.saturating_add(self.more);
        Case { limit, ..self.lent.clone() }.is_short() && self.after(&self.first(engine), engine).is_err()
    }

    /// A smaller one in which something is still wrong.
    fn shrunk(&self, engine: SavingEngine) -> GoingOn {
        let mut best = self.clone();
        for _ in 0..2 {
            while let Some(smaller) = best.smaller().into_iter().find(|going| going.is_wrong(engine)) {
                best = smaller;
            }
            let with = |lent: &Case| GoingOn { lent: lent.clone(), ..best.clone() };
            let lent = best.lent.shrunk(&mut |lent| with(lent).is_wrong(engine));
            best = GoingOn { lent, ..best };
        }
        best
    }

    /// The same with a smaller second limit, or fewer words more, to try.
    fn smaller(&self) -> Vec<GoingOn> {
        let limits = less(self.more as usize).into_iter().filter(|&more| more > 0);
        let limits = limits.map(|more| GoingOn { more: more as u32, ..self.clone() });
        let widths = less(self.wider).into_iter().map(|wider| GoingOn { wider, ..self.clone() });
        limits.chain(widths).collect()
    }

    /// The case, and what is wrong.
    fn shown(&self, engine: SavingEngine) -> String {
        let GoingOn { lent, room, more, wider } = self;
        let wrong = self.after(&self.first(engine), engine).err().unwrap_or_default();
        let again = format!("then {more} more, with {wider} words more; the buffer of the save has {room} bytes");
        format!("{}{again}\n{wrong}", lent.show())
    }
}

/// Whether a file's words are those that were to be saved.
fn reads_as(file: &[u8], case: &SaveCase) -> bool {
    SaveCase::of_file(file).is_some_and(|read| (&read.declared, &read.term) == (&case.declared, &case.term))
}

/// The second answer, with the steps of both runs and where they went.
fn added(first: &RecipeRun, second: &RecipeRun) -> RecipeRun {
    RecipeRun {
        steps: first.steps.wrapping_add(second.steps),
        calls: first.calls.wrapping_add(second.calls),
        conversions: first.conversions.wrapping_add(second.conversions),
        others: first.others.wrapping_add(second.others),
        ..*second
    }
}
