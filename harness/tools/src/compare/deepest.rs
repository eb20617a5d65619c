//! The recipes that take the most stack, with what is known of their runs beforehand.

use crate::engine::{RecipeRun, RecipeSaved};
use model::file::{file, regions, words_of, Regions};

/// A recipe, its run's answer, and the words left.
#[derive(Clone)]
pub struct Known {
    pub name: String,
    pub file: Vec<u8>,
    pub answer: RecipeRun,
    pub left: Vec<u32>,
}

/// The fewest words in which each of them is known.
pub const FEWEST_WORDS: usize = 64;

/// All of them in so many words, at least the fewest: terms that grow as deep as the words allow, lambdas substituted into, and files
/// nested 256 deep, accepted or not.
pub fn deepest(words: usize) -> Vec<Known> {
    let grown = GROWING.iter().map(|growing| growing.known(words));
    let nested = nested_files().map(|nested| nested.within(words));
    grown.chain(WRAPS.iter().map(|wrap| wrap.known(&[2], words))).chain(nested).collect()
}

impl Known {
    /// The same in so many words: a term of more words is refused by 8, if the file is accepted.
    fn within(self, words: usize) -> Known {
        let term = regions(&words_of(&self.file).expect("a file")).expect("a header in order").term.len();
        if self.answer.refusal != 0 || term <= words {
            return self;
        }
        Known { answer: RecipeRun { refusal: 8, ..RecipeRun::default() }, left: vec![], ..self }
    }
}

/// The files nested 256 deep: two that are accepted, and two that are refused by 6 and by 7 at their deepest.
fn nested_files() -> [Known; 4] {
    [nested_choices(), nested_types(), nested_fault(), nested_difference()]
}

/// Those that can be priced: terms of type {N}. Their runs end as full, so there is no charge.
pub fn deepest_cans(words: usize) -> Vec<Known> {
    let grown = GROWING.iter().filter(|growing| growing.declared == NUMBERS).map(|growing| growing.known(words));
    grown.chain(WRAPS.iter().map(|wrap| wrap.known(&NUMBERS, words))).collect()
}

/// Words to save that go as deep as a file does, and deeper, with the answer that is due.
pub struct KnownSave {
    pub name: String,
    pub declared: Vec<u32>,
    pub term: Vec<u32>,
    pub answer: RecipeSaved,
}

/// The files nested 256 deep, which are written as they are or refused; and terms of as many words as a file may have, each nested in
/// the one before, which the save leaves at the first word that is too deep.
pub fn deepest_saves() -> Vec<KnownSave> {
    let nested = nested_files().map(|Known { name, file, answer: RecipeRun { refusal, place, .. }, .. }| {
        let words = words_of(&file).expect("a file");
        let Regions { declared, term } = regions(&words).expect("a header in order");
        let answer = RecipeSaved { refusal, place, bytes: if refusal == 0 { file.len() as u32 } else { 0 } };
        KnownSave { name, declared: declared.to_vec(), term: term.to_vec(), answer }
    });
    // The node at level 256 begins behind 255 of so many words each; its first part is too deep.
    let too_deep = |name: &str, level: &[u32]| {
        let term = level.iter().copied().cycle().take(MOST_SAVED - 1).collect();
        let answer = RecipeSaved { refusal: 4, place: 5 + 255 * level.len() as u32 + 1, bytes: 0 };
        KnownSave { name: name.into(), declared: vec![1], term, answer }
    };
    let fixes = too_deep("fix nested 4,091 deep", &[20]);
    nested.into_iter().chain([fixes, too_deep("if0 nested in the third part", &[23, 17, 17])]).collect()
}

/// Words of type and term that a file holds.
pub const MOST_SAVED: usize = 4_092;

/// The words of {N}.
const NUMBERS: [u32; 2] = [3, 1];

/// A recipe that grows by the same words at each step, those of its term, and by how many it grows.
struct Growing {
    name: &'static str,
    declared: &'static [u32],
    term: &'static [u32],
    grows: usize,
}

const GROWING: [Growing; 8] = [
    Growing { name: "tl nested", declared: &[3, 1], term: &[20, 18, 3, 1, 27, 16], grows: 1 },
    Growing { name: "add nested in its first part", declared: &[1], term: &[20, 18, 1, 21, 16, 17], grows: 2 },
    Growing { name: "add nested in its second part", declared: &[1], term: &[20, 18, 1, 21, 17, 16], grows: 2 },
    Growing { name: "cons nested", declared: &[3, 1], term: &[20, 18, 3, 1, 25, 17, 16], grows: 2 },
    Growing { name: "conversions nested", declared: &[1], term: &[20, 18, 1, 30, 1, 45, 1, 16], grows: 4 },
    Growing { name: "applications nested", declared: &[1], term: &[20, 18, 1, 19, 18, 1, 17, 16], grows: 4 },
    Growing { name: "if0 nested in its test", declared: &[1], term: &[20, 18, 1, 23, 16, 17, 17], grows: 3 },
    Growing {
        name: "Scheme tl nested",
        declared: &[3, 1],
        term: &[20, 18, 3, 1, 30, 3, 1, 42, 45, 3, 1, 16],
        grows: 7,
    },
];

impl Growing {
    /// It is always the fix's turn, and the run ends where the next words do not fit.
    fn known(&self, words: usize) -> Known {
        let steps = (words - self.term.len()) / self.grows;
        let left = self.left(steps);
        let answer = full(steps, left.len(), left.len() + self.grows);
        Known { name: self.name.into(), file: file(self.declared, self.term), answer, left }
    }

    /// The term left: the body's words around the term again and again.
    fn left(&self, steps: usize) -> Vec<u32> {
        let body = &self.term[2 + self.declared.len()..];
        let at = body.iter().position(|&word| word == 16).unwrap_or(0);
        let (before, after) = (&body[..at], &body[at + 1..]);
        [before.repeat(steps), self.term.to_vec(), after.repeat(steps)].concat()
    }
}

/// The answer of a run that ends as full, each of its steps being a call.
fn full(steps: usize, left: usize, wanted: usize) -> RecipeRun {
    let (steps, left, wanted) = (steps as u32, left as u32, wanted as u32);
    RecipeRun { end: 3, steps, left, wanted, calls: steps, ..RecipeRun::default() }
}

/// What a round puts around a value: words before it and after it. Its lambda is the last of its node, or it is not.
struct Wrap {
    name: &'static str,
    before: &'static [u32],
    after: &'static [u32],
}

const WRAPS: [Wrap; 2] = [
    Wrap { name: "lambdas nested, and substituted into", before: &[34], after: &[] },
    Wrap { name: "lambdas nested in heads of cons, and substituted into", before: &[40, 34], after: &[33] },
];

impl Wrap {
    /// The words of a term with so many rounds around.
    fn around(&self, term: &[u32], rounds: usize) -> Vec<u32> {
        [self.before.repeat(rounds), term.to_vec(), self.after.repeat(rounds)].concat()
    }

    /// ms t (app (app w w) 0), where w = fn (fn (app (app v1 v1) (app (fn R) 0))), R being a round around v2: applied to
    /// itself and to a value, w calls itself with the value in one more round. Rounds nest as deep as the words allow, and
    /// each applies a lambda around all the others to 0, so that a substitution goes through them to the innermost. The ms
    /// never comes to its turn, whatever the type t is.
    fn known(&self, declared: &[u32], words: usize) -> Known {
        let round = [&[35, 34][..], &self.around(&[32 + 512], 1), &[33]].concat();
        let again = [&[34, 34, 35, 35, 32 + 256, 32 + 256][..], &round].concat();
        let pair = [&[35][..], &again, &again].concat();
        let ms = [&[30][..], declared, &[35]].concat();
        let term = [&ms[..], &pair, &[33]].concat();
        // The lambda that (app w w) becomes: w's body, w being put in.
        let becomes = [&[34, 35][..], &pair, &round].concat();
        // ms t (app (app w w) (app (fn R) 0)), and the same one step later, with so many rounds around 0 in R.
        let waits = |rounds: usize| [&ms[..], &pair, &[35, 34], &self.around(&[33], rounds + 1), &[33]].concat();
        let one_later = |rounds: usize| waits(rounds).len() - pair.len() + becomes.len();
        let rounds = (words - one_later(0)) / (self.before.len() + self.after.len()) + 1;
        let left = waits(rounds);
        // One call to the lambda at first, three in each round, and one in the round that does not end.
        let answer = full(2 + 3 * rounds, left.len(), one_later(rounds));
        Known { name: self.name.into(), file: file(declared, &term), answer, left }
    }
}

/// if0 1 0 (if0 1 0 ..), 256 levels deep: the check's walks go to the third part at each level, by three calls.
fn nested_choices() -> Known {
    let term = [[23, 17 + 256, 17].repeat(255), vec![17]].concat();
    let answer = RecipeRun { steps: 255, left: 1, others: 255, ..RecipeRun::default() };
    Known {
        name: "a file of if0 nested 256 deep in the third part".into(),
        file: file(&[1], &term),
        answer,
        left: vec![17],
    }
}

/// A wrong of a type nested 255 deep in functions' second parts, which the check compares with the declared type.
fn nested_types() -> Known {
    let declared = [[4, 1].repeat(254), vec![1]].concat();
    let term = [&[29 + 256 * 7][..], &declared].concat();
    let answer = RecipeRun { end: 2, code: 7, steps: 1, others: 1, ..RecipeRun::default() };
    Known { name: "a file of types nested 256 deep".into(), file: file(&declared, &term), answer, left: vec![] }
}

/// if0 0 0 (if0 0 0 (.. (hd 0))): the hd at level 255 has no type, behind 254 of three words.
fn nested_fault() -> Known {
    let term = [[23, 17, 17].repeat(254), vec![26, 17]].concat();
    let answer = RecipeRun { refusal: 6, place: 5 + 3 * 254, ..RecipeRun::default() };
    Known {
        name: "a file of if0 nested 256 deep, the last of hd 0".into(),
        file: file(&[1], &term),
        answer,
        left: vec![],
    }
}

/// A wrong of a type nested 255 deep in functions' second parts, which differs from the declared type in the last word of both.
fn nested_difference() -> Known {
    let arrows = [4, 1].repeat(254);
    let [declared, found] = [1, 2].map(|last| [&arrows[..], &[last]].concat());
    let answer = RecipeRun { refusal: 7, place: 4 + 2 * 254, ..RecipeRun::default() };
    let file = file(&declared, &[&[29 + 256 * 7][..], &found].concat());
    Known { name: "a file of types nested 256 deep that differ in the last word".into(), file, answer, left: vec![] }
}
