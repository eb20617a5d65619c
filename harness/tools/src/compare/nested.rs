//! Each kind nested in each of its parts again and again: the paths that a walk of words can take down, for the stack.

use super::deepest::{Known, KnownSave, MOST_SAVED};
use crate::stand_in::{told, told_saved};
use model::file::{file, MOST_BYTES};
use model::kinds::{Kind, Sort, KINDS};

/// The words of a declared type and of a term, and what is nested in them.
pub struct Nested {
    name: String,
    declared: Vec<u32>,
    term: Vec<u32>,
}

impl Nested {
    /// Its name and its file.
    pub fn file(self) -> (String, Vec<u8>) {
        (self.name, file(&self.declared, &self.term))
    }

    /// The run of it in so many words, with the model's answer.
    pub fn run(self, words: usize) -> Known {
        let (name, file) = self.file();
        let ran = model::run(&file, u32::MAX, words, words);
        let answer = told(&ran.result);
        Known { name, file, answer, left: ran.first[..answer.left as usize].to_vec() }
    }

    /// The save of it, with the model's answer.
    pub fn saved(self) -> KnownSave {
        let Nested { name, declared, term } = self;
        let answer = told_saved(&model::save(&declared, &term, MOST_BYTES).result);
        KnownSave { name, declared, term, answer }
    }
}

/// A level of a nesting: the words before the part that is nested, and those after it.
struct Level {
    name: String,
    sort: Sort,
    before: Vec<u32>,
    after: Vec<u32>,
}

/// Every kind with each of its parts of its own sort, and a boundary in a boundary.
fn levels() -> Vec<Level> {
    let of_row = |row: &'static Kind| {
        let own = (0..row.parts.len()).filter(|&part| row.parts[part] == row.sort);
        own.map(|part| Level {
            name: format!("{:?} {} nested in part {}", row.sort, row.name, part + 1),
            sort: row.sort,
            before: [vec![row.number + 256 * row.least], leaves(&row.parts[..part])].concat(),
            after: leaves(&row.parts[part + 1..]),
        })
    };
    let boundary = Level { name: "ms of sm nested".into(), sort: Sort::Ml, before: vec![30, 1, 45, 1], after: vec![] };
    KINDS.iter().flat_map(of_row).chain([boundary]).collect()
}

/// A leaf for each part: N, 0 in ML, 0 in Scheme.
fn leaves(parts: &[Sort]) -> Vec<u32> {
    parts.iter().map(|sort| leaf(*sort)).collect()
}

fn leaf(sort: Sort) -> u32 {
    match sort {
        Sort::Type => 1,
        Sort::Ml => 17,
        Sort::Scheme => 33,
    }
}

impl Level {
    /// The words of so many of these levels around a leaf.
    fn words(&self, levels: usize) -> Vec<u32> {
        [self.before.repeat(levels), vec![leaf(self.sort)], self.after.repeat(levels)].concat()
    }

    /// As many levels as so many words hold.
    fn most(&self, words: usize) -> usize {
        (words - 1) / (self.before.len() + self.after.len())
    }

    /// Words of so many levels with what a file has around them: a type is declared, and Scheme stands in an ms.
    fn nested(&self, levels: usize) -> Nested {
        let (name, words) = (format!("{}, {levels} levels", self.name), self.words(levels));
        match self.sort {
            Sort::Type => Nested { name, declared: words, term: vec![17] },
            Sort::Ml => Nested { name, declared: vec![1], term: words },
            Sort::Scheme => Nested { name, declared: vec![1], term: [vec![30, 1], words].concat() },
        }
    }

    /// Nodes of this level's word on a way down.
    fn nodes(&self) -> usize {
        self.before.iter().filter(|word| [30, 45].contains(*word)).count().max(1)
    }
}

/// Levels that a file may have, without the leaf's; two less, so that an ms has room around them.
const MOST_LEVELS: usize = 254;

/// Words beside the nested ones: a declared N and an ms N around, or a number.
const BESIDE: usize = 3;

/// All of them as deep as a file may be, and as deep as its words allow.
pub fn nested() -> Vec<Nested> {
    let each = |level: &Level| [MOST_LEVELS / level.nodes(), level.most(MOST_SAVED - BESIDE)].map(|n| level.nested(n));
    levels().iter().flat_map(each).collect()
}

/// The nodes of all of them, as deep as so many words allow.
pub fn nodes(words: usize) -> Vec<(String, Vec<u32>)> {
    levels().into_iter().map(|level| (level.name.clone(), level.words(level.most(words)))).collect()
}
