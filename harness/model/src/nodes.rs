//! The reader of nodes: how many words the whole node at a place has, or why none starts there. Scope, typing and nesting do
//! not matter to it, and no stack is needed, however deep a node nests.

use crate::kinds::{kind, Kind, Sort};
use crate::tree::{MOST_CODE, MOST_OWNER};

/// A whole node: how many words it has, and how deep it nests, its own word being at 1.
#[derive(Clone, Copy, Debug, PartialEq, Eq)]
pub struct Whole {
    pub words: usize,
    pub levels: usize,
}

/// Why no whole node starts at a place, and the first word that says so.
#[derive(Clone, Copy, Debug, PartialEq, Eq)]
pub struct Not {
    pub why: Why,
    pub place: usize,
}

/// What is wrong with a word.
#[derive(Clone, Copy, Debug, PartialEq, Eq)]
pub enum Why {
    /// There is none.
    PastTheEnd,
    /// Its kind is no tree kind.
    NoKind,
    /// Its operand is out of its kind's range.
    Operand,
    /// Its kind is of another sort than the part that is due.
    OtherSort,
}

/// How many words the whole node at a place has; 0 where none starts there.
pub fn size_at(words: &[u32], at: usize) -> usize {
    node_at(words, at).map_or(0, |whole| whole.words)
}

/// The whole node that starts at a place: a word of any tree kind, and its parts of due kinds and operands throughout.
pub fn node_at(words: &[u32], at: usize) -> Result<Whole, Not> {
    let mut end = at;
    // The sorts of the parts that are still due: one row for each node that the next word is in, the innermost last.
    let mut dues = vec![row_at(words, at, None)?.parts];
    let mut levels = 1;
    while let Some(parts) = dues.pop() {
        if let Some((sort, rest)) = parts.split_first() {
            end += 1;
            dues.extend([rest, row_at(words, end, Some(*sort))?.parts]);
            levels = levels.max(dues.len());
        }
    }
    Ok(Whole { words: end + 1 - at, levels })
}

/// The row of the word at a place, where a node of a sort is due, or of any.
fn row_at(words: &[u32], place: usize, due: Option<Sort>) -> Result<&'static Kind, Not> {
    let not = |why| Not { why, place };
    let word = words.get(place).ok_or(not(Why::PastTheEnd))?;
    let row = kind(word % 256).ok_or(not(Why::NoKind))?;
    if due.is_some_and(|sort| sort != row.sort) {
        return Err(not(Why::OtherSort));
    }
    match (row.least..=row.most).contains(&(word / 256)) {
        true => Ok(row),
        false => Err(not(Why::Operand)),
    }
}

/// Whether a word is a whole node by itself, said apart from the table: N, an L with an owner, a variable or a number of either
/// language, the Scheme nil, or a Scheme wrong with a code. The ML nil and the ML wrong have a type for a part.
pub fn is_one_word(word: u32) -> bool {
    let operand = word / 256;
    match word % 256 {
        1 | 39 => operand == 0,
        2 => operand <= MOST_OWNER,
        16 | 17 | 32 | 33 => true,
        44 => (1..=MOST_CODE).contains(&operand),
        _ => false,
    }
}
