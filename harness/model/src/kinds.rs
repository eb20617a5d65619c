//! Document 01's table of kinds: each kind's language, name, operand range and parts; the range of L is document 02's (U6).

use crate::tree::{MOST, MOST_CODE, MOST_OWNER};

/// What a node is, and what its parts are due to be.
#[derive(Clone, Copy, Debug, PartialEq, Eq)]
pub enum Sort {
    Type,
    Ml,
    Scheme,
}

pub struct Kind {
    pub number: u32,
    pub sort: Sort,
    pub name: &'static str,
    pub least: u32,
    pub most: u32,
    pub parts: &'static [Sort],
}

const T: Sort = Sort::Type;
const M: Sort = Sort::Ml;
const S: Sort = Sort::Scheme;

const fn row(number: u32, sort: Sort, name: &'static str, (least, most): (u32, u32), parts: &'static [Sort]) -> Kind {
    Kind { number, sort, name, least, most, parts }
}

const NONE: (u32, u32) = (0, 0);
const NUMBERS: (u32, u32) = (0, MOST);
const CODES: (u32, u32) = (1, MOST_CODE);
const OWNERS: (u32, u32) = (0, MOST_OWNER);

/// The kinds of types.
pub const N: u32 = 1;
pub const LUMP: u32 = 2;
pub const LIST: u32 = 3;
pub const FUNCTION: u32 = 4;

/// The kinds of ML.
pub mod ml {
    pub const VARIABLE: u32 = 16;
    pub const NUMBER: u32 = 17;
    pub const LAMBDA: u32 = 18;
    pub const APPLICATION: u32 = 19;
    pub const FIX: u32 = 20;
    pub const ADD: u32 = 21;
    pub const SUBTRACT: u32 = 22;
    pub const IF0: u32 = 23;
    pub const NIL: u32 = 24;
    pub const CONS: u32 = 25;
    pub const HD: u32 = 26;
    pub const TL: u32 = 27;
    pub const NULL: u32 = 28;
    pub const WRONG: u32 = 29;
    pub const MS: u32 = 30;
}

/// The kinds of Scheme.
pub mod scheme {
    pub const VARIABLE: u32 = 32;
    pub const NUMBER: u32 = 33;
    pub const LAMBDA: u32 = 34;
    pub const APPLICATION: u32 = 35;
    pub const ADD: u32 = 36;
    pub const SUBTRACT: u32 = 37;
    pub const IF0: u32 = 38;
    pub const NIL: u32 = 39;
    pub const CONS: u32 = 40;
    pub const HD: u32 = 41;
    pub const TL: u32 = 42;
    pub const TEST: u32 = 43;
    pub const WRONG: u32 = 44;
    pub const SM: u32 = 45;
}

pub const KINDS: [Kind; 33] = [
    row(N, T, "N", NONE, &[]),
    row(LUMP, T, "L", OWNERS, &[]),
    row(LIST, T, "list", NONE, &[T]),
    row(FUNCTION, T, "function", NONE, &[T, T]),
    row(ml::VARIABLE, M, "variable", NUMBERS, &[]),
    row(ml::NUMBER, M, "number", NUMBERS, &[]),
    row(ml::LAMBDA, M, "lambda", NONE, &[T, M]),
    row(ml::APPLICATION, M, "application", NONE, &[M, M]),
    row(ml::FIX, M, "fix", NONE, &[M]),
    row(ml::ADD, M, "add", NONE, &[M, M]),
    row(ml::SUBTRACT, M, "subtract", NONE, &[M, M]),
    row(ml::IF0, M, "if0", NONE, &[M, M, M]),
    row(ml::NIL, M, "nil", NONE, &[T]),
    row(ml::CONS, M, "cons", NONE, &[M, M]),
    row(ml::HD, M, "hd", NONE, &[M]),
    row(ml::TL, M, "tl", NONE, &[M]),
    row(ml::NULL, M, "null?", NONE, &[M]),
    row(ml::WRONG, M, "wrong", CODES, &[T]),
    row(ml::MS, M, "ms", NONE, &[T, S]),
    row(scheme::VARIABLE, S, "variable", NUMBERS, &[]),
    row(scheme::NUMBER, S, "number", NUMBERS, &[]),
    row(scheme::LAMBDA, S, "lambda", NONE, &[S]),
    row(scheme::APPLICATION, S, "application", NONE, &[S, S]),
    row(scheme::ADD, S, "add", NONE, &[S, S]),
    row(scheme::SUBTRACT, S, "subtract", NONE, &[S, S]),
    row(scheme::IF0, S, "if0", NONE, &[S, S, S]),
    row(scheme::NIL, S, "nil", NONE, &[]),
    row(scheme::CONS, S, "cons", NONE, &[S, S]),
    row(scheme::HD, S, "hd", NONE, &[S]),
    row(scheme::TL, S, "tl", NONE, &[S]),
    row(scheme::TEST, S, "test", (0, 3), &[S]),
    row(scheme::WRONG, S, "wrong", CODES, &[]),
    row(scheme::SM, S, "sm", NONE, &[T, M]),
];

/// The row of a kind, if it is a tree kind.
pub fn kind(number: u32) -> Option<&'static Kind> {
    KINDS.iter().find(|row| row.number == number)
}

/// The row of a word where a node of any sort may stand: due kind and operand.
pub fn row_of(word: u32) -> Option<&'static Kind> {
    let operand = word / 256;
    kind(word % 256).filter(|row| row.least <= operand && operand <= row.most)
}

/// The row of a word where a node of the given sort is due.
pub fn due(word: u32, sort: Sort) -> Option<&'static Kind> {
    row_of(word).filter(|row| row.sort == sort)
}
