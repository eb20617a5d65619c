//! Text to tokens, one after another: brackets and atoms, each with its position.

use std::cell::Cell;
use std::fmt;

/// A line and a column, both counted from 1.
#[derive(Clone, Copy, Debug, PartialEq, Eq)]
pub struct Position {
    pub line: usize,
    pub column: usize,
}

impl fmt::Display for Position {
    fn fmt(&self, f: &mut fmt::Formatter<'_>) -> fmt::Result {
        write!(f, "line {}, column {}", self.line, self.column)
    }
}

/// A bracket, or letters up to the next bracket, blank or comment.
#[derive(Clone, Copy, Debug, PartialEq, Eq)]
pub struct Token<'a> {
    pub text: &'a str,
    pub position: Position,
}

/// The tokens that are still to come; a copy looks ahead.
#[derive(Clone, Copy)]
pub struct Tokens<'a> {
    rest: &'a str,
    here: Position,
    end: Position,
    /// Set once it matters, to this or to a copy, that the text ends where it does.
    ended: &'a Cell<bool>,
}

impl<'a> Tokens<'a> {
    /// All tokens of a text, which tell whether it mattered where the text ends.
    pub fn new(text: &'a str, ended: &'a Cell<bool>) -> Tokens<'a> {
        let start = Position { line: 1, column: 1 };
        Tokens { rest: text, here: start, end: start, ended }
    }

    /// Takes the next token, if there is one.
    pub fn take(&mut self) -> Option<Token<'a>> {
        self.skip();
        let first = self.rest.chars().next();
        let length = match first.is_some_and(is_bracket) {
            true => first.map(char::len_utf8),
            false => self.rest.find(is_border),
        };
        self.ended.set(self.ended.get() || length.is_none());
        first?;
        let length = length.unwrap_or(self.rest.len());
        let (text, rest) = self.rest.split_at(length);
        let position = self.here;
        self.rest = rest;
        self.here.column += text.chars().count();
        self.end = self.here;
        Some(Token { text, position })
    }

    /// The next token, which stays.
    pub fn peek(mut self) -> Option<Token<'a>> {
        self.take()
    }

    /// Where the last token that was taken ends.
    pub fn end(&self) -> Position {
        self.end
    }

    /// Passes over blanks and comments. Behind a comment comes a new line or nothing, so that its columns need not be counted.
    fn skip(&mut self) {
        while let Some(letter) = self.rest.chars().next() {
            let length = match letter {
                ';' => self.rest.find('\n').unwrap_or(self.rest.len()),
                _ if letter.is_whitespace() => letter.len_utf8(),
                _ => return,
            };
            self.here = match letter {
                '\n' => Position { line: self.here.line + 1, column: 1 },
                _ => Position { column: self.here.column + 1, ..self.here },
            };
            self.rest = &self.rest[length..];
        }
    }
}

/// Whether a letter is a token by itself.
fn is_bracket(letter: char) -> bool {
    "(){}[]".contains(letter)
}

/// Whether a letter ends the token before it.
fn is_border(letter: char) -> bool {
    is_bracket(letter) || letter == ';' || letter.is_whitespace()
}
