//! Text to words: the reader's hands, types, and the recipe as a whole. The words come out in prefix order, each with the position
//! of its text. Every node puts its word before its parts are read, so that reading nests no deeper than a file has words.

use super::faults::no_type;
use super::scope::Scope;
use super::tokens::{Position, Token, Tokens};
use super::{numbers, spelling};
use crate::kinds::{kind, Sort, FUNCTION, LIST, LUMP, N};
use crate::tree::MOST_OWNER;
use std::cell::Cell;
use std::fmt;

/// What is wrong with a text, and where.
#[derive(Debug, PartialEq, Eq)]
pub struct Fault {
    pub line: usize,
    pub column: usize,
    pub message: String,
}

impl fmt::Display for Fault {
    fn fmt(&self, f: &mut fmt::Formatter<'_>) -> fmt::Result {
        write!(f, "line {}, column {}: {}", self.line, self.column, self.message)
    }
}

/// The words of a recipe's text, due kinds and operands throughout.
#[derive(Debug, PartialEq, Eq)]
pub struct Parsed {
    pub declared: Vec<u32>,
    pub term: Vec<u32>,
    /// Of each word, the declared type's first.
    pub positions: Vec<Position>,
    /// Of each word in the same way: the name that the text gives to the function's argument.
    pub names: Vec<Option<String>>,
    /// Where the first variable by its number stands, if there is one.
    pub numbered: Option<Position>,
}

/// The words that a file has behind its header at most.
const MOST_WORDS: usize = 4_092;

/// A text that is read, with the words that came out so far.
pub struct Parser<'a> {
    pub tokens: Tokens<'a>,
    pub scope: Scope<'a>,
    pub words: Vec<u32>,
    pub positions: Vec<Position>,
    pub names: Vec<Option<String>>,
    /// Where the first variable by its number stands.
    pub numbered: Option<Position>,
    /// The brackets that are open, the innermost last.
    pub open: Vec<Token<'a>>,
    /// How many words there are and are still due at least.
    due: usize,
}

/// Reads a declared type and a term.
pub fn parse_recipe(text: &str) -> Result<Parsed, Fault> {
    Parser::new(text, &Cell::new(false)).recipe()
}

/// The first fault of a text whose rest is missing; none where it may come from that.
pub fn early_fault(text: &str) -> Option<Fault> {
    let ended = Cell::new(false);
    let fault = Parser::new(text, &ended).recipe().err();
    fault.filter(|_| !ended.get())
}

/// A fault at a position.
pub fn fault(position: Position, message: impl Into<String>) -> Fault {
    Fault { line: position.line, column: position.column, message: message.into() }
}

impl<'a> Parser<'a> {
    /// At the start of a text. A type and a term are due.
    fn new(text: &'a str, ended: &'a Cell<bool>) -> Parser<'a> {
        let (tokens, scope) = (Tokens::new(text, ended), Scope::default());
        let (words, positions, names, open) = (Vec::new(), Vec::new(), Vec::new(), Vec::new());
        Parser { tokens, scope, words, positions, names, numbered: None, open, due: 2 }
    }

    /// A declared type and a term, and nothing behind them.
    fn recipe(&mut self) -> Result<Parsed, Fault> {
        self.starts_with_type()?;
        self.read_type()?;
        let types = self.words.len();
        self.term(Sort::Ml)?;
        match self.tokens.peek() {
            Some(token) if matches!(token.text, ")" | "}") => Err(self.closes(token, "")),
            Some(token) => Err(fault(token.position, "the term is complete; nothing may follow it")),
            None => {
                let mut declared = std::mem::take(&mut self.words);
                let term = declared.split_off(types);
                let (positions, names) = (std::mem::take(&mut self.positions), std::mem::take(&mut self.names));
                Ok(Parsed { declared, term, positions, names, numbered: self.numbered })
            }
        }
    }

    /// A text that starts with a term has no type.
    fn starts_with_type(&self) -> Result<(), Fault> {
        match self.tokens.peek() {
            Some(token) if self.is_term_next() => {
                Err(fault(token.position, "a recipe starts with the type of its result, as in N (add 2 3)"))
            }
            _ => Ok(()),
        }
    }

    /// Whether what comes next is a term and no type: a number, or a bracket with a word of a language behind it.
    pub fn is_term_next(&self) -> bool {
        let mut ahead = self.tokens;
        let [first, second] = [ahead.take(), ahead.take()].map(|token| token.map_or("", |token| token.text));
        let word = first == "(" && spelling::is_reserved(second);
        word || first == "nil" || numbers::is_number(first)
    }

    /// The next token, which stays; a text that ends is a fault.
    pub fn peek(&self, due: &str) -> Result<Token<'a>, Fault> {
        self.tokens.peek().ok_or_else(|| self.ends(due))
    }

    /// Takes the next token; a text that ends is a fault.
    pub fn next(&mut self, due: &str) -> Result<Token<'a>, Fault> {
        let token = self.peek(due)?;
        self.tokens.take();
        Ok(token)
    }

    /// The fault of a text that ends where something is due.
    fn ends(&self, due: &str) -> Fault {
        let message = match self.open.last() {
            Some(open) => format!("the text ends, and the {} of {} is not closed", open.text, open.position),
            None => format!("the text ends where {due} is due"),
        };
        fault(self.tokens.end(), message)
    }

    /// Takes the partner of the bracket that was opened last.
    pub fn close(&mut self) -> Result<Token<'a>, Fault> {
        let token = self.next("a bracket")?;
        match self.open.pop() {
            Some(open) if partner(open) == token.text => Ok(token),
            Some(open) => Err(unlike(open, token)),
            None => Err(self.closes(token, "")),
        }
    }

    /// The fault of a closing bracket where something else is due.
    pub fn closes(&self, token: Token<'_>, due: &str) -> Fault {
        match self.open.last() {
            None => fault(token.position, format!("this {} closes nothing; it is one too many", token.text)),
            Some(open) if partner(*open) == token.text => {
                fault(token.position, format!("{due} is due here, not {}", token.text))
            }
            Some(open) => unlike(*open, token),
        }
    }

    /// Puts a word. Its parts are due then, and there may be too many.
    pub fn put(&mut self, word: u32, position: Position) -> Result<(), Fault> {
        self.due += kind(word % 256).map_or(0, |row| row.parts.len());
        if self.due > MOST_WORDS {
            return Err(fault(position, "the recipe has more than 4,092 words; a file has at most 16,384 bytes"));
        }
        self.words.push(word);
        self.positions.push(position);
        self.names.push(None);
        Ok(())
    }

    /// A type.
    pub fn read_type(&mut self) -> Result<(), Fault> {
        let token = self.next("a type")?;
        match token.text {
            "N" => self.put(N, token.position),
            "{" => {
                self.open.push(token);
                self.put(LIST, token.position)?;
                self.read_type()?;
                self.close().map(drop)
            }
            "(" => {
                self.open.push(token);
                self.put(FUNCTION, token.position)?;
                self.read_type()?;
                self.to()?;
                self.read_type()?;
                self.close().map(drop)
            }
            ")" | "}" => Err(self.closes(token, "a type")),
            _ => self.put(LUMP + 256 * owner(token)?, token.position),
        }
    }

    /// What stands between the two types of a function.
    fn to(&mut self) -> Result<(), Fault> {
        let token = self.next("to")?;
        match token.text {
            "to" => Ok(()),
            ")" | "}" => Err(self.closes(token, "to")),
            other => Err(fault(token.position, format!("to is due here, not {}", spelling::shown(other)))),
        }
    }
}

/// The bracket that closes another.
fn partner(open: Token<'_>) -> &'static str {
    if open.text == "(" {
        ")"
    } else {
        "}"
    }
}

/// The fault of a token where an open bracket is to be closed.
fn unlike(open: Token<'_>, token: Token<'_>) -> Fault {
    let (due, found) = (partner(open), spelling::shown(token.text));
    fault(token.position, format!("{due} is due here for the {} of {}, not {found}", open.text, open.position))
}

/// The owner of a lump's type: L is owner 0's, and behind it may stand digits.
fn owner(token: Token<'_>) -> Result<u32, Fault> {
    let digits = token.text.strip_prefix('L').filter(|digits| spelling::are_digits(digits));
    match digits.map(|digits| if digits.is_empty() { Ok(0) } else { digits.parse() }) {
        Some(Ok(owner)) if owner <= MOST_OWNER => Ok(owner),
        Some(_) => {
            let shown = spelling::shown(token.text);
            Err(fault(token.position, format!("{shown} names no owner: an owner is 0 to {MOST_OWNER}")))
        }
        None => Err(no_type(token)),
    }
}
