//! An input's bytes as what an operation is lent: numbers first, then a file, or the words of a type and of a term.
//!
//! A file is the bytes as they are, or words with a header that is in order, or what the makers of the comparison make if each
//! choice of theirs is a byte of the input. So coverage finds its way past the header, and into terms that have types.

use model::file::{file, words_in};
use model::kinds::KINDS;
use model::nodes::size_at;
use tools::random::Random;

/// A maker of files or words.
pub type Make<T> = fn(&mut Random) -> T;

/// The words of a declared type and of a term.
pub type Words = (Vec<u32>, Vec<u32>);

/// An input, taken from the front; behind its end every byte is 0.
pub struct Input<'a>(pub &'a [u8]);

/// How the bytes that remain are read.
enum Form {
    /// As they are.
    Raw,
    /// Four bytes a word, the lowest first.
    Wide,
    /// Two bytes a word: a kind of the table, and an operand.
    Short,
    /// As the choices of one of the makers, by its number.
    Made(usize),
}

impl<'a> Input<'a> {
    /// The next byte.
    pub fn byte(&mut self) -> usize {
        let (first, rest) = self.0.split_first().unwrap_or((&0, &[]));
        self.0 = rest;
        usize::from(*first)
    }

    /// The next two bytes as a number, the lower first.
    pub fn number(&mut self) -> usize {
        self.byte() + 256 * self.byte()
    }

    /// The next bytes, so many or as many as there are.
    pub fn bytes(&mut self, count: usize) -> &'a [u8] {
        let (taken, rest) = self.0.split_at(count.min(self.0.len()));
        self.0 = rest;
        taken
    }

    /// The form, from a byte: one in eight is raw, one in eight has wide words, one in eight short ones, and the others are made.
    fn form(&mut self) -> Form {
        match self.byte() {
            byte if byte % 8 == 0 => Form::Raw,
            byte if byte % 8 == 1 => Form::Wide,
            byte if byte % 8 == 2 => Form::Short,
            byte => Form::Made(byte / 8),
        }
    }

    /// A file, in one of the forms.
    pub fn file(mut self, makers: &[Make<Vec<u8>>]) -> Vec<u8> {
        match self.form() {
            Form::Raw => self.0.to_vec(),
            Form::Made(number) => self.made(makers, number),
            form => {
                let (declared, term) = self.parted(form);
                file(&declared, &term)
            }
        }
    }

    /// The words of a type and of a term, in one of the forms.
    pub fn type_and_term(mut self, makers: &[Make<Words>]) -> Words {
        match self.form() {
            Form::Made(number) => self.made(makers, number),
            form => self.parted(form),
        }
    }

    /// Any words, in one of the forms.
    pub fn words(mut self, makers: &[Make<Vec<u32>>]) -> Vec<u32> {
        match self.form() {
            Form::Made(number) => self.made(makers, number),
            form => self.in_form(form),
        }
    }

    /// What a maker makes of the bytes that remain.
    fn made<T>(self, makers: &[Make<T>], number: usize) -> T {
        makers[number % makers.len()](&mut Random::of_choices(self.0))
    }

    /// The bytes that remain as words.
    fn in_form(&self, form: Form) -> Vec<u32> {
        match form {
            Form::Short => self.0.chunks_exact(2).map(|pair| short_word(pair[0], pair[1])).collect(),
            _ => words_in(self.0),
        }
    }

    /// The same, parted into a type and a term: after as many words as the next byte says, or with 0 after the first whole node.
    fn parted(mut self, form: Form) -> Words {
        let count = self.byte();
        let words = self.in_form(form);
        let end = if count == 0 { size_at(&words, 0) } else { count % (words.len() + 1) };
        let (declared, term) = words.split_at(end);
        (declared.to_vec(), term.to_vec())
    }
}

/// Operands at the edges of their ranges and past them, for the last bytes.
const EDGES: [u32; 8] = [255, 256, 257, 65_534, 65_535, 65_536, 16_777_214, 16_777_215];

/// A word of the table's kinds, with a small operand or one at an edge.
fn short_word(kind: u8, operand: u8) -> u32 {
    let operand = match usize::from(operand).checked_sub(256 - EDGES.len()) {
        Some(edge) => EDGES[edge],
        None => operand.into(),
    };
    KINDS[usize::from(kind) % KINDS.len()].number + 256 * operand
}
