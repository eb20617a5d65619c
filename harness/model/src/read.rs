//! Words to trees: refusals 3 and 4 with their places, in one walk in prefix order.

use crate::check::Refusal;
use crate::kinds::{due, Sort};
use crate::node::Tree;
use crate::tree::{Ml, Scheme, Test, Type};
use std::rc::Rc;

/// The deepest nesting in a file, a root being at 1.
pub const DEEPEST: usize = 256;

/// A walk over the words of one region: the declared type's or the term's.
struct Reader<'a> {
    words: &'a [u32],
    /// The next word, counted from the region's first.
    at: usize,
    /// The place of the region's first word in the file.
    start: usize,
    deepest: usize,
}

/// Reads all the words as one node of the sort due. A refusal's place counts from `start` at the first word.
pub fn read(words: &[u32], sort: Sort, start: usize, deepest: usize) -> Result<Tree, Refusal> {
    let mut reader = Reader { words, at: 0, start, deepest };
    let tree = match sort {
        Sort::Type => Tree::Type(reader.read_type(1)?),
        Sort::Ml => Tree::Ml(reader.read_ml(1)?),
        Sort::Scheme => Tree::Scheme(reader.read_scheme(1)?),
    };
    if reader.at < words.len() {
        return Err(Refusal::new(3, reader.place()));
    }
    Ok(tree)
}

pub fn read_type(words: &[u32], start: usize, deepest: usize) -> Result<Rc<Type>, Refusal> {
    match read(words, Sort::Type, start, deepest)? {
        Tree::Type(t) => Ok(t),
        _ => unreachable!("a type was due"),
    }
}

pub fn read_ml(words: &[u32], start: usize, deepest: usize) -> Result<Rc<Ml>, Refusal> {
    match read(words, Sort::Ml, start, deepest)? {
        Tree::Ml(e) => Ok(e),
        _ => unreachable!("an ML term was due"),
    }
}

impl Reader<'_> {
    fn place(&self) -> usize {
        self.start + self.at
    }

    /// Takes the next word, which must have a kind and an operand due for the sort: refusal 3 comes before 4.
    fn head(&mut self, sort: Sort, depth: usize) -> Result<(u32, u32), Refusal> {
        let place = self.place();
        let word = *self.words.get(self.at).ok_or(Refusal::new(3, place))?;
        let row = due(word, sort).ok_or(Refusal::new(3, place))?;
        if depth > self.deepest {
            return Err(Refusal::new(4, place));
        }
        self.at += 1;
        Ok((row.number, word / 256))
    }

    fn read_type(&mut self, depth: usize) -> Result<Rc<Type>, Refusal> {
        let (kind, operand) = self.head(Sort::Type, depth)?;
        let d = depth + 1;
        Ok(Rc::new(match kind {
            1 => Type::Number,
            2 => Type::Lump(operand),
            3 => Type::List(self.read_type(d)?),
            _ => Type::Function(self.read_type(d)?, self.read_type(d)?),
        }))
    }

    fn read_ml(&mut self, depth: usize) -> Result<Rc<Ml>, Refusal> {
        let (kind, operand) = self.head(Sort::Ml, depth)?;
        let d = depth + 1;
        Ok(Rc::new(match kind {
            16 => Ml::Variable(operand),
            17 => Ml::Number(operand),
            18 => Ml::Lambda(self.read_type(d)?, self.read_ml(d)?),
            19 => Ml::Application(self.read_ml(d)?, self.read_ml(d)?),
            20 => Ml::Fix(self.read_ml(d)?),
            21 => Ml::Add(self.read_ml(d)?, self.read_ml(d)?),
            22 => Ml::Subtract(self.read_ml(d)?, self.read_ml(d)?),
            23 => Ml::If0(self.read_ml(d)?, self.read_ml(d)?, self.read_ml(d)?),
            24 => Ml::Nil(self.read_type(d)?),
            25 => Ml::Cons(self.read_ml(d)?, self.read_ml(d)?),
            26 => Ml::Hd(self.read_ml(d)?),
            27 => Ml::Tl(self.read_ml(d)?),
            28 => Ml::Null(self.read_ml(d)?),
            29 => Ml::Wrong(operand, self.read_type(d)?),
            _ => Ml::Ms(self.read_type(d)?, self.read_scheme(d)?),
        }))
    }

    fn read_scheme(&mut self, depth: usize) -> Result<Rc<Scheme>, Refusal> {
        let (kind, operand) = self.head(Sort::Scheme, depth)?;
        let d = depth + 1;
        Ok(Rc::new(match kind {
            32 => Scheme::Variable(operand),
            33 => Scheme::Number(operand),
            34 => Scheme::Lambda(self.read_scheme(d)?),
            35 => Scheme::Application(self.read_scheme(d)?, self.read_scheme(d)?),
            36 => Scheme::Add(self.read_scheme(d)?, self.read_scheme(d)?),
            37 => Scheme::Subtract(self.read_scheme(d)?, self.read_scheme(d)?),
            38 => Scheme::If0(self.read_scheme(d)?, self.read_scheme(d)?, self.read_scheme(d)?),
            39 => Scheme::Nil,
            40 => Scheme::Cons(self.read_scheme(d)?, self.read_scheme(d)?),
            41 => Scheme::Hd(self.read_scheme(d)?),
            42 => Scheme::Tl(self.read_scheme(d)?),
            43 => Scheme::Test(test(operand), self.read_scheme(d)?),
            44 => Scheme::Wrong(operand),
            _ => Scheme::Sm(self.read_type(d)?, self.read_ml(d)?),
        }))
    }
}

fn test(operand: u32) -> Test {
    match operand {
        0 => Test::Fun,
        1 => Test::List,
        2 => Test::Null,
        _ => Test::Num,
    }
}
