//! The maker of random terms: what it knows on its way down, and how it chooses the next form.

use super::owners::has_lump;
use super::types::any_type;
use crate::random::Random;
use model::Type;
use std::rc::Rc;

/// A lambda around the term that is being made: its type, or for Scheme the type that its argument is expected to fit.
pub enum Lambda {
    Ml(Rc<Type>),
    Scheme(Rc<Type>),
}

/// What the next node is to be.
#[derive(Clone, Copy)]
pub enum Form {
    Variable,
    /// A constructor of the type's values.
    Value,
    /// A lambda applied at once.
    Let,
    Application,
    Fix,
    /// A function that counts its argument down to 0.
    Countdown,
    If0,
    Hd,
    Tl,
    Arithmetic,
    /// null?, or in Scheme any test.
    Test,
    Wrong,
    /// A term of the other language.
    Boundary,
    /// There and back again, up to three times.
    Wrapped,
    /// There at one type and back at another that differs in owners: a value opened and sealed for another owner.
    Resealed,
    /// In Scheme: a term that does not fit what is expected.
    Misfit,
}

pub struct Maker<'a> {
    pub random: &'a mut Random,
    /// Around the term, the innermost last.
    pub lambdas: Vec<Lambda>,
    /// How many nodes may still be made before terms are closed as soon as they can be.
    pub budget: usize,
    pub depth: usize,
    /// How many of a hundred tests of Scheme's if0 are to be numbers.
    pub numbers_tested: usize,
}

/// Levels after which terms are closed; what closes them, types included, nests far less than the rest of 256.
const DEEP: usize = 200;

/// Levels of a type after which no larger type is made from it.
const LARGE_TYPE: usize = 10;

fn levels(t: &Type) -> usize {
    match t {
        Type::Number | Type::Lump(_) => 1,
        Type::List(t) => 1 + levels(t),
        Type::Function(t, u) => 1 + levels(t).max(levels(u)),
    }
}

impl<'a> Maker<'a> {
    pub fn new(random: &'a mut Random, budget: usize) -> Maker<'a> {
        Maker { random, lambdas: Vec::new(), budget, depth: 1, numbers_tested: 80 }
    }

    pub fn must_close(&self) -> bool {
        self.budget == 0 || self.depth > DEEP
    }

    /// Makes a part so many levels deeper.
    pub fn deeper<T>(&mut self, levels: usize, make: impl FnOnce(&mut Self) -> T) -> T {
        self.budget = self.budget.saturating_sub(1);
        self.depth += levels;
        let made = make(self);
        self.depth -= levels;
        made
    }

    /// Makes a body under a lambda.
    pub fn under<T>(&mut self, lambda: Lambda, make: impl FnOnce(&mut Self) -> T) -> T {
        self.lambdas.push(lambda);
        let made = make(self);
        self.lambdas.pop();
        made
    }

    pub fn under_both<T>(&mut self, lambdas: [Lambda; 2], make: impl FnOnce(&mut Self) -> T) -> T {
        let [outer, inner] = lambdas;
        self.under(outer, |maker| maker.under(inner, make))
    }

    /// The operand of a random variable among those that the test picks.
    pub fn variable(&mut self, picked: impl Fn(&Lambda) -> bool) -> Option<u32> {
        let operands: Vec<u32> = (0..)
            .zip(self.lambdas.iter().rev())
            .filter(|(_, lambda)| picked(lambda))
            .map(|(operand, _)| operand)
            .collect();
        (!operands.is_empty()).then(|| self.random.pick(&operands))
    }

    /// The form of the next node where a term of the type is made: near the root seldom a value.
    pub fn form(&mut self, t: &Type) -> Form {
        let form = self.any_form(t);
        match form {
            Form::Value | Form::Variable if self.depth <= 3 => self.any_form(t),
            _ => form,
        }
    }

    fn any_form(&mut self, t: &Type) -> Form {
        let number = usize::from(*t == Type::Number);
        let is_list = usize::from(matches!(t, Type::List(_)));
        let lump = usize::from(has_lump(t));
        // Forms with a part of a larger type.
        let growing = usize::from(levels(t) < LARGE_TYPE);
        self.random.weighted(&[
            (22, Form::Variable),
            (20, Form::Value),
            (6, Form::Let),
            (7 * growing, Form::Application),
            (2, Form::Fix),
            (2 * growing, Form::Countdown),
            (6, Form::If0),
            (4 * growing, Form::Hd),
            (5 * is_list, Form::Tl),
            (14 * number, Form::Arithmetic),
            (5 * number, Form::Test),
            (1, Form::Wrong),
            (12, Form::Boundary),
            (4, Form::Wrapped),
            (8 * lump, Form::Resealed),
            (4, Form::Misfit),
        ])
    }

    /// A small type for an argument or an element.
    pub fn small_type(&mut self) -> Rc<Type> {
        any_type(self.random, 2)
    }

    pub fn number(&mut self) -> u32 {
        let any = self.random.word() >> 8;
        let small = self.random.below(10) as u32;
        self.random.weighted(&[
            (20, 0),
            (15, 1),
            (10, 2),
            (10, 3),
            (20, small),
            (8, 16_777_215),
            (4, 16_777_214),
            (5, any),
        ])
    }

    pub fn code(&mut self) -> u32 {
        let any = 1 + self.random.below(65_535) as u32;
        self.random.weighted(&[(2, 1), (1, 5), (1, 65_535), (4, any)])
    }

    pub fn times(&mut self) -> usize {
        1 + self.random.below(3)
    }
}
