//! Random Scheme terms. They have no types; the type is what is expected of the value, so that conversions mostly work.

use super::forms::{Form, Lambda, Maker};
use super::owners::reowned;
use super::types::open_type;
use model::build::{list, ml, n, sc, to};
use model::{Ml, Scheme, Test, Type};
use std::rc::Rc;

impl Maker<'_> {
    pub fn scheme(&mut self, t: &Rc<Type>) -> Rc<Scheme> {
        if self.must_close() {
            return self.least_scheme(t);
        }
        let form = self.form(t);
        self.deeper(1, |maker| maker.scheme_form(form, t))
    }

    fn scheme_form(&mut self, form: Form, t: &Rc<Type>) -> Rc<Scheme> {
        match form {
            Form::Variable => self.scheme_variable(t),
            Form::Value => self.scheme_value(t),
            Form::Fix if self.random.chance(30) => self.spinning(),
            Form::Let | Form::Countdown | Form::Fix => self.scheme_let(t),
            Form::Application => {
                let a = self.small_type();
                sc(Scheme::Application(self.operand(&to(a.clone(), t.clone())), self.scheme(&a)))
            }
            Form::If0 => self.scheme_if0(t),
            Form::Hd => sc(Scheme::Hd(self.operand(&list(t.clone())))),
            Form::Tl => sc(Scheme::Tl(self.operand(t))),
            Form::Arithmetic => self.scheme_arithmetic(),
            Form::Test => self.tested(),
            Form::Wrong => sc(Scheme::Wrong(self.code())),
            Form::Boundary => sc(Scheme::Sm(t.clone(), self.ml(t))),
            Form::Wrapped => self.scheme_wrapped(t),
            Form::Resealed => {
                let other = reowned(self.random, t);
                sc(Scheme::Sm(other.clone(), self.ml(&other)))
            }
            Form::Misfit => self.misfit(),
        }
    }

    fn scheme_variable(&mut self, t: &Rc<Type>) -> Rc<Scheme> {
        let fitting = self.variable(|lambda| matches!(lambda, Lambda::Scheme(u) if u == t));
        let any =
            if self.random.chance(10) { self.variable(|lambda| matches!(lambda, Lambda::Scheme(_))) } else { None };
        match any.or(fitting) {
            Some(operand) => sc(Scheme::Variable(operand)),
            None => self.scheme_value(t),
        }
    }

    fn scheme_value(&mut self, t: &Rc<Type>) -> Rc<Scheme> {
        match &**t {
            Type::Number => sc(Scheme::Number(self.number())),
            Type::Lump(_) => {
                let inside = open_type(self.random);
                self.scheme(&inside)
            }
            Type::List(_) if self.random.chance(35) => sc(Scheme::Nil),
            Type::List(element) => {
                let head = self.scheme(element);
                let tail = if self.random.chance(6) { self.scheme(element) } else { self.scheme(t) };
                sc(Scheme::Cons(head, tail))
            }
            Type::Function(from, into) => {
                let body = self.under(Lambda::Scheme(from.clone()), |maker| maker.scheme(into));
                sc(Scheme::Lambda(body))
            }
        }
    }

    fn scheme_let(&mut self, t: &Rc<Type>) -> Rc<Scheme> {
        let a = self.small_type();
        let body = self.under(Lambda::Scheme(a.clone()), |maker| maker.scheme(t));
        sc(Scheme::Application(sc(Scheme::Lambda(body)), self.scheme(&a)))
    }

    /// (fn (v0 v0)) applied to itself.
    fn spinning(&mut self) -> Rc<Scheme> {
        let v0 = sc(Scheme::Variable(0));
        let twice = sc(Scheme::Lambda(sc(Scheme::Application(v0.clone(), v0))));
        sc(Scheme::Application(twice.clone(), twice))
    }

    /// An if0 whose test is a number or not, as often as the maker says.
    pub fn scheme_if0(&mut self, t: &Rc<Type>) -> Rc<Scheme> {
        let test = if self.random.chance(self.numbers_tested) { n() } else { self.no_number() };
        sc(Scheme::If0(self.scheme(&test), self.scheme(t), self.scheme(t)))
    }

    /// A small type whose values are no numbers, or are sealed.
    fn no_number(&mut self) -> Rc<Type> {
        loop {
            let t = self.small_type();
            if *t != Type::Number {
                return t;
            }
        }
    }

    fn scheme_arithmetic(&mut self) -> Rc<Scheme> {
        let (a, b) = (self.operand(&n()), self.operand(&n()));
        sc(if self.random.chance(55) { Scheme::Add(a, b) } else { Scheme::Subtract(a, b) })
    }

    fn tested(&mut self) -> Rc<Scheme> {
        let test = self.random.pick(&[Test::Fun, Test::List, Test::Null, Test::Num]);
        let t = if self.random.chance(30) { list(n()) } else { self.small_type() };
        sc(Scheme::Test(test, self.scheme(&t)))
    }

    fn scheme_wrapped(&mut self, t: &Rc<Type>) -> Rc<Scheme> {
        let times = self.times();
        let mut term = self.deeper(2 * times, |maker| maker.scheme(t));
        for _ in 0..times {
            term = sc(Scheme::Sm(t.clone(), ml(Ml::Ms(t.clone(), term))));
        }
        term
    }

    /// What an operation expects, or now and then something else.
    fn operand(&mut self, t: &Rc<Type>) -> Rc<Scheme> {
        if self.random.chance(10) {
            return self.misfit();
        }
        self.scheme(t)
    }

    fn misfit(&mut self) -> Rc<Scheme> {
        let other = self.small_type();
        self.scheme(&other)
    }

    /// A small term that fits the type.
    pub fn least_scheme(&mut self, t: &Rc<Type>) -> Rc<Scheme> {
        let variable = self.variable(|lambda| matches!(lambda, Lambda::Scheme(u) if u == t));
        match (variable, &**t) {
            (Some(operand), _) if self.random.chance(70) => sc(Scheme::Variable(operand)),
            (_, Type::Number | Type::Lump(_)) => sc(Scheme::Number(self.number())),
            (_, Type::List(_)) => sc(Scheme::Nil),
            (_, Type::Function(from, into)) => {
                let body = self.under(Lambda::Scheme(from.clone()), |maker| maker.least_scheme(into));
                sc(Scheme::Lambda(body))
            }
        }
    }
}
