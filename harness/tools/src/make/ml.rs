//! Random ML terms of a given type.

use super::forms::{Form, Lambda, Maker};
use super::owners::reowned;
use super::types::open_type;
use model::build::{list, ml, n, sc, to};
use model::{Ml, Scheme, Type};
use std::rc::Rc;

impl Maker<'_> {
    /// An ML term that has the type among the lambdas around it.
    pub fn ml(&mut self, t: &Rc<Type>) -> Rc<Ml> {
        if self.must_close() {
            return self.least_ml(t);
        }
        let form = self.form(t);
        self.deeper(1, |maker| maker.ml_form(form, t))
    }

    fn ml_form(&mut self, form: Form, t: &Rc<Type>) -> Rc<Ml> {
        match form {
            Form::Variable => self.ml_variable(t),
            Form::Value | Form::Misfit => self.ml_value(t),
            Form::Let => self.ml_let(t),
            Form::Application => {
                let a = self.small_type();
                ml(Ml::Application(self.ml(&to(a.clone(), t.clone())), self.ml(&a)))
            }
            Form::Fix => {
                let body = self.under(Lambda::Ml(t.clone()), |maker| maker.ml(t));
                ml(Ml::Fix(ml(Ml::Lambda(t.clone(), body))))
            }
            Form::Countdown => self.countdown(t),
            Form::If0 => ml(Ml::If0(self.ml(&n()), self.ml(t), self.ml(t))),
            Form::Hd => ml(Ml::Hd(self.ml(&list(t.clone())))),
            Form::Tl => ml(Ml::Tl(self.ml(t))),
            Form::Arithmetic => self.ml_arithmetic(),
            Form::Test => {
                let element = self.small_type();
                ml(Ml::Null(self.ml(&list(element))))
            }
            Form::Wrong => ml(Ml::Wrong(self.code(), t.clone())),
            Form::Boundary => ml(Ml::Ms(t.clone(), self.scheme(t))),
            Form::Wrapped => self.ml_wrapped(t),
            Form::Resealed => {
                let other = reowned(self.random, t);
                ml(Ml::Ms(t.clone(), sc(Scheme::Sm(other.clone(), self.deeper(1, |maker| maker.ml(&other))))))
            }
        }
    }

    fn ml_variable(&mut self, t: &Rc<Type>) -> Rc<Ml> {
        match self.variable(|lambda| matches!(lambda, Lambda::Ml(u) if u == t)) {
            Some(operand) => ml(Ml::Variable(operand)),
            None => self.ml_value(t),
        }
    }

    fn ml_value(&mut self, t: &Rc<Type>) -> Rc<Ml> {
        match &**t {
            Type::Number => ml(Ml::Number(self.number())),
            Type::Lump(_) => {
                let inside = open_type(self.random);
                ml(Ml::Ms(t.clone(), self.scheme(&inside)))
            }
            Type::List(element) if self.random.chance(35) => ml(Ml::Nil(element.clone())),
            Type::List(element) => ml(Ml::Cons(self.ml(element), self.ml(t))),
            Type::Function(from, into) => {
                let body = self.under(Lambda::Ml(from.clone()), |maker| maker.ml(into));
                ml(Ml::Lambda(from.clone(), body))
            }
        }
    }

    fn ml_let(&mut self, t: &Rc<Type>) -> Rc<Ml> {
        let a = self.small_type();
        let body = self.under(Lambda::Ml(a.clone()), |maker| maker.ml(t));
        ml(Ml::Application(ml(Ml::Lambda(a.clone(), body)), self.ml(&a)))
    }

    /// (fix (fn (N to t) (fn N (if0 v0 e (v1 (subtract v0 1)))))) applied to a small number.
    fn countdown(&mut self, t: &Rc<Type>) -> Rc<Ml> {
        let whole = to(n(), t.clone());
        let lambdas = [Lambda::Ml(whole.clone()), Lambda::Ml(n())];
        let at_zero = self.deeper(4, |maker| maker.under_both(lambdas, |maker| maker.ml(t)));
        let less = ml(Ml::Subtract(ml(Ml::Variable(0)), ml(Ml::Number(1))));
        let again = ml(Ml::Application(ml(Ml::Variable(1)), less));
        let body = ml(Ml::If0(ml(Ml::Variable(0)), at_zero, again));
        let count = ml(Ml::Number(self.random.below(6) as u32));
        ml(Ml::Application(ml(Ml::Fix(ml(Ml::Lambda(whole, ml(Ml::Lambda(n(), body)))))), count))
    }

    fn ml_arithmetic(&mut self) -> Rc<Ml> {
        let (a, b) = (self.ml(&n()), self.ml(&n()));
        ml(if self.random.chance(55) { Ml::Add(a, b) } else { Ml::Subtract(a, b) })
    }

    fn ml_wrapped(&mut self, t: &Rc<Type>) -> Rc<Ml> {
        let times = self.times();
        let mut term = self.deeper(2 * times, |maker| maker.ml(t));
        for _ in 0..times {
            term = ml(Ml::Ms(t.clone(), sc(Scheme::Sm(t.clone(), term))));
        }
        term
    }

    /// A small term of the type.
    fn least_ml(&mut self, t: &Rc<Type>) -> Rc<Ml> {
        let variable = self.variable(|lambda| matches!(lambda, Lambda::Ml(u) if u == t));
        match (variable, &**t) {
            (Some(operand), _) if self.random.chance(70) => ml(Ml::Variable(operand)),
            (_, Type::Number) => ml(Ml::Number(self.number())),
            (_, Type::Lump(_)) => ml(Ml::Ms(t.clone(), self.least_scheme(&n()))),
            (_, Type::List(element)) => ml(Ml::Nil(element.clone())),
            (_, Type::Function(from, into)) => {
                let body = self.under(Lambda::Ml(from.clone()), |maker| maker.least_ml(into));
                ml(Ml::Lambda(from.clone(), body))
            }
        }
    }
}
