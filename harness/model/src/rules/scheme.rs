//! The reductions of Scheme nodes, the conversions sm among them.

use super::Rule;
use crate::substitute::scheme_body;
use crate::tree::{Ml, Scheme, Test, Type, MOST};
use std::rc::Rc;

type Outcome = Option<(Rule, Rc<Scheme>)>;

/// What the node becomes, and by which rule, if one fits. Not for a wrong: that ends the run.
pub fn scheme_rule(node: &Rc<Scheme>) -> Outcome {
    match &**node {
        Scheme::Application(f, a) => Some(application(f, a)),
        Scheme::Add(a, b) => Some(add(a, b)),
        Scheme::Subtract(a, b) => Some(subtract(a, b)),
        Scheme::If0(test, yes, no) => Some(if0(test, yes, no)),
        Scheme::Hd(e) => Some(hd(e)),
        Scheme::Tl(e) => Some(tl(e)),
        Scheme::Test(test, e) => Some(tested(*test, e)),
        Scheme::Sm(t, e) => sm(t, e),
        _ => None,
    }
}

fn application(f: &Scheme, a: &Rc<Scheme>) -> (Rule, Rc<Scheme>) {
    match f {
        Scheme::Lambda(body) => (Rule::SchemeApplication, scheme_body(body, a)),
        _ => (Rule::SchemeApplicationOther, wrong(2)),
    }
}

fn add(a: &Scheme, b: &Scheme) -> (Rule, Rc<Scheme>) {
    match (a, b) {
        (Scheme::Number(n), Scheme::Number(m)) if n + m > MOST => (Rule::SchemeAddOver, wrong(5)),
        (Scheme::Number(n), Scheme::Number(m)) => (Rule::SchemeAdd, number(n + m)),
        _ => (Rule::SchemeAddOther, wrong(1)),
    }
}

fn subtract(a: &Scheme, b: &Scheme) -> (Rule, Rc<Scheme>) {
    match (a, b) {
        (Scheme::Number(n), Scheme::Number(m)) => (Rule::SchemeSubtract, number(n.saturating_sub(*m))),
        _ => (Rule::SchemeSubtractOther, wrong(1)),
    }
}

/// "Scheme's if0 on a value that is no number now becomes wrong 1."
fn if0(test: &Scheme, yes: &Rc<Scheme>, no: &Rc<Scheme>) -> (Rule, Rc<Scheme>) {
    match test {
        Scheme::Number(0) => (Rule::SchemeIf0Zero, yes.clone()),
        Scheme::Number(_) => (Rule::SchemeIf0Other, no.clone()),
        _ => (Rule::SchemeIf0NoNumber, wrong(1)),
    }
}

fn hd(e: &Scheme) -> (Rule, Rc<Scheme>) {
    match e {
        Scheme::Cons(head, _) => (Rule::SchemeHdCons, head.clone()),
        Scheme::Nil => (Rule::SchemeHdNil, wrong(4)),
        _ => (Rule::SchemeHdOther, wrong(3)),
    }
}

fn tl(e: &Scheme) -> (Rule, Rc<Scheme>) {
    match e {
        Scheme::Cons(_, tail) => (Rule::SchemeTlCons, tail.clone()),
        Scheme::Nil => (Rule::SchemeTlNil, wrong(4)),
        _ => (Rule::SchemeTlOther, wrong(3)),
    }
}

/// 0 for yes, 1 for no.
fn tested(test: Test, e: &Scheme) -> (Rule, Rc<Scheme>) {
    let (yes, rules) = match test {
        Test::Fun => (matches!(e, Scheme::Lambda(_)), [Rule::FunYes, Rule::FunNo]),
        Test::List => (matches!(e, Scheme::Nil | Scheme::Cons(..)), [Rule::ListYes, Rule::ListNo]),
        Test::Null => (matches!(e, Scheme::Nil), [Rule::NullYes, Rule::NullNo]),
        Test::Num => (matches!(e, Scheme::Number(_)), [Rule::NumYes, Rule::NumNo]),
    };
    if yes {
        (rules[0], number(0))
    } else {
        (rules[1], number(1))
    }
}

/// "sm at an owner's L takes an ms at that same owner's L": of another owner's, no rule fits.
fn sm(t: &Rc<Type>, e: &Rc<Ml>) -> Outcome {
    Some(match (&**t, &**e) {
        (Type::Number, Ml::Number(n)) => (Rule::SmNumber, number(*n)),
        (Type::List(_), Ml::Nil(_)) => (Rule::SmListNil, Rc::new(Scheme::Nil)),
        (Type::List(element), Ml::Cons(v, w)) => (Rule::SmListCons, sm_cons(element, t, v, w)),
        (Type::Function(from, to), Ml::Lambda(..)) => (Rule::SmFunction, sm_function(from, to, e)),
        (Type::Lump(_), Ml::Ms(sealed, v)) if sealed == t => (Rule::SmLump, v.clone()),
        _ => return None,
    })
}

fn sm_cons(element: &Rc<Type>, whole: &Rc<Type>, v: &Rc<Ml>, w: &Rc<Ml>) -> Rc<Scheme> {
    let head = Scheme::Sm(element.clone(), v.clone());
    let tail = Scheme::Sm(whole.clone(), w.clone());
    Rc::new(Scheme::Cons(Rc::new(head), Rc::new(tail)))
}

/// A new lambda, whose body is sm u of the old lambda applied to ms t of the new variable.
fn sm_function(t: &Rc<Type>, u: &Rc<Type>, old: &Rc<Ml>) -> Rc<Scheme> {
    let argument = Ml::Ms(t.clone(), Rc::new(Scheme::Variable(0)));
    let call = Ml::Application(old.clone(), Rc::new(argument));
    Rc::new(Scheme::Lambda(Rc::new(Scheme::Sm(u.clone(), Rc::new(call)))))
}

fn number(n: u32) -> Rc<Scheme> {
    Rc::new(Scheme::Number(n))
}

fn wrong(code: u32) -> Rc<Scheme> {
    Rc::new(Scheme::Wrong(code))
}
