//! Which rule fits the node whose turn it is, by its words.

use super::flat::{behind, kind_at};
use model::kinds::{ml, scheme, FUNCTION, LIST, LUMP, N};
use model::rules::Rule;
use model::tree::MOST;

/// The rule of the node at a place, if one fits: the parts that evaluation takes are values.
pub fn rule_at(words: &[u32], place: usize) -> Option<Rule> {
    match kind_at(words, place) {
        ml::MS => ms(words, place),
        scheme::SM => sm(words, place),
        kind if kind < scheme::VARIABLE => of_ml(words, place),
        _ => of_scheme(words, place),
    }
}

/// The two numbers that a node has for parts, if both are: a number is one word.
pub fn numbers(words: &[u32], place: usize) -> Option<(u32, u32)> {
    let (first, second) = (words.get(place + 1)?, words.get(place + 2)?);
    let both = is_number(first % 256) && is_number(second % 256);
    both.then_some((first / 256, second / 256))
}

/// Whether a kind is a number's, in either language.
pub fn is_number(kind: u32) -> bool {
    matches!(kind, ml::NUMBER | scheme::NUMBER)
}

fn of_ml(words: &[u32], place: usize) -> Option<Rule> {
    let first = words.get(place + 1)?;
    Some(match (kind_at(words, place), first % 256) {
        (ml::APPLICATION, ml::LAMBDA) => Rule::MlApplication,
        (ml::FIX, ml::LAMBDA) => Rule::MlFix,
        (ml::ADD, _) => match numbers(words, place)? {
            (a, b) if a + b > MOST => Rule::MlAddOver,
            _ => Rule::MlAdd,
        },
        (ml::SUBTRACT, _) => numbers(words, place).map(|_| Rule::MlSubtract)?,
        (ml::IF0, ml::NUMBER) if first / 256 == 0 => Rule::MlIf0Zero,
        (ml::IF0, ml::NUMBER) => Rule::MlIf0Other,
        (ml::HD, ml::CONS) => Rule::MlHdCons,
        (ml::HD, ml::NIL) => Rule::MlHdNil,
        (ml::TL, ml::CONS) => Rule::MlTlCons,
        (ml::TL, ml::NIL) => Rule::MlTlNil,
        (ml::NULL, ml::NIL) => Rule::MlNullYes,
        (ml::NULL, ml::CONS) => Rule::MlNullNo,
        _ => return None,
    })
}

fn of_scheme(words: &[u32], place: usize) -> Option<Rule> {
    let first = words.get(place + 1)?;
    Some(match (kind_at(words, place), first % 256) {
        (scheme::APPLICATION, scheme::LAMBDA) => Rule::SchemeApplication,
        (scheme::APPLICATION, _) => Rule::SchemeApplicationOther,
        (scheme::ADD, _) => match numbers(words, place) {
            Some((a, b)) if a + b > MOST => Rule::SchemeAddOver,
            Some(_) => Rule::SchemeAdd,
            None => Rule::SchemeAddOther,
        },
        (scheme::SUBTRACT, _) => numbers(words, place).map_or(Rule::SchemeSubtractOther, |_| Rule::SchemeSubtract),
        (scheme::IF0, scheme::NUMBER) if first / 256 == 0 => Rule::SchemeIf0Zero,
        (scheme::IF0, scheme::NUMBER) => Rule::SchemeIf0Other,
        (scheme::IF0, _) => Rule::SchemeIf0NoNumber,
        (scheme::HD, scheme::CONS) => Rule::SchemeHdCons,
        (scheme::HD, scheme::NIL) => Rule::SchemeHdNil,
        (scheme::HD, _) => Rule::SchemeHdOther,
        (scheme::TL, scheme::CONS) => Rule::SchemeTlCons,
        (scheme::TL, scheme::NIL) => Rule::SchemeTlNil,
        (scheme::TL, _) => Rule::SchemeTlOther,
        (scheme::TEST, kind) => tested(words[place] / 256, kind),
        _ => return None,
    })
}

/// The rule of a test, by its operand and the kind of the value.
fn tested(test: u32, kind: u32) -> Rule {
    let (yes, rules) = match test {
        0 => (kind == scheme::LAMBDA, [Rule::FunNo, Rule::FunYes]),
        1 => (matches!(kind, scheme::NIL | scheme::CONS), [Rule::ListNo, Rule::ListYes]),
        2 => (kind == scheme::NIL, [Rule::NullNo, Rule::NullYes]),
        _ => (kind == scheme::NUMBER, [Rule::NumNo, Rule::NumYes]),
    };
    rules[usize::from(yes)]
}

/// The kinds of a boundary's type and of its value.
fn crossing(words: &[u32], place: usize) -> (u32, u32) {
    (kind_at(words, place + 1), kind_at(words, behind(words, place + 1)))
}

fn ms(words: &[u32], place: usize) -> Option<Rule> {
    Some(match crossing(words, place) {
        (N, scheme::NUMBER) => Rule::MsNumber,
        (N, _) => Rule::MsNumberOther,
        (LIST, scheme::NIL) => Rule::MsListNil,
        (LIST, scheme::CONS) => Rule::MsListCons,
        (LIST, _) => Rule::MsListOther,
        (FUNCTION, scheme::LAMBDA) => Rule::MsFunction,
        (FUNCTION, _) => Rule::MsFunctionOther,
        _ => return None,
    })
}

fn sm(words: &[u32], place: usize) -> Option<Rule> {
    Some(match crossing(words, place) {
        (N, ml::NUMBER) => Rule::SmNumber,
        (LIST, ml::NIL) => Rule::SmListNil,
        (LIST, ml::CONS) => Rule::SmListCons,
        (FUNCTION, ml::LAMBDA) => Rule::SmFunction,
        // The type is one word; behind it stands ms, and then the type of what was sealed.
        (LUMP, ml::MS) if words[place + 1] == words[place + 3] => Rule::SmLump,
        _ => return None,
    })
}
