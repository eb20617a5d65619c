//! What a node becomes by its rule, as words with their origins.
//!
//! A part that is copied keeps its origins, and so does a type that is copied from a boundary's. A number that crosses, and
//! nil, have the origin of what crossed; any other word that a boundary makes has the boundary's own. A number or a wrong that
//! another node makes has that node's.

use super::carried::{Origin, Term};
use super::due::numbers;
use super::flat::{behind, kind_at, parts_of};
use model::kinds::{ml, scheme, LIST, N};
use model::rules::Rule;
use std::ops::Range;

/// The node whose turn it is, where its parts start, and where what it becomes is written.
pub struct Contraction<'a> {
    from: &'a Term,
    place: usize,
    /// The places of the parts, and the one behind the last.
    parts: [usize; 4],
    out: &'a mut Term,
}

/// Writes what the node at a place becomes by a rule into an empty term, and answers with how many words it has. More than
/// `most` are counted and not written.
pub fn contract(rule: Rule, from: &Term, place: usize, most: usize, out: &mut Term) -> usize {
    let mut parts = [place + 1; 4];
    for part in 0..usize::from(parts_of(from.words[place])) {
        let next = behind(&from.words, parts[part]);
        parts[part + 1..].fill(next);
    }
    let mut work = Contraction { from, place, parts, out };
    match rule {
        Rule::MlApplication | Rule::SchemeApplication => return work.body(work.part(1), most),
        Rule::MlFix => return work.body(place..parts[1], most),
        _ if rule.code().is_some() => work.wrong(rule),
        _ if work.copied(rule) => {}
        _ if work.converted(rule) => {}
        _ => work.number(rule),
    }
    out.words.len()
}

impl Contraction<'_> {
    /// The words of a part.
    fn part(&self, index: usize) -> Range<usize> {
        self.parts[index]..self.parts[index + 1]
    }

    /// The whole node that starts at a place.
    fn node(&self, place: usize) -> Range<usize> {
        place..behind(&self.from.words, place)
    }

    /// Puts a word that the node makes.
    fn make(&mut self, word: u32) {
        self.out.put(word, Origin { place: self.from.origins[self.place].place, made: true });
    }

    /// Puts the word at a place as the other language's: its operand and its origin stay.
    fn cross(&mut self, kind: u32, place: usize) {
        let operand = self.from.words[place] / 256;
        self.out.put(kind + 256 * operand, Origin { place: self.from.origins[place].place, made: true });
    }

    fn copy(&mut self, range: Range<usize>) {
        self.out.copy(self.from, range);
    }

    /// The body of the lambda that is the first part, with the words of a closed term for its variable.
    fn body(&mut self, term: Range<usize>, most: usize) -> usize {
        let lambda = self.parts[0];
        let is_ml = kind_at(&self.from.words, lambda) == ml::LAMBDA;
        let (variable, start) = match is_ml {
            true => (ml::VARIABLE, behind(&self.from.words, lambda + 1)),
            false => (scheme::VARIABLE, lambda + 1),
        };
        let body = start..self.parts[1];
        let places = variables(&self.from.words, body.clone(), variable);
        let size = body.len() - places.len() + places.len() * term.len();
        if size <= most {
            let mut at = body.start;
            for place in places {
                self.copy(at..place);
                self.copy(term.clone());
                at = place + 1;
            }
            self.copy(at..body.end);
        }
        size
    }

    /// A part or a part of one, where the rule copies that and no more.
    fn copied(&mut self, rule: Rule) -> bool {
        let first = self.parts[0];
        let range = match rule {
            Rule::MlIf0Zero | Rule::SchemeIf0Zero => self.part(1),
            Rule::MlIf0Other | Rule::SchemeIf0Other => self.part(2),
            Rule::MlHdCons | Rule::SchemeHdCons => self.node(first + 1),
            Rule::MlTlCons | Rule::SchemeTlCons => self.node(behind(&self.from.words, first + 1)),
            // Behind sm, its type, ms and the type of that.
            Rule::SmLump => self.node(self.place + 4),
            _ => return false,
        };
        self.copy(range);
        true
    }

    /// What crosses a boundary.
    fn converted(&mut self, rule: Rule) -> bool {
        let (types, value) = (self.part(0), self.part(1));
        match rule {
            Rule::MsNumber => self.cross(ml::NUMBER, value.start),
            Rule::SmNumber => self.cross(scheme::NUMBER, value.start),
            Rule::MsListNil => {
                self.cross(ml::NIL, value.start);
                self.copy(types.start + 1..types.end);
            }
            Rule::SmListNil => self.cross(scheme::NIL, value.start),
            Rule::MsListCons => self.list(ml::CONS, ml::MS),
            Rule::SmListCons => self.list(scheme::CONS, scheme::SM),
            Rule::MsFunction => self.function(true),
            Rule::SmFunction => self.function(false),
            _ => return false,
        }
        true
    }

    /// A cons whose parts cross each by itself.
    fn list(&mut self, cons: u32, boundary: u32) {
        let (types, value) = (self.part(0), self.part(1));
        let tail = behind(&self.from.words, value.start + 1);
        self.make(cons);
        self.make(boundary);
        self.copy(types.start + 1..types.end);
        self.copy(value.start + 1..tail);
        self.make(boundary);
        self.copy(types);
        self.copy(tail..value.end);
    }

    /// A new lambda, whose body is the boundary of the old one applied to what crosses back of the new variable.
    fn function(&mut self, is_ms: bool) {
        let (types, old) = (self.part(0), self.part(1));
        let result = behind(&self.from.words, types.start + 1);
        let argument = types.start + 1..result;
        if is_ms {
            self.make(ml::LAMBDA);
            self.copy(argument.clone());
        } else {
            self.make(scheme::LAMBDA);
        }
        let (out, call, back, variable) = match is_ms {
            true => (ml::MS, scheme::APPLICATION, scheme::SM, ml::VARIABLE),
            false => (scheme::SM, ml::APPLICATION, ml::MS, scheme::VARIABLE),
        };
        self.make(out);
        self.copy(result..types.end);
        self.make(call);
        self.copy(old);
        self.make(back);
        self.copy(argument);
        self.make(variable);
    }

    /// The wrong of a rule; in ML it has the type of the node that it stands for.
    fn wrong(&mut self, rule: Rule) {
        let code = 256 * rule.code().unwrap_or(0);
        let node = kind_at(&self.from.words, self.place);
        if node >= scheme::VARIABLE {
            return self.make(scheme::WRONG + code);
        }
        self.make(ml::WRONG + code);
        match rule {
            Rule::MlAddOver => self.make(N),
            // Behind nil stands the type of its elements.
            Rule::MlHdNil => self.copy(self.node(self.place + 2)),
            Rule::MlTlNil => {
                self.make(LIST);
                self.copy(self.node(self.place + 2));
            }
            _ => self.copy(self.part(0)),
        }
    }

    /// The number that an operator or a test makes.
    fn number(&mut self, rule: Rule) {
        let (a, b) = numbers(&self.from.words, self.place).unwrap_or_default();
        let number = match rule {
            Rule::MlAdd | Rule::SchemeAdd => a + b,
            Rule::MlSubtract | Rule::SchemeSubtract => a.saturating_sub(b),
            Rule::MlNullYes | Rule::FunYes | Rule::ListYes | Rule::NullYes | Rule::NumYes => 0,
            _ => 1,
        };
        let is_ml = kind_at(&self.from.words, self.place) < scheme::VARIABLE;
        self.make(256 * number + if is_ml { ml::NUMBER } else { scheme::NUMBER });
    }
}

/// The places in a lambda's body where its variable stands, of the given kind: the operand counts the lambdas of both languages
/// between.
fn variables(words: &[u32], body: Range<usize>, variable: u32) -> Vec<usize> {
    let mut found = Vec::new();
    // Of each node around the next word: how many of its parts are not yet passed, and whether it is a lambda.
    let mut around: Vec<(u8, bool)> = Vec::new();
    let mut lambdas = 0;
    for place in body {
        let word = words[place];
        if word == variable + 256 * lambdas {
            found.push(place);
        }
        let is_lambda = matches!(word % 256, ml::LAMBDA | scheme::LAMBDA);
        match parts_of(word) {
            0 => lambdas -= leave(&mut around),
            parts => {
                lambdas += u32::from(is_lambda);
                around.push((parts, is_lambda));
            }
        }
    }
    found
}

/// Passes a part, and each node whose last part that was; answers with how many of these are lambdas.
fn leave(around: &mut Vec<(u8, bool)>) -> u32 {
    let mut lambdas = 0;
    while let Some((parts, is_lambda)) = around.last_mut() {
        *parts -= 1;
        if *parts > 0 {
            break;
        }
        lambdas += u32::from(*is_lambda);
        around.pop();
    }
    lambdas
}
