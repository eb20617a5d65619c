//! What a comparison has reached of the owners of lumps: which are accepted, which types differ by them alone, where they are over
//! the last, and what becomes of them in runs.

use super::counts::add;
use crate::make::owners::forgotten;
use model::check::{judged, read_words};
use model::file::{regions, words_of};
use model::kinds::{due, Sort, LUMP};
use model::node::{Node, Tree};
use model::owners::{differing, owners, Within};
use model::read::{read_type, DEEPEST};
use model::rules::Rule;
use model::step::{turn, Step, Turn};
use model::tree::MOST_OWNER;
use model::untyped::untyped;
use model::{check, typing, Ml, Recipe, Refusal, Run, Type};

/// All that is counted of owners.
#[derive(Default)]
pub struct OwnerCounts {
    /// By `ACCEPTED`.
    accepted: [u64; ACCEPTED.len()],
    /// Accepted recipes whose declared type has an owner over 0, by what the first of them is in.
    declared: [u64; Within::ALL.len()],
    /// Refusals 6 and 7 for owners alone, by what the first that differs is in; 6 also by `AT`.
    unequal: [[u64; Within::ALL.len()]; 2],
    at: [u64; AT.len()],
    /// Refusals 3 for an owner over 255, by `STANDING`, and by what the L is in.
    over: [u64; STANDING.len()],
    over_within: [u64; Within::ALL.len()],
    /// Runs, by `STEPS`.
    steps: [u64; STEPS.len()],
    /// Runs of recipes with an owner over 0 that were tried beside the run without owners.
    pub ownerless: u64,
}

/// Owners in accepted recipes.
const ACCEPTED: [&str; 3] = ["owner 0", "an owner from 1 to 254", "owner 255"];

/// The kinds of nodes that want two types to be equal.
const AT: [(u32, &str); 5] = [(19, "an application"), (20, "a fix"), (23, "an if0"), (25, "a cons"), (45, "an sm")];

/// Where a type stands: as declared, or as the first part of a node of this kind.
const STANDING: [(u32, &str); 6] =
    [(0, "in the declared type"), (18, "of fn"), (24, "of nil"), (29, "of wrong"), (30, "of ms"), (45, "of sm")];

/// What a run does with owners.
const STEPS: [&str; 9] = [
    "opens a lump of owner 0",
    "opens a lump of an owner over 0",
    "seals what it opens for another owner",
    "brings over a list with an owner over 0, by ms",
    "brings over a list with an owner over 0, by sm",
    "wraps a function with an owner over 0, by ms",
    "wraps a function with an owner over 0, by sm",
    "makes a wrong at a type with an owner over 0",
    "comes to a value with an owner over 0",
];

impl OwnerCounts {
    /// Counts a file by the answer to it: none is a refusal.
    pub fn file(&mut self, bytes: &[u8], refusal: Option<&Refusal>) {
        let Ok(words) = words_of(bytes) else { return };
        if let Ok(regions) = regions(&words) {
            self.words(regions.declared, regions.term, refusal);
        }
    }

    /// The same of the words of a type and of a term.
    pub fn words(&mut self, declared: &[u32], term: &[u32], refusal: Option<&Refusal>) {
        if owners(declared).chain(owners(term)).next().is_none() {
            return;
        }
        match refusal {
            None => self.accepted(declared, term),
            Some(Refusal { number: 3, place }) => self.refused_3(declared, term, *place as usize),
            Some(Refusal { number: 6 | 7, .. }) => self.refused_6_or_7(declared, term),
            Some(_) => {}
        }
    }

    /// Counts the owners of an accepted recipe.
    fn accepted(&mut self, declared: &[u32], term: &[u32]) {
        let all = || owners(declared).chain(owners(term));
        let kinds = [0..=0, 1..=MOST_OWNER - 1, MOST_OWNER..=MOST_OWNER];
        add(&mut self.accepted, kinds.map(|kind| all().any(|owner| kind.contains(&owner))));
        let Ok(found) = read_type(declared, 4, DEEPEST) else { return };
        let Ok(plain) = read_type(&forgotten(declared), 4, DEEPEST) else { return };
        let first = differing(&plain, &found).and_then(|all| all.first().map(|owner| owner.within));
        add(&mut self.declared, Within::ALL.map(|within| first == Some(within)));
    }

    /// Counts a refusal for an owner over 255, by where its type stands.
    fn refused_3(&mut self, declared: &[u32], term: &[u32], place: usize) {
        let start = 4 + declared.len();
        let word = if place < start { declared.get(place - 4) } else { term.get(place - start) };
        if word.is_some_and(|word| word % 256 == LUMP) {
            if let Some((standing, within)) = type_place(declared, term, place) {
                add(&mut self.over, STANDING.map(|(kind, _)| kind == standing));
                add(&mut self.over_within, Within::ALL.map(|kind| kind == within));
            }
        }
    }

    /// Counts a refusal if the same recipe with owner 0 everywhere is accepted.
    fn refused_6_or_7(&mut self, declared: &[u32], term: &[u32]) {
        let alone = read_words(&forgotten(declared), &forgotten(term), DEEPEST).and_then(judged).is_ok();
        let Ok(recipe) = read_words(declared, term, DEEPEST) else { return };
        if !alone {
            return;
        }
        let node = untyped(&recipe.term);
        let types = match &node {
            Some(node) => node.mismatch.unequal(),
            None => typing::type_of(&recipe.term).map(|found| [recipe.declared.clone(), found]),
        };
        let first = types.and_then(|[due, found]| differing(&due, &found)?.first().copied());
        let row = &mut self.unequal[usize::from(node.is_none())];
        add(row, Within::ALL.map(|within| first.is_some_and(|first| first.within == within)));
        add(&mut self.at, AT.map(|(at, _)| node.as_ref().is_some_and(|node| node.kind == at)));
    }

    /// Counts a run by the steps that it has made and the value that it comes to.
    pub fn ran(&mut self, file: &[u8], ran: &Run) {
        let (Ok(ended), Ok(recipe)) = (&ran.result, check(file)) else { return };
        if owners(&words_of(file).unwrap_or_default()).next().is_some() {
            add(&mut self.steps, steps(recipe, ended.steps));
        }
    }

    /// The table's rows of files.
    pub fn rows(&self) -> Vec<(String, u64)> {
        let accepted =
            ACCEPTED.iter().zip(self.accepted).map(|(owner, count)| (format!("accepted with {owner}"), count));
        let six = within_rows("refusal 6 by an owner", &self.unequal[0]);
        let at = AT.iter().zip(self.at).map(|((_, at), count)| (format!("refusal 6 by an owner at {at}"), count));
        let seven = within_rows("refusal 7 by an owner", &self.unequal[1]);
        let over = STANDING.iter().zip(self.over);
        let over = over.map(|((_, standing), count)| (format!("refusal 3 by an owner over 255 {standing}"), count));
        let inner = within_rows("refusal 3 by an owner over 255", &self.over_within);
        accepted.chain(six).chain(at).chain(seven).chain(over).chain(inner).collect()
    }

    /// Accepted recipes whose declared type was compared with owners over 0 in it.
    pub fn declared_rows(&self) -> Vec<(String, u64)> {
        within_rows("accepted, declared with an owner over 0", &self.declared)
    }

    /// The table's rows of runs.
    pub fn step_rows(&self) -> Vec<(String, u64)> {
        let steps = STEPS.iter().zip(self.steps).map(|(step, count)| (format!("run that {step}"), count));
        steps.chain([("run as without owners".into(), self.ownerless)]).collect()
    }

    /// The rows of a comparison of few files.
    pub fn few_rows(&self) -> Vec<(String, u64)> {
        let accepted = self.rows().into_iter().take(ACCEPTED.len());
        let [six, seven] = self.unequal;
        let refused = [("6 by an owner", six), ("7 by an owner", seven), ("3 by an owner over 255", self.over_within)];
        accepted.chain(refused.map(|(name, counts)| (format!("refusal {name}"), counts.iter().sum()))).collect()
    }
}

/// A row for each that an owner may be in.
fn within_rows(name: &str, counts: &[u64; Within::ALL.len()]) -> Vec<(String, u64)> {
    Within::ALL.iter().zip(counts).map(|(within, count)| (format!("{name}, {}", within.name()), *count)).collect()
}

/// A node that is due: its sort, where the type stands that it is in, and what it is in there.
struct Due {
    sort: Sort,
    standing: u32,
    within: Within,
}

/// Where the type stands that has a word at a place of the file, and what that word is in, if a type is due there; the words before
/// are in order.
pub fn type_place(declared: &[u32], term: &[u32], place: usize) -> Option<(u32, Within)> {
    let start = 4 + declared.len();
    let (before, sort) = match place.checked_sub(start) {
        Some(at) => (term.get(..at)?, Sort::Ml),
        None => (declared.get(..place.checked_sub(4)?)?, Sort::Type),
    };
    let mut dues = vec![Due { sort, standing: 0, within: Within::Alone }];
    for word in before {
        let node = dues.pop()?;
        let row = due(*word, node.sort)?;
        let standing = if row.sort == Sort::Type { node.standing } else { row.number };
        let within = |index: usize| match (row.number, index) {
            (3, _) => Within::List,
            (4, 0) => Within::Argument,
            (4, _) => Within::Result,
            _ => Within::Alone,
        };
        let parts = row.parts.iter().enumerate().rev();
        dues.extend(parts.map(|(index, sort)| Due { sort: *sort, standing, within: within(index) }));
    }
    dues.pop().filter(|node| node.sort == Sort::Type).map(|node| (node.standing, node.within))
}

/// What the first steps of a recipe do with owners.
fn steps(recipe: Recipe, count: u32) -> [bool; STEPS.len()] {
    let (mut term, mut done) = (recipe.term, [false; STEPS.len()]);
    for _ in 0..count {
        let Some(turn) = turn(&term) else { break };
        let Step::Next(rule, next) = turn.step() else { return done };
        let kinds = kinds(&turn, rule);
        done.iter_mut().zip(kinds).for_each(|(done, is)| *done |= is);
        term = next;
    }
    done[STEPS.len() - 1] = turn(&term).is_none() && owned(Node::Ml(&term));
    done
}

/// Whether a node has an owner over 0 in it.
fn owned(node: Node<'_>) -> bool {
    owners(&node.words()).any(|owner| owner > 0)
}

/// What a step by a rule does with owners.
fn kinds(turn: &Turn, rule: Rule) -> [bool; STEPS.len()] {
    let node = turn.node.node();
    let at_owner = node.parts()[0].is_some_and(owned);
    let opened = (rule == Rule::SmLump).then(|| owners(&node.parts()[0].map_or(vec![], Node::words)).next()).flatten();
    let sealed = turn.context.last().and_then(|frame| sealing(&frame.node));
    [
        opened == Some(0),
        opened.is_some_and(|owner| owner > 0),
        opened.is_some() && sealed.is_some() && sealed != opened,
        matches!(rule, Rule::MsListCons | Rule::MsListNil) && at_owner,
        rule == Rule::SmListCons && at_owner,
        rule == Rule::MsFunction && at_owner,
        rule == Rule::SmFunction && at_owner,
        rule.code().is_some() && matches!(node, Node::Ml(_)) && at_owner,
        false,
    ]
}

/// The owner for whom a node seals its part.
fn sealing(node: &Tree) -> Option<u32> {
    let Tree::Ml(e) = node else { return None };
    match &**e {
        Ml::Ms(t, _) => match **t {
            Type::Lump(owner) => Some(owner),
            _ => None,
        },
        _ => None,
    }
}
