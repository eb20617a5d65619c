//! Lumps with owners, by hand from document 02's request U6: "The operand of L becomes an owner, 0 to 255."

use crate::common::*;
use model::build::{l, list, ml, n, sc, to};
use model::file::file;
use model::laws::{alike_but_owners, try_lumps, try_ownerless};
use model::node::Node;
use model::owners::{differing, forgotten, owners, without_owners, Differing, Within};
use model::rules::scheme_rule;
use model::{on_large_stack, End, Ml, Scheme};
use std::rc::Rc;

/// The word of L with an owner.
const fn lump(owner: u32) -> u32 {
    w(2, owner)
}

/// The answer to a file's words.
fn told(declared: &[u32], term: &[u32]) -> (u32, u32) {
    refused_bytes(&file(declared, term))
}

/// "A larger owner is refusal 3": the words of a type and of a term with any owner at a place are accepted up to 255.
fn ends_at_255(place: u32, with: impl Fn(u32) -> (Vec<u32>, Vec<u32>)) {
    for owner in [0, 1, 7, 254, 255] {
        let (declared, term) = with(lump(owner));
        assert_eq!(told(&declared, &term), (0, 0), "owner {owner} at word {place}");
    }
    for owner in [256, 257, 511, 65_535, 16_777_215] {
        let (declared, term) = with(lump(owner));
        assert_eq!(told(&declared, &term), (3, place), "owner {owner} at word {place}");
    }
}

#[test]
fn an_owner_is_0_to_255_in_the_declared_type() {
    let wrong = |t: Vec<u32>| (t.clone(), [vec![w(29, 1)], t].concat());
    ends_at_255(4, |o| wrong(vec![o]));
    ends_at_255(5, |o| wrong(vec![3, o]));
    ends_at_255(5, |o| wrong(vec![4, o, 1]));
    ends_at_255(6, |o| wrong(vec![4, 1, o]));
    ends_at_255(8, |o| wrong(vec![4, 3, 1, 3, o]));
}

#[test]
fn an_owner_is_0_to_255_wherever_a_type_stands_in_a_term() {
    let number = |term: Vec<u32>| (vec![1], term);
    // app (fn L 5) (wrong 1 L), its fn and its wrong; null? (nil L); null? (ms {L} nil); ms N (sm {L} (nil L)).
    ends_at_255(7, |o| number(vec![19, 18, o, w(17, 5), w(29, 1), o]));
    ends_at_255(7, |o| number(vec![28, 24, o]));
    ends_at_255(8, |o| number(vec![28, w(29, 1), 3, o]));
    ends_at_255(8, |o| number(vec![28, 30, 3, o, 39]));
    ends_at_255(9, |o| number(vec![30, 1, 45, 3, o, 24, o]));
    // The same in a function: null? (nil (L to N)), null? (nil (N to L)).
    ends_at_255(8, |o| number(vec![28, 24, 4, o, 1]));
    ends_at_255(9, |o| number(vec![28, 24, 4, 1, o]));
}

#[test]
fn an_owner_out_of_range_goes_before_the_nesting_at_its_word() {
    let deep = |lists: usize, owner: u32| told(&chain(&[3], lists, &[lump(owner)]), &[17]);
    assert_eq!([deep(255, 255), deep(256, 255), deep(257, 255)], [(7, 4), (4, 260), (4, 260)]);
    assert_eq!([deep(255, 256), deep(256, 256), deep(257, 256)], [(3, 259), (3, 260), (4, 260)]);
}

#[test]
fn files_written_so_far_say_owner_0() {
    // L's word was 2, which is owner 0's.
    assert_eq!((lump(0), told(&[2], &[30, 2, 39])), (2, (0, 0)));
    assert_eq!(told(&[2], &[30, lump(1), 39]), (7, 4));
}

/// Whether a part of one owner's type fits where another's is due, at each rule that wants equal types; 7 is due of the last.
fn fits(due: &[u32], found: &[u32]) -> [(u32, u32); 6] {
    let (due_wrong, wrong) = ([&[w(29, 1)], due].concat(), [&[w(29, 1)], found].concat());
    let list = |words: &[u32]| [&[3], words].concat();
    [
        // app (fn t 5) (wrong 1 u); null? (cons (wrong 1 t) (wrong 1 {u})).
        told(&[1], &[&[19, 18][..], due, &[w(17, 5)], &wrong].concat()),
        told(&[1], &[&[28, 25][..], &due_wrong, &[w(29, 1)], &list(found)].concat()),
        // if0 0 (wrong 1 t) (wrong 1 u), fix (fn t (wrong 1 u)), ms t (sm t (wrong 1 u)), wrong 1 u.
        told(due, &[&[23, 17][..], &due_wrong, &wrong].concat()),
        told(due, &[&[20, 18][..], due, &wrong].concat()),
        told(due, &[&[30][..], due, &[45], due, &wrong].concat()),
        told(due, &wrong),
    ]
}

#[test]
fn types_are_equal_only_if_the_owners_are() {
    for (one, other) in [(0, 1), (1, 0), (0, 255), (255, 254), (7, 9), (1, 129), (16, 0)] {
        let (one, other) = (lump(one), lump(other));
        // Each with the word that is the owner's.
        let shapes: [(fn(u32) -> Vec<u32>, u32); 6] = [
            (|o| vec![o], 0),
            (|o| vec![3, o], 1),
            (|o| vec![4, o, 1], 1),
            (|o| vec![4, 1, o], 2),
            (|o| vec![3, 4, 3, o, 2], 3),
            (|o| vec![4, 2, 3, o], 3),
        ];
        for (shape, at) in shapes {
            assert_eq!(fits(&shape(one), &shape(one)), [(0, 0); 6]);
            // The application and the cons stand at 5 and 6 behind N; an if0 and a fix right behind the type; the sm behind the
            // type, an ms and its type; and the declared owner where it is in its type.
            let length = shape(one).len() as u32;
            let root = (6, 4 + length);
            let due = [(6, 5), (6, 6), root, root, (6, 5 + 2 * length), (7, 4 + at)];
            assert_eq!(fits(&shape(one), &shape(other)), due, "{one} {other}");
        }
    }
}

#[test]
fn ms_at_any_owners_l_of_a_value_is_a_value() {
    for owner in [0, 1, 7, 255] {
        let term = [30, lump(owner), 34, 32];
        leaves(&lent(&[lump(owner)], &term, 0, 4), ended(End::Value, 0, 0, 4, 0, [0, 0, 0]), &term);
        // Of no value it is not: the sum's turn comes first.
        value(&[lump(owner)], &[30, lump(owner), 36, w(33, 2), w(33, 3)], 1, [0, 0, 1], &[30, lump(owner), w(33, 5)]);
    }
}

#[test]
fn sm_at_an_owners_l_opens_an_ms_of_that_owner() {
    for owner in [0, 1, 7, 255] {
        value(&[1], &[30, 1, 45, lump(owner), 30, lump(owner), w(33, 4)], 2, [0, 2, 0], &[w(17, 4)]);
    }
}

/// An sm at a lump of an ms at another.
fn opened(due: u32, found: u32) -> Rc<Scheme> {
    sc(Scheme::Sm(l(due), ml(Ml::Ms(l(found), sc(Scheme::Number(4))))))
}

#[test]
fn of_another_owners_ms_no_rule_fits() {
    for (due, found) in [(0, 1), (1, 0), (7, 9), (255, 0), (0, 255)] {
        assert!(scheme_rule(&opened(due, found)).is_none(), "{due} {found}");
        assert_eq!(told(&[1], &[30, 1, 45, lump(due), 30, lump(found), w(33, 4)]), (6, 7));
    }
    assert!(scheme_rule(&opened(9, 9)).is_some());
}

#[test]
fn the_law_of_owners_sees_another_owners_lump() {
    let lambda = |e: Rc<Scheme>| ml(Ml::Lambda(n(), ml(Ml::Ms(n(), e))));
    let holds = |e: Rc<Scheme>| try_lumps(Node::Ml(&lambda(e))).is_ok();
    assert!(holds(opened(9, 9)) && !holds(opened(9, 7)) && !holds(opened(0, 7)) && !holds(opened(9, 0)));
    // No lump at all; a part that is no value may come to anything.
    assert!(!holds(sc(Scheme::Sm(l(9), ml(Ml::Number(3))))));
    assert!(holds(sc(Scheme::Sm(l(9), ml(Ml::Wrong(3, l(7)))))));
}

/// ms N (sm L9 (app (fn L9 v0) (ms L9 (sm L7 (ms L7 4))))).
const RESEALED: [u32; 15] = [30, 1, 45, lump(9), 19, 18, lump(9), 16, 30, lump(9), 45, lump(7), 30, lump(7), w(33, 4)];

#[test]
fn a_script_opens_a_lump_and_has_it_sealed_for_another_owner() {
    value(&[1], &RESEALED, 4, [1, 3, 0], &[w(17, 4)]);
    let sealed = [30, 1, 45, lump(9), 19, 18, lump(9), 16, 30, lump(9), w(33, 4)];
    leaves(&lent(&[1], &RESEALED, 1, 15), ended(End::Spent, 0, 1, 11, 0, [0, 1, 0]), &sealed);
    // Without that, one owner's lump handed to another has no type.
    assert_eq!(told(&[1], &[30, 1, 45, lump(9), 19, 18, lump(9), 16, 30, lump(7), w(33, 4)]), (6, 9));
}

#[test]
fn owners_go_along_with_types_that_are_converted() {
    let steps_to = |declared: &[u32], before: &[u32], after: &[u32]| {
        let run = lent(declared, before, 1, 64);
        assert_eq!(run.first[..after.len()], *after);
        assert_eq!(run.result.map(|ended| (ended.steps, ended.left)), Ok((1, after.len() as u32)));
    };
    let (a, b) = (lump(7), lump(255));
    // ms {L7} of nil and of cons; ms (L7 to L255) of a lambda and of no lambda; ms {L7} of no list.
    steps_to(&[3, a], &[30, 3, a, 39], &[24, a]);
    steps_to(&[3, a], &[30, 3, a, 40, 39, 39], &[25, 30, a, 39, 30, 3, a, 39]);
    steps_to(&[4, a, b], &[30, 4, a, b, 34, 32], &[18, a, 30, b, 35, 34, 32, 45, a, 16]);
    steps_to(&[4, a, b], &[30, 4, a, b, 39], &[w(29, 2), 4, a, b]);
    steps_to(&[3, a], &[30, 3, a, 33], &[w(29, 3), 3, a]);
    // hd and tl of nil L255.
    steps_to(&[b], &[26, 24, b], &[w(29, 4), b]);
    steps_to(&[3, b], &[27, 24, b], &[w(29, 4), 3, b]);
    // sm {L7} of cons, sm (L7 to L255) of a lambda, seen under ms L1.
    let seen = |before: &[u32], after: &[u32]| {
        let under = |words: &[u32]| [&[30, lump(1)], words].concat();
        steps_to(&[lump(1)], &under(before), &under(after));
    };
    seen(&[45, 3, a, 25, 30, a, 39, 24, a], &[40, 45, a, 30, a, 39, 45, 3, a, 24, a]);
    seen(&[45, 4, a, b, 18, a, w(29, 1), b], &[34, 45, b, 19, 18, a, w(29, 1), b, 30, a, 32]);
}

#[test]
fn owners_that_differ_are_told_from_left_to_right() {
    let due = to(list(l(7)), to(l(0), l(9)));
    let at = |due, found, within| Differing { due, found, within };
    let other = to(list(l(255)), to(l(0), l(1)));
    let found = vec![at(7, 255, Within::List), at(9, 1, Within::Result)];
    assert_eq!(differing(&due, &other), Some(found));
    assert_eq!(differing(&due, &due), Some(vec![]));
    assert_eq!(differing(&l(3), &l(4)), Some(vec![at(3, 4, Within::Alone)]));
    assert_eq!(differing(&to(l(3), n()), &to(l(4), n())), Some(vec![at(3, 4, Within::Argument)]));
    // Of other types there is no such difference.
    assert_eq!(
        [differing(&l(0), &n()), differing(&list(l(0)), &l(0)), differing(&due, &to(n(), n()))],
        [None, None, None]
    );
    assert_eq!(owners(&[4, lump(7), w(17, 2), lump(256), 2]).collect::<Vec<_>>(), [7, 256, 0]);
}

#[test]
fn what_is_forgotten_is_the_owners_of_lumps_alone() {
    // v1, 1, wrong 1, a word of kind 130 and one of kind 2 with an owner over the last.
    let words = [w(16, 1), w(17, 1), w(29, 1), w(130, 7), lump(300), lump(7), 2];
    assert_eq!(forgotten(&words), [w(16, 1), w(17, 1), w(29, 1), w(130, 7), 2, 2, 2]);
    // The header says 258 words of type, which is the word of owner 1's L: it stays.
    let lists = chain(&[3], 257, &[lump(7)]);
    assert_eq!(without_owners(&file(&lists, &[17])), file(&chain(&[3], 257, &[2]), &[17]));
    assert_eq!(without_owners(&[2, 7, 0, 0]), [2, 7, 0, 0]);
}

/// A recipe with owners and the same without them, both written by hand: under this limit and in this capacity both end as said,
/// each with its words.
fn both_end(
    recipes: [[&[u32]; 2]; 2],
    lent_both: (u32, usize),
    end: Result<model::Ended, model::Refusal>,
    left: [&[u32]; 2],
) {
    let [owned, ownerless] = recipes.map(|[declared, term]| lent(declared, term, lent_both.0, lent_both.1));
    leaves(&owned, end, left[0]);
    leaves(&ownerless, end, left[1]);
    assert!(alike_but_owners(&owned, &ownerless));
    let [declared, term] = recipes[0];
    let tried = on_large_stack(|| try_ownerless(&file(declared, term), lent_both.0, [lent_both.1; 2]));
    assert_eq!(tried, Ok(true));
}

#[test]
fn owners_change_no_run() {
    let (a, b) = (lump(7), lump(9));
    // ms L9 (sm L7 (ms L7 4)): a value, spent before its step, and refused for its words.
    let resealed: [[&[u32]; 2]; 2] =
        [[&[b], &[30, b, 45, a, 30, a, w(33, 4)]], [&[2], &[30, 2, 45, 2, 30, 2, w(33, 4)]]];
    let value = ended(End::Value, 0, 1, 3, 0, [0, 1, 0]);
    both_end(resealed, (5, 7), value, [&[30, b, w(33, 4)], &[30, 2, w(33, 4)]]);
    both_end(resealed, (0, 7), ended(End::Spent, 0, 0, 7, 0, [0, 0, 0]), [resealed[0][1], resealed[1][1]]);
    both_end(resealed, (5, 6), Err(model::Refusal::new(8, 0)), [&[], &[]]);
    // tl (nil L7) raises error 4 in its second step.
    let tail: [[&[u32]; 2]; 2] = [[&[3, a], &[27, 24, a]], [&[3, 2], &[27, 24, 2]]];
    both_end(tail, (9, 3), ended(End::Error, 4, 2, 0, 0, [0, 0, 2]), [&[], &[]]);
    // ms (L7 to L9) (fn v0) becomes fn L7 (ms L9 (app (fn v0) (sm L7 v0))), 10 words.
    let wrapped: [[&[u32]; 2]; 2] = [[&[4, a, b], &[30, 4, a, b, 34, 32]], [&[4, 2, 2], &[30, 4, 2, 2, 34, 32]]];
    both_end(wrapped, (9, 9), ended(End::Full, 0, 0, 6, 10, [0, 0, 0]), [wrapped[0][1], wrapped[1][1]]);
    let function = |a: u32, b: u32| [18, a, 30, b, 35, 34, 32, 45, a, 16];
    both_end(wrapped, (9, 10), ended(End::Value, 0, 1, 10, 0, [0, 1, 0]), [&function(a, b), &function(2, 2)]);
}

#[test]
fn a_recipe_that_is_refused_for_an_owner_may_be_accepted_without() {
    let refused = file(&[lump(9)], &[30, lump(7), 39]);
    assert_eq!((refused_bytes(&refused), refused_bytes(&without_owners(&refused))), ((7, 4), (0, 0)));
    assert_eq!(on_large_stack(|| try_ownerless(&refused, 5, [9, 9])), Ok(false));
}

#[test]
fn the_law_sees_a_run_that_owners_change() {
    let runs = || [lump(7), 2].map(|o| lent(&[o], &[30, o, 36, w(33, 2), w(33, 3)], 5, 6));
    let alike = |change: fn(&mut model::Run)| {
        let [mut owned, ownerless] = runs();
        change(&mut owned);
        alike_but_owners(&owned, &ownerless)
    };
    assert!(alike(|_| {}) && alike(|owned| owned.first[1] = lump(8)) && alike(|owned| owned.first[1] = 2));
    // Another answer: a step more, one as a call, a word more, more wanted, another end and code.
    assert!(![
        alike(|owned| owned.result = Err(model::Refusal::new(8, 0))),
        alike(|owned| owned.result = crate::common::ended(End::Value, 0, 2, 3, 0, [0, 0, 1])),
        alike(|owned| owned.result = crate::common::ended(End::Value, 0, 1, 3, 0, [1, 0, 0])),
        alike(|owned| owned.result = crate::common::ended(End::Value, 0, 1, 4, 0, [0, 0, 1])),
        alike(|owned| owned.result = crate::common::ended(End::Value, 0, 1, 3, 1, [0, 0, 1])),
        alike(|owned| owned.result = crate::common::ended(End::Spent, 0, 1, 3, 0, [0, 0, 1])),
        alike(|owned| owned.result = crate::common::ended(End::Value, 3, 1, 3, 0, [0, 0, 1])),
    ]
    .contains(&true));
    // Other words: the owner beside its L, behind the words left, in the second buffer.
    assert!(![
        alike(|owned| owned.first[2] += 256 * 7),
        alike(|owned| owned.first[3] = lump(7)),
        alike(|owned| owned.second[0] = lump(7)),
    ]
    .contains(&true));
}
