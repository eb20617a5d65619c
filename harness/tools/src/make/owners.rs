//! Owners of lumps: any of them, types and words with other owners, files with an owner at every place where a type may stand, and
//! recipes that are refused for an owner alone.

use crate::random::Random;
use model::build::{l, list, to};
use model::file::file;
use model::kinds::LUMP;
use model::Type;
use std::rc::Rc;

pub use model::owners::{forgotten, without_owners};

/// Owners over the last: the next two, and the last that 16 and 24 bits hold.
pub const OVER: [u32; 4] = [256, 257, 65_535, 16_777_215];

/// The word of L with an owner.
pub const fn lump(owner: u32) -> u32 {
    LUMP + 256 * owner
}

/// An owner: most often one of a few, so that types are often the same; the first and the last among them.
pub fn any_owner(random: &mut Random) -> u32 {
    let any = random.below(256) as u32;
    random.weighted(&[(30, 0), (14, 1), (14, 7), (8, 9), (6, 254), (16, 255), (12, any)])
}

/// The type with an owner for each lump that is most often another.
pub fn reowned(random: &mut Random, t: &Rc<Type>) -> Rc<Type> {
    match &**t {
        Type::Number => t.clone(),
        Type::Lump(_) => l(any_owner(random)),
        Type::List(t) => list(reowned(random, t)),
        Type::Function(t, u) => to(reowned(random, t), reowned(random, u)),
    }
}

/// Whether a type has a lump in it.
pub fn has_lump(t: &Type) -> bool {
    match t {
        Type::Number => false,
        Type::Lump(_) => true,
        Type::List(t) => has_lump(t),
        Type::Function(t, u) => has_lump(t) || has_lump(u),
    }
}

/// Gives one lump another owner, now and then one over the last. Answers whether there is a lump.
pub fn change_owner(random: &mut Random, words: &mut [u32]) -> bool {
    let lumps: Vec<usize> = (0..words.len()).filter(|at| words[*at] % 256 == LUMP).collect();
    if lumps.is_empty() {
        return false;
    }
    let at = random.pick(&lumps);
    let (other, next, over) = (any_owner(random), (words[at] / 256 + 1) % 256, random.pick(&OVER));
    words[at] = lump(random.weighted(&[(60, other), (15, next), (25, over)]));
    true
}

/// Where a lump stands in the types below.
const HERE: u32 = 0;

/// Types with a lump in them: alone, in a list, as an argument and as a result, and deeper, beside lumps of other owners too.
const TYPES: [&[u32]; 10] = [
    &[HERE],
    &[3, HERE],
    &[4, HERE, 1],
    &[4, 1, HERE],
    &[3, 3, HERE],
    &[4, 3, HERE, 1],
    &[4, 1, 3, HERE],
    &[4, 4, HERE, 1, 1],
    &[3, 4, 1, HERE],
    &[4, 4, lump(7), lump(0), 4, lump(255), HERE],
];

/// A type with the lump of an owner.
fn with_owner(t: &[u32], owner: u32) -> Vec<u32> {
    t.iter().map(|&word| if word == HERE { lump(owner) } else { word }).collect()
}

/// A wrong of a type, which stands for any term of it.
pub fn wrong(t: &[u32]) -> Vec<u32> {
    [&[29 + 256], t].concat()
}

/// (app (fn t 5) e), a number whatever the type is.
fn taken(t: &[u32], e: &[u32]) -> Vec<u32> {
    [&[19, 18], t, &[17 + 256 * 5], e].concat()
}

/// Recipes in which a type stands at each place where one may, the same type standing elsewhere: as declared, and in a term of
/// type N that of fn, of nil, of wrong, of ms and of sm.
fn standing(t: &[u32], same: &[u32]) -> [[Vec<u32>; 2]; 6] {
    let number = |term: Vec<u32>| [vec![1], term];
    [
        [t.to_vec(), wrong(same)],
        number(taken(t, &wrong(same))),
        number([&[28, 24], t].concat()),
        number(taken(same, &wrong(t))),
        number(taken(same, &[&[30], t, &[39]].concat())),
        number([&[30, 1, 45], t, &wrong(same)].concat()),
    ]
}

/// The file of a recipe so many levels deeper: a declared type in lists, a term of type N in sums.
fn deeper([declared, term]: &[Vec<u32>; 2], levels: usize) -> Vec<u8> {
    let lists = |t: &[u32]| [vec![3; levels], t.to_vec()].concat();
    match declared[..] {
        [1] => file(declared, &[[21, 17 + 256].repeat(levels), term.clone()].concat()),
        _ => file(&lists(declared), &[&term[..1], &lists(&term[1..])].concat()),
    }
}

/// The first, others and the last owner and owners over it, at every place where a type may stand, in every type, at some
/// depths; and the last and the next around level 256. Those with an owner up to 255 are accepted, nesting aside.
pub fn every_owner() -> Vec<Vec<u8>> {
    let owners = [0, 1, 254, 255].into_iter().chain(OVER);
    let shallow = owners.flat_map(|owner| TYPES.map(|t| (owner, t, vec![0, 1, 4])));
    let deep =
        [255, 256].into_iter().flat_map(|owner| TYPES[..2].iter().map(move |t| (owner, *t, (246..=256).collect())));
    let each = |(owner, t, levels): (u32, &[u32], Vec<usize>)| {
        let recipes = standing(&with_owner(t, owner), &with_owner(t, owner.min(255)));
        recipes
            .into_iter()
            .flat_map(move |recipe| levels.clone().into_iter().map(move |levels| deeper(&recipe, levels)))
    };
    shallow.chain(deep).flat_map(each).collect::<Vec<_>>()
}

/// Two owners: the same, and others that differ in one bit or in several.
const PAIRS: [(u32, u32); 10] =
    [(0, 0), (7, 7), (255, 255), (0, 1), (1, 0), (0, 255), (255, 254), (7, 9), (1, 129), (16, 0)];

/// Recipes of two types that are to be equal: the parts of an application, a cons, an if0, a fix and an sm, and a term and its
/// declared type.
pub fn compared(due: &[u32], found: &[u32]) -> [Vec<u8>; 6] {
    let list = |t: &[u32]| [&[3], t].concat();
    [
        file(&[1], &taken(due, &wrong(found))),
        file(&[1], &[&[28, 25][..], &wrong(due), &wrong(&list(found))].concat()),
        file(due, &[&[23, 17][..], &wrong(due), &wrong(found)].concat()),
        file(due, &[&[20, 18], due, &wrong(found)].concat()),
        file(due, &[&[30], due, &[45], due, &wrong(found)].concat()),
        file(due, &wrong(found)),
    ]
}

/// Every two types that differ by an owner alone, or do not, at every rule that wants them equal.
pub fn every_two_owners() -> Vec<Vec<u8>> {
    let pairs = PAIRS.into_iter().flat_map(|pair| TYPES.map(|t| (pair, t)));
    pairs.flat_map(|((due, found), t)| compared(&with_owner(t, due), &with_owner(t, found))).collect()
}

/// Recipes with lumps of two owners, A and B: opened and sealed again for the other, alone, in lists and in functions; crossing at
/// lists and functions; and errors made at their types.
const SEALED: [&str; 18] = [
    "A (ms A (fn v0))",
    "N (ms N (sm A (ms A 4)))",
    "B (ms B (sm A (ms A (cons 1 nil))))",
    "N (ms N (sm B (app (fn B v0) (ms B (sm A (ms A 4))))))",
    "B (app (ms (A to B) (fn v0)) (ms A (fn v0)))",
    "{B} (ms {B} (sm {A} (cons (ms A 1) (cons (ms A nil) (nil A)))))",
    "{{B}} (ms {{B}} (sm {{A}} (cons (nil A) (nil {A}))))",
    "N (app (ms (B to N) (sm (A to N) (fn A (ms N (sm A v0))))) (ms B 5))",
    "(A to B) (ms (A to B) (fn v0))",
    "(B to {A}) (ms (B to {A}) (sm (A to {B}) (fn A (nil B))))",
    "N (ms N (app (sm (A to N) (fn A (ms N (sm A v0)))) 6))",
    "{(A to B)} (ms {(A to B)} (cons (fn v0) nil))",
    "A (hd (nil A))",
    "{B} (tl (nil B))",
    "{A} (ms {A} 5)",
    "(A to B) (ms (A to B) nil)",
    "A (if0 (null? (nil B)) (ms A 1) (wrong 300 A))",
    "B (app (fix (fn (N to B) (fn N (if0 v0 (ms B (sm A (ms A (sm N v0)))) (app v1 (subtract v0 1)))))) 2)",
];

/// Each of these recipes with several two owners.
pub fn every_sealed() -> Vec<Vec<u8>> {
    let pairs = [(0, 1), (7, 9), (9, 7), (255, 0), (254, 255), (3, 3)];
    let owned = |text: &str, (a, b): (u32, u32)| text.replace('A', &format!("L{a}")).replace('B', &format!("L{b}"));
    SEALED.iter().flat_map(|text| pairs.map(|pair| super::file_of_text(&owned(text, pair)))).collect()
}
