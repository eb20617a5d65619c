//! Files at the edges of what document 01 allows: sizes, headers, nesting, large types, deep and large runs.

use super::mismatches::every_mismatch;
use super::owners::{every_owner, every_two_owners, lump};
use crate::random::Random;
use model::file::{bytes_of, file};
use model::kinds::{Sort, KINDS};

fn chain(words: &[u32], count: usize, rest: &[u32]) -> Vec<u32> {
    [words.repeat(count), rest.to_vec()].concat()
}

/// A tree of so many leaves that nests little.
pub fn balanced(join: u32, leaf: u32, leaves: usize) -> Vec<u32> {
    if leaves == 1 {
        return vec![leaf];
    }
    let half = leaves / 2;
    [vec![join], balanced(join, leaf, half), balanced(join, leaf, leaves - half)].concat()
}

/// All of the edges that are the same in every comparison.
pub fn edges() -> Vec<Vec<u8>> {
    let again = [0, 255].map(lump).map(compared_again).to_vec();
    [edges_of_owner_0(), every_owner(), every_two_owners(), again, every_mismatch()].concat()
}

/// Those in which every lump has owner 0, as in all files before U6.
pub fn edges_of_owner_0() -> Vec<Vec<u8>> {
    [sizes(), headers(), nestings(), last_levels(), large_types(), found_types()].concat()
}

fn sizes() -> Vec<Vec<u8>> {
    let lengths = (0..=40).chain(16_376..=16_392);
    let mut files: Vec<Vec<u8>> = lengths.map(|length| vec![0; length]).collect();
    // An accepted recipe of 16,380 and of 16,384 bytes, and the same one word longer.
    for leaves in [2_045, 2_046, 2_047] {
        files.push(file(&[1], &balanced(21, 17, leaves)));
        files.push(file(&[1], &[&[23, 17, 17][..], &balanced(21, 17, leaves - 2)].concat()));
    }
    files
}

/// Every header of six telling words for a file of six and of seven words.
fn headers() -> Vec<Vec<u8>> {
    // 4 + (2^32 - 5) + 7 is 2^32 + 6: sums that wrap would do for a file of six words.
    const TELLING: [u32; 13] = [0, 1, 2, 3, 4, 5, 6, 7, 8, 0x8000_0000, u32::MAX - 4, u32::MAX - 3, u32::MAX];
    let mut files = Vec::new();
    for types in TELLING {
        for terms in TELLING {
            for term_offset in TELLING {
                for type_offset in [4, 0, 5, u32::MAX] {
                    let words = [types, type_offset, terms, term_offset, 1, 17, 17];
                    files.push(bytes_of(&words[..6]));
                    files.push(bytes_of(&words));
                }
            }
        }
    }
    files
}

/// Chains of each unary kind around nodes that end at, before and past level 256, in order or not.
fn nestings() -> Vec<Vec<u8>> {
    let mut files = Vec::new();
    for count in 252..=258 {
        for rest in
            [&[17][..], &[24, 1], &[24], &[99], &[], &[24, 3, 1], &[18, 1, 16], &[30, 1, 33], &[30, 2, 99], &[17, 17]]
        {
            for word in [20, 26, 27, 28] {
                files.push(file(&[1], &chain(&[word], count, rest)));
            }
            files.push(file(&[1], &chain(&[18, 1], count, rest)));
        }
        for rest in [&[33][..], &[39], &[45, 1, 17], &[45, 1], &[99], &[], &[34, 32], &[40, 39, 39]] {
            for word in [34, 41, 42, 43] {
                files.push(file(&[2], &[&[30, 2][..], &chain(&[word], count, rest)].concat()));
            }
        }
        for rest in [&[1][..], &[2], &[4, 1, 1], &[99], &[], &[1, 1]] {
            files.push(file(&chain(&[3], count, rest), &[17]));
            files.push(file(&chain(&[4, 1], count, rest), &[99]));
            files.push(file(&[1], &[&[24][..], &chain(&[3], count, rest)].concat()));
        }
    }
    files
}

/// Each kind with small parts, and with parts that nest once more, around level 256.
fn last_levels() -> Vec<Vec<u8>> {
    let mut files = Vec::new();
    for row in KINDS.iter().filter(|row| row.sort != Sort::Type) {
        let leaves: Vec<u32> = row.parts.iter().map(|part| leaf(*part)).collect();
        let nested: Vec<u32> = row.parts.iter().flat_map(|part| [unary(*part), leaf(*part)]).collect();
        for parts in [leaves, nested] {
            let node = [vec![row.number + 256 * row.least], parts].concat();
            files.extend((253..=256).map(|count| around(row.sort, count, &node)));
        }
    }
    files
}

/// The file of a node of either language under so many nodes.
fn around(sort: Sort, count: usize, node: &[u32]) -> Vec<u8> {
    match sort {
        Sort::Scheme => file(&[1], &[&[30, 1][..], &chain(&[unary(sort)], count - 1, node)].concat()),
        _ => file(&[1], &chain(&[unary(sort)], count, node)),
    }
}

fn leaf(sort: Sort) -> u32 {
    match sort {
        Sort::Type => 1,
        Sort::Ml => 17,
        Sort::Scheme => 33,
    }
}

fn unary(sort: Sort) -> u32 {
    match sort {
        Sort::Type => 3,
        Sort::Ml => 20,
        Sort::Scheme => 41,
    }
}

/// A random file that nests close to 256.
pub fn nested(random: &mut Random) -> Vec<u8> {
    let count = 250 + random.below(9);
    let mut term = Vec::new();
    for _ in 0..count {
        let group: &[u32] = random.pick(&[&[20][..], &[26], &[27], &[28], &[18, 1], &[18, 2], &[21, 17], &[25, 17]]);
        term.extend_from_slice(group);
    }
    let end: &[u32] =
        random.pick(&[&[17][..], &[24, 1], &[16], &[24, 3, 1], &[99], &[], &[30, 1, 33], &[30, 1, 45, 1, 17]]);
    term.extend_from_slice(end);
    file(&[1], &term)
}

/// Types of thousands of words, compared again and again.
fn large_types() -> Vec<Vec<u8>> {
    let wide = |leaves| balanced(4, 1, leaves);
    let mut files = vec![
        file(&[1], &[&[18][..], &wide(2_045), &[16]].concat()),
        file(&[1], &[&[28, 20, 18, 3][..], &wide(2_043), &[16]].concat()),
        file(&[1], &[&[28, 20, 18, 3][..], &wide(2_042), &[16]].concat()),
    ];
    for leaves in [1_000, 1_020] {
        files.push(file(&wide(leaves), &[&[20, 18][..], &wide(leaves), &[16]].concat()));
        files.push(file(&wide(leaves), &[&[20, 18][..], &wide(leaves), &[17]].concat()));
    }
    files.push(compared_again(1));
    files
}

/// null? (fn t (cons v0 (cons v0 ... (nil t)))) applied to a wrong, in 4,093 words: a type of 605 leaves and 1,209 words is compared
/// at each of 228 conses.
pub fn compared_again(leaf: u32) -> Vec<u8> {
    let wide = balanced(4, leaf, 605);
    let body = [&chain(&[25, 16], 228, &[24])[..], &wide].concat();
    file(&[1], &[&[19, 18][..], &wide, &[28], &body, &[29 + 256], &wide].concat())
}

/// Found types that nest far deeper than 256.
fn found_types() -> Vec<Vec<u8>> {
    let deep = chain(&[3], 253, &[1]);
    let variable = |operand: u32| 16 + 256 * operand;
    vec![
        file(&[1], &[&[18][..], &deep, &chain(&[18, 1], 254, &[variable(254)])].concat()),
        file(&[1], &[&[28, 24, 4, 1][..], &deep].concat()),
        file(&[1], &[&[19, 18][..], &deep, &[17, 29 + 256], &deep].concat()),
    ]
}

/// Recipes whose terms nest as deep as the words allow, or ask for far more words than there are, with a capacity.
pub fn deep_recipes(capacity: usize) -> Vec<(Vec<u8>, usize)> {
    let wrapped_tl = [&[20, 18, 3, 1, 30, 3, 1, 42, 45, 3, 1, 16][..]].concat();
    let terms = [
        (vec![3, 1], vec![20, 18, 3, 1, 27, 16]),
        (vec![3, 1], wrapped_tl),
        (vec![1], vec![20, 18, 1, 21, 17, 16]),
        (vec![1], vec![20, 18, 1, 21, 16, 17]),
        (vec![3, 1], vec![20, 18, 3, 1, 25, 17, 16]),
        (vec![2], [&[30, 2, 35][..], &chain(&[34, 41, 35, 32, 32], 2, &[])].concat()),
        (vec![1], [&[20, 18, 1][..], &balanced(21, 16, 2_044)].concat()),
    ];
    terms.into_iter().map(|(declared, term)| (file(&declared, &term), capacity)).collect()
}
