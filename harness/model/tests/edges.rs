//! Worst cases that document 01 allows: deep terms, large types, large next terms.

use crate::common::*;
use model::file::file;
use model::node::ml_words;
use model::read::read_ml;
use model::rules::RuleCounts;
use model::run::reduce;
use model::{on_large_stack, End};

#[test]
fn found_types_larger_than_any_file() {
    let wide = balanced(4, 1, 2_043);
    let lambda = [&[18][..], &wide, &[16]].concat();
    assert_eq!(refused_bytes(&file(&[1], &lambda)), (7, 4));
    // null? (fix (fn {t} v0)), |{t}| = 4,086: a type of 8,173 words is found inside an accepted recipe.
    let inside = [&[28, 20, 18, 3][..], &wide, &[16]].concat();
    let bytes = file(&[1], &inside);
    assert_eq!(bytes.len(), 16_380);
    assert_eq!(refused_bytes(&bytes), (0, 0));
}

#[test]
fn found_types_deeper_than_256() {
    let deep = chain(&[3], 253, &[1]);
    let term = [&[18][..], &deep, &chain(&[18, 1], 254, &[w(16, 254)])].concat();
    assert_eq!(refused_bytes(&file(&[1], &term)), (7, 4));
}

#[test]
fn words_wanted_by_the_million() {
    let body = balanced(21, 16, 2_044);
    let term = [&[20, 18, 1][..], &body].concat();
    let run = plenty(&[1], &term);
    leaves(&run, ended(End::Full, 0, 0, 4_090, 8_362_003, [0, 0, 0]), &term);
}

#[test]
fn terms_nested_as_deep_as_the_words_allow() {
    let term = [20, 18, 3, 1, 27, 16];
    let run = lent(&[3, 1], &term, 1_000_000, 2_000);
    let deep = chain(&[27], 1_994, &term);
    assert_eq!(run.result, ended(End::Full, 0, 1_994, 2_000, 2_001, [1_994, 0, 0]));
    assert!(run.first == deep);
}

#[test]
fn the_deepest_terms_of_16384_words() {
    let term = [20, 18, 3, 1, 27, 16];
    let (result, left) = on_large_stack(|| {
        let deep = read_ml(&chain(&[27], 16_370, &term), 0, usize::MAX).expect("words in order");
        let (ended, left) = reduce(deep, u32::MAX, 16_384, &mut RuleCounts::default());
        (ended, left.as_ref().map(ml_words))
    });
    assert_eq!(Ok(result), ended(End::Full, 0, 8, 16_384, 16_385, [8, 0, 0]));
    assert!(left == Some(chain(&[27], 16_378, &term)));
}
