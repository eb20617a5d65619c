//! The stack: the header's figures as they are read and tried, and the deepest terms in few words as they are known beforehand.

use model::on_large_stack;
use std::path::Path;
use tools::compare::figures::{defined, figures, find_all, try_all, try_figure, Figure, HEADER};
use tools::compare::{compare_asked_stack, compare_checked_stack, compare_stack, Room};
use tools::stand_in;

const LARGE: usize = 512 << 20;

/// A header with these figures.
fn header(base: &str, whole: &str) -> String {
    format!(
        "#define RECIPE_STACK_BYTES {whole}\n#define RECIPE_STACK_BASE {base}\n#define RECIPE_STACK_PER_WORD 10u\n\
         #define RECIPE_NODE_STACK_BASE 300u\n#define RECIPE_NODE_STACK_PER_WORD 20u\n"
    )
}

#[test]
fn numbers_that_a_header_defines() {
    let text = "#define ONE 1\n#define ONE_MORE 7u\n#define BOTH (2u * 1024u * 3u)\n#define LATER(words) (2u * (words))\n#define NAME x\n";
    assert_eq!(defined(text, "ONE"), Ok(1));
    assert_eq!(defined(text, "ONE_MORE"), Ok(7));
    assert_eq!(defined(text, "BOTH"), Ok(6_144));
    for name in ["LATER", "NAME", "NONE", "ON"] {
        assert_eq!(defined(text, name), Err(format!("the header does not define {name} as a number")));
    }
}

#[test]
fn figures_of_a_header() {
    let found = figures(&header("1000u", "(200u * 1024u)")).expect("figures");
    let of = |operation: &'static str, words, bytes| Figure { operation, words, bytes };
    let runs = [of("run", 64, 1_640), of("run", 1_024, 11_240), of("run", 4_096, 41_960), of("run", 16_384, 164_840)];
    let nodes =
        [of("node", 64, 1_580), of("node", 1_024, 20_780), of("node", 4_096, 82_220), of("node", 16_384, 327_980)];
    let others = [of("check", 16_384, 1_000), of("save", 16_384, 1_000)];
    assert_eq!(found, [&runs[..], &nodes, &others].concat());
}

#[test]
fn a_whole_that_is_less_than_a_figure() {
    let fault = figures(&header("1000u", "164839u")).expect_err("too small");
    assert!(fault.starts_with("RECIPE_STACK_BYTES is 164839, less than what Figure { operation: \"run\""), "{fault}");
    assert!(figures(&header("1000u", "164840u")).is_ok());
    assert_eq!(figures("").expect_err("none"), "the header does not define RECIPE_STACK_BASE as a number");
}

/// The header that controllers are given has all figures, at most its own RECIPE_STACK_BYTES.
#[test]
fn the_header_has_its_figures() {
    assert_eq!(figures(HEADER).map(|found| found.len()), Ok(10));
}

#[test]
fn each_figure_is_tried_and_the_smallest_found() {
    let [small, large] = [70_000, 100_000].map(|bytes| Figure { operation: "run", words: 64, bytes });
    let serves = |figure: &Figure| Ok(figure.bytes >= 80_000);
    assert_eq!(try_all(&serves, &[large.clone()]), Ok(vec!["run, 64 words: 100000 bytes serve".to_string()]));
    let fault = "run, 64 words: a stack of 70000 bytes is too small\n".to_string();
    assert_eq!(try_all(&serves, &[large.clone(), small]), Err(fault));
    // 20 pages of 4,096 bytes are the first that are at least 80,000.
    let told = "run, 64 words: 81920 bytes serve; the header says 100000, 1.22 times that".to_string();
    assert_eq!(find_all(&serves, &[large]), Ok(vec![told]));
}

/// A program that a signal ends has too little; one with a status of its own has something else to say, which is passed on.
#[test]
fn what_a_try_comes_to() {
    let figure = Figure { operation: "run", words: 64, bytes: 70_000 };
    assert_eq!(try_figure(Path::new("true"), &figure), Ok(true));
    assert_eq!(try_figure(Path::new("false"), &figure), Err(String::new()));
    let fault =
        try_figure(Path::new(env!("CARGO_BIN_EXE_compare")), &Figure { words: 63, ..figure }).expect_err("refused");
    assert_eq!(fault, "compare: --words needs a number from 64 to 16384, not 63\n");
}

#[test]
fn the_deepest_terms_in_few_words() {
    for (words, left) in [(64, 64), (1_024, 1_024)] {
        let shown = on_large_stack(|| compare_stack(stand_in::run, Room { words, bytes: LARGE })).expect("as known");
        assert_eq!(shown[0], format!("tl nested: {left} words after {} steps", words - 6));
        assert_eq!(shown.len(), 14 + 2 * 35);
    }
    // In 64 words a file of 766 words of if0 is accepted, and does not fit.
    let shown = on_large_stack(|| compare_stack(stand_in::run, Room { words: 64, bytes: LARGE })).expect("as known");
    assert_eq!(shown[10], "a file of if0 nested 256 deep in the third part: refused 8 at place 0");
}

#[test]
fn a_deep_check_and_a_deep_node_that_are_wrong() {
    let right = on_large_stack(|| compare_checked_stack(stand_in::check, LARGE)).expect("as known");
    assert_eq!(right.len(), 14 + 2 * 35);
    // 261 fixes: the one at level 257 is word 261 of the file, 4 + 256 x 261.
    assert!(right.contains(&format!("checked: Ml fix nested in part 1, 4088 levels: {}", 4 + 256 * 261)), "{right:?}");
    let shown = compare_checked_stack(|_| 0, LARGE).expect_err("a difference");
    assert!(shown.ends_with("is due, not 0"), "{shown}");
    let right =
        on_large_stack(|| compare_asked_stack(stand_in::node, Room { words: 64, bytes: LARGE })).expect("as known");
    assert_eq!(right[0], "asked: Type list nested in part 1: 64");
    let shown =
        compare_asked_stack(|words, _| words.len() - 1, Room { words: 64, bytes: LARGE }).expect_err("a difference");
    assert_eq!(shown, "asked: Type list nested in part 1: 64 is due, not 63");
}
