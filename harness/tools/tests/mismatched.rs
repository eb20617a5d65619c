//! Planted errors in the places of refusals 6 and 7: each is found, and shrunk to a few words. The makers of mismatches make what they
//! promise, and what is reached of them is counted.

use crate::common::checking::{finds, finds_in, PLAN};
use crate::common::saving;
use model::check::{answer, read_recipe, DECLARED};
use model::file::{bytes_of, file, regions, words_of};
use model::node::{ml_words, Node};
use model::nodes::size_at;
use model::read::{read_ml, DEEPEST};
use model::typing::{type_of, Mismatch};
use model::untyped::{judge, untyped};
use model::{check, on_large_stack, Recipe, Refusal};
use std::collections::BTreeSet;
use tools::compare::mismatches::{around, MismatchCounts};
use tools::compare::{compare_check, compare_run, compare_save, compare_saved_stack, missing, SavingEngine};
use tools::engine::{Check, RecipeRun, RecipeSaved, Run, Save};
use tools::make::mismatches::{begins, FAULTY, FITTING, UNFIT};
use tools::make::{every_mismatch, mismatched_file};
use tools::random::Random;
use tools::stand_in::{check as right_check, run as right_run, save as right_save};

/// The right check with another place for a refusal.
fn placed(file: &[u8], number: u64, place: impl Fn(&Recipe, usize) -> usize) -> u64 {
    let answer = right_check(file);
    match (answer % 256 == number, read_recipe(file, DEEPEST)) {
        (true, Ok(recipe)) => number + 256 * place(&recipe, (answer / 256) as usize) as u64,
        _ => answer,
    }
}

/// The places of model and engine in what is shown.
fn places(text: &str, number: u32) -> [usize; 2] {
    ["model:    ", "engine:   "].map(|side| {
        let told = text.split_once(&format!("\n{side}refused {number} at place ")).unwrap_or_else(|| panic!("{text}"));
        told.1.lines().next().and_then(|line| line.parse().ok()).expect("a place")
    })
}

#[test]
fn no_place_as_before() {
    finds(|file| placed(file, 6, |_, _| 0), "refused 6 at place 5", "refused 6 at place 0");
    finds(|file| placed(file, 7, |_, _| 0), "refused 7 at place 4", "refused 7 at place 0");
}

#[test]
fn the_parents_place_for_the_faults() {
    let text = finds(
        |file| {
            placed(file, 6, |recipe, place| {
                let around = around(&ml_words(&recipe.term), place - recipe.start());
                around.last().map_or(place, |at| recipe.start() + at)
            })
        },
        "refused 6 at place 6",
        "refused 6 at place 5",
    );
    assert!(text.contains("term:     (fix (fix 0))\n"), "{text}");
}

#[test]
fn the_root_for_the_node() {
    finds(|file| placed(file, 6, |recipe, _| recipe.start()), "refused 6 at place 6", "refused 6 at place 5");
}

/// All nodes of a term that might be named, by the words before them.
fn all(recipe: &Recipe) -> Vec<usize> {
    judge(&recipe.term).expect_err("no type").iter().map(|node| node.before).collect()
}

#[test]
fn the_last_faulty_node_for_the_lowest() {
    let text = finds(
        |file| placed(file, 6, |recipe, _| recipe.start() + all(recipe).into_iter().max().expect("a node")),
        "refused 6 at place 6",
        "refused 6 at place 8",
    );
    assert!(text.contains(" 0) ") && text.contains(" 0))\n"), "{text}");
}

#[test]
fn the_shallowest_faulty_node_for_the_lowest() {
    let text = finds_in(
        16,
        |file| {
            placed(file, 6, |recipe, _| {
                let term = ml_words(&recipe.term);
                let nodes = all(recipe).into_iter();
                recipe.start() + nodes.min_by_key(|at| (around(&term, *at).len(), *at)).expect("a node")
            })
        },
        "refused 6 at place ",
        "refused 6 at place ",
    );
    let [right, planted] = places(&text, 6);
    assert!(right < planted, "{text}");
}

/// The place of a node of a kind that is judged before its parts behind the first are: by the first alone it has no type.
fn early(recipe: &Recipe, place: usize, kinds: &[u32]) -> usize {
    let (start, term) = (recipe.start(), ml_words(&recipe.term));
    let unfit = |at: usize| {
        let (end, second) = (at + size_at(&term, at), at + 1 + size_at(&term, at + 1));
        let rest = vec![17; model::kinds::row_of(term[at]).expect("a kind").parts.len() - 1];
        let words = [&term[..second], &rest, &term[end..]].concat();
        let node = read_ml(&words, 0, usize::MAX).ok().and_then(|term| untyped(&term));
        let by_first =
            |mismatch: &Mismatch| matches!(mismatch, Mismatch::NoFunction(_) | Mismatch::Another { part: 0, .. });
        place - start >= second && node.is_some_and(|node| node.before == at && by_first(&node.mismatch))
    };
    let around = around(&term, place - start).into_iter();
    around.filter(|at| kinds.contains(&(term[*at] % 256))).find(|at| unfit(*at)).map_or(place, |at| start + at)
}

#[test]
fn a_node_judged_before_its_later_parts() {
    let if0 = finds(
        |file| placed(file, 6, |recipe, place| early(recipe, place, &[23])),
        "refused 6 at place ",
        "refused 6 at place 5",
    );
    assert!(if0.contains("term:     (if0 (nil N) "), "{if0}");
    let add = finds(
        |file| placed(file, 6, |recipe, place| early(recipe, place, &[21, 22])),
        "refused 6 at place ",
        "refused 6 at place 5",
    );
    assert!(add.contains("term:     (add (") || add.contains("term:     (subtract ("), "{add}");
    let app = finds(
        |file| placed(file, 6, |recipe, place| early(recipe, place, &[19])),
        "refused 6 at place 7",
        "refused 6 at place 5",
    );
    assert!(app.contains("term:     (app 0 ("), "{app}");
}

#[test]
fn the_branches_of_an_if0_compared_only_where_its_test_is_a_number() {
    // An if0 of no number is passed over, and what is around it is named.
    finds(
        |file| {
            placed(file, 6, |recipe, place| {
                let (start, node) = (recipe.start(), untyped(&recipe.term).expect("a node"));
                let test = node.kind == 23 && matches!(node.mismatch, Mismatch::Another { part: 0, .. });
                let around = around(&ml_words(&recipe.term), node.before);
                around.last().filter(|_| test).map_or(place, |at| start + at)
            })
        },
        "refused 6 at place ",
        "refused 6 at place 5",
    );
}

#[test]
fn a_place_counted_from_the_term_or_from_the_type() {
    // From the term's first word; from the declared type's; and as if the declared type had one word.
    finds(
        |file| placed(file, 6, |recipe, place| place - recipe.start()),
        "refused 6 at place 5",
        "refused 6 at place 0",
    );
    finds(|file| placed(file, 6, |_, place| place - DECLARED), "refused 6 at place 5", "refused 6 at place 1");
    finds(
        |file| placed(file, 6, |recipe, place| place - recipe.start() + 5),
        "refused 6 at place 6",
        "refused 6 at place 5",
    );
    finds(|file| placed(file, 7, |_, place| place - DECLARED), "refused 7 at place 4", "refused 7 at place 0");
    finds(
        |file| placed(file, 7, |recipe, place| place - DECLARED + recipe.start()),
        "refused 7 at place 4",
        "refused 7 at place 5",
    );
}

#[test]
fn a_word_past_the_difference_or_before_it() {
    finds(|file| placed(file, 7, |_, place| place + 1), "refused 7 at place 4", "refused 7 at place 5");
    let before = finds(|file| placed(file, 7, |_, place| DECLARED.max(place - 1)), "refused 7 ", "refused 7 ");
    let [right, planted] = places(&before, 7);
    assert_eq!(right, planted + 1);
    let first = finds(|file| placed(file, 7, |_, _| DECLARED), "refused 7 ", "refused 7 at place 4");
    assert!(places(&first, 7)[0] > 4, "{first}");
}

/// The declared words that differ from those of the type found at the same place.
fn differing(recipe: &Recipe) -> Vec<usize> {
    let [declared, found] = [recipe.declared.clone(), type_of(&recipe.term).expect("a type")];
    let [declared, found] = [declared, found].map(|t| Node::Type(&t).words());
    (0..declared.len()).filter(|at| declared.get(*at) != found.get(*at)).collect()
}

#[test]
fn another_difference_than_the_first() {
    finds(
        |file| placed(file, 7, |recipe, place| differing(recipe).last().map_or(place, |at| DECLARED + at)),
        "refused 7 at place 4",
        "refused 7 at place 5",
    );
    // Types compared from the right: a function's result before its argument.
    let text = finds(
        |file| {
            placed(file, 7, |recipe, place| {
                let words = Node::Type(&recipe.declared).words();
                let result = 1 + size_at(&words, 1);
                let later = differing(recipe).into_iter().find(|at| words[0] == 4 && *at >= result);
                later.filter(|_| place > DECLARED).map_or(place, |at| DECLARED + at)
            })
        },
        "refused 7 at place 5",
        "refused 7 at place 6",
    );
    assert!(text.contains(" to "), "{text}");
}

#[test]
fn an_owner_passed_over_where_another_word_differs() {
    let text = finds(
        |file| {
            placed(file, 7, |recipe, place| {
                let words = Node::Type(&recipe.declared).words();
                let other = differing(recipe).into_iter().find(|at| words[*at] % 256 != 2);
                other.map_or(place, |at| DECLARED + at)
            })
        },
        "refused 7 at place ",
        "refused 7 at place ",
    );
    let [right, planted] = places(&text, 7);
    assert!(right < planted && text.contains('L'), "{text}");
}

/// The words of the type that a term has.
fn found_size(recipe: &Recipe) -> usize {
    Node::Type(&type_of(&recipe.term).expect("a type")).size()
}

/// Whether a wrong check shows in the files that are the same in every comparison; they are too long to be shrunk quickly.
fn shows_in_every_mismatch(engine: Check) -> bool {
    on_large_stack(|| every_mismatch().iter().any(|file| engine(file) != right_check(file)))
}

#[test]
fn long_types_compared_in_part() {
    // No place where a type of more words than a file has is found; none behind word 255, and none behind word 1,023.
    let engines: [Check; 3] = [
        |file| placed(file, 7, |recipe, place| if found_size(recipe) > 4_096 { 0 } else { place }),
        |file| placed(file, 7, |_, place| place.min(DECLARED + 255)),
        |file| placed(file, 7, |_, place| place.min(DECLARED + 1_023)),
    ];
    assert!(engines.into_iter().all(shows_in_every_mismatch));
}

#[test]
fn places_far_behind_told_as_another() {
    // Behind 255 words of the term; behind 2,000; behind a type of 1,000 words; and behind level 250.
    let engines: [Check; 4] = [
        |file| placed(file, 6, |recipe, place| place.min(recipe.start() + 255)),
        |file| placed(file, 6, |recipe, place| place.min(recipe.start() + 1_999)),
        |file| placed(file, 6, |recipe, place| place - recipe.start() + recipe.start().min(1_000)),
        |file| {
            placed(file, 6, |recipe, place| {
                let around = around(&ml_words(&recipe.term), place - recipe.start());
                around.get(250).map_or(place, |at| recipe.start() + at)
            })
        },
    ];
    assert!(engines.into_iter().all(shows_in_every_mismatch));
}

#[test]
fn a_root_of_another_type_taken_for_no_type() {
    finds(
        |file| match (right_check(file) % 256, read_recipe(file, DEEPEST)) {
            (7, Ok(recipe)) => 6 + 256 * recipe.start() as u64,
            _ => right_check(file),
        },
        "refused 7 at place 4",
        "refused 6 at place 5",
    );
}

/// The word behind a node's first part.
fn behind(words: &[u32]) -> usize {
    1 + size_at(words, 1)
}

/// The right check, with another place where the node named is of a kind: so many words behind it.
fn inside(file: &[u8], kind: u32, skip: fn(&[u32]) -> usize) -> u64 {
    placed(file, 6, |recipe, place| {
        let words = &ml_words(&recipe.term)[place - recipe.start()..];
        if words[0] % 256 == kind {
            place + skip(words)
        } else {
            place
        }
    })
}

#[test]
fn a_part_for_the_node() {
    // Of an sm its term; of an app its argument; of a fix its function; of a cons its tail's first word; of hd its part.
    finds(|file| inside(file, 45, behind), "refused 6 at place 7", "refused 6 at place 9");
    finds(|file| inside(file, 19, behind), "refused 6 at place 5", "refused 6 at place 7");
    finds(|file| inside(file, 20, |_| 1), "refused 6 at place 5", "refused 6 at place 6");
    finds(|file| inside(file, 25, behind), "refused 6 at place 5", "refused 6 at place 7");
    finds(|file| inside(file, 26, |_| 1), "refused 6 at place 5", "refused 6 at place 6");
}

/// The place by which a save of words is refused, changed.
fn saved_at(declared: &[u32], term: &[u32], out: &mut [u8], number: u32, place: fn(u32, usize) -> u32) -> RecipeSaved {
    match right_save(declared, term, out) {
        saved if saved.refusal == number => RecipeSaved { place: place(saved.place, declared.len()), ..saved },
        saved => saved,
    }
}

#[test]
fn places_of_saves_that_are_not_those_of_the_file_to_be_written() {
    let saves: [(Save, &str, &str); 7] = [
        // None, as before; counted from the term; as if the type had one word; without the header.
        (|d, t, out| saved_at(d, t, out, 6, |_, _| 0), "refused 6 at place 5", "refused 6 at place 0"),
        (|d, t, out| saved_at(d, t, out, 7, |_, _| 0), "refused 7 at place 4", "refused 7 at place 0"),
        (
            |d, t, out| saved_at(d, t, out, 6, |place, types| place - 4 - types as u32),
            "refused 6 at place 5",
            "refused 6 at place 0",
        ),
        (
            |d, t, out| saved_at(d, t, out, 6, |place, types| place + 1 - types as u32),
            "refused 6 at place 6",
            "refused 6 at place 5",
        ),
        (|d, t, out| saved_at(d, t, out, 6, |place, _| place - 4), "refused 6 at place 5", "refused 6 at place 1"),
        (|d, t, out| saved_at(d, t, out, 7, |place, _| place - 4), "refused 7 at place 4", "refused 7 at place 0"),
        (|d, t, out| saved_at(d, t, out, 7, |_, _| 4), "refused 7 at place 6", "refused 7 at place 4"),
    ];
    for (save, model, engine) in saves {
        saving::answers(save, model, engine);
    }
}

/// The right run without the place of a refusal.
fn unplaced<const REFUSAL: u32>(file: &[u8], limit: u32, first: &mut [u32], second: &mut [u32]) -> RecipeRun {
    match right_run(file, limit, first, second) {
        run if run.refusal == REFUSAL => RecipeRun { place: 0, ..run },
        run => run,
    }
}

#[test]
fn the_deepest_that_are_refused_are_known_beforehand() {
    let right = compare_saved_stack(right_save, 64 << 20).expect("no difference");
    assert_eq!(
        right[..6].iter().filter(|told| told.contains(": refused 6 ") || told.contains(": refused 7 ")).count(),
        2
    );
    for (number, save) in [(6, unplaced_save::<6> as Save), (7, unplaced_save::<7>)] {
        let shown = compare_saved_stack(save, 64 << 20).expect_err("a difference");
        assert!(shown.contains(&format!("refusal: {number}, place: 0")), "{shown}");
    }
}

/// The right save without the place of a refusal.
fn unplaced_save<const REFUSAL: u32>(declared: &[u32], term: &[u32], out: &mut [u8]) -> RecipeSaved {
    saved_at(declared, term, out, REFUSAL, |_, _| 0)
}

#[test]
fn places_that_a_run_does_not_tell() {
    for (number, engine) in [(6, unplaced::<6> as Run), (7, unplaced::<7>)] {
        let text = on_large_stack(|| compare_run(engine, PLAN)).err().expect("a difference");
        assert!(text.contains(&format!("engine:\n  refused {number} at place 0")), "{text}");
    }
}

#[test]
fn everything_is_reached() {
    let checks = on_large_stack(|| compare_check(right_check, PLAN)).expect("no difference");
    assert_eq!(missing(&checks.of_checks()), [""; 0]);
    let right = SavingEngine { check: right_check, run: right_run, save: right_save };
    let saves = on_large_stack(|| compare_save(right, saving::PLAN)).expect("no difference");
    let (rows, own) = (saves.rows(), MismatchCounts::default().rows());
    let names: Vec<&str> = own.iter().map(|row| row.0.as_str()).collect();
    assert!(names.iter().all(|name| rows.iter().any(|row| row.0 == *name)));
    assert!(missing(&rows).iter().all(|name| !names.contains(name)), "{:?}", missing(&rows));
    // 15 ways at 4 places, but an sm is never the root; 9 for where the node is, and 11 for how types differ, twice.
    assert_eq!(own.len(), 15 * 4 - 1 + 9 + 2 * 11);
}

/// The rows that a file of these words is counted in.
fn rows(declared: &[u32], term: &[u32]) -> Vec<String> {
    let file = file(declared, term);
    let mut counts = MismatchCounts::default();
    on_large_stack(|| counts.file(&file, check(&file).err().as_ref()));
    counts.rows().into_iter().filter(|row| row.1 > 0).map(|row| row.0).collect()
}

#[test]
fn a_file_is_counted_by_the_node_that_is_named() {
    // add 0 (hd 0); add (hd 0) (tl 0); if0 (nil N) (fix 0) 0; accepted.
    assert_eq!(rows(&[1], &[21, 17, 26, 17]), ["refusal 6 at hd of no list, inside"]);
    let several = ["refusal 6 at hd of no list, inside", "refusal 6 at hd of no list, the lowest of several"];
    assert_eq!(rows(&[1], &[21, 26, 17, 27, 17]), several);
    let if0 = ["refusal 6 at fix of no function, inside", "refusal 6 inside an if0 of no number"];
    assert_eq!(rows(&[1], &[23, 24, 1, 20, 17, 17]), if0);
    assert_eq!(rows(&[1], &[17]), [""; 0]);
    // 101 sums around a fix of 0, which stands at level 102.
    let deep = [[21, 17].repeat(101), vec![20, 17]].concat();
    let due =
        ["inside", "over 100 levels deep, the only one"].map(|at| format!("refusal 6 at fix of no function, {at}"));
    assert_eq!(rows(&[1], &deep), due);
    // app (fn N 0) (nil N), at the root: N and {N} differ in their first word.
    let unequal = "refusal 6 by a type that differs";
    let due = [
        "refusal 6 at app of another argument, at the root".to_string(),
        format!("{unequal} in the first word"),
        format!("{unequal} and is shorter than the one found"),
    ];
    assert_eq!(rows(&[1], &[19, 18, 1, 17, 24, 1]), due);
}

#[test]
fn a_file_is_counted_by_the_declared_word_that_differs() {
    let due = |rows: &[&str]| -> Vec<String> {
        rows.iter().map(|row| format!("refusal 7 by a declared type that differs {row}")).collect()
    };
    assert_eq!(rows(&[2], &[17]), due(&["in the first word"]));
    assert_eq!(rows(&[3, 2], &[24, 1]), due(&["in the last word", "in a list"]));
    // (N to (L7 to N)) of fn N (fn L9 0).
    let owner = due(&["in a word between", "in an owner", "in an argument"]);
    assert_eq!(rows(&[4, 1, 4, 2 + 256 * 7, 1], &[18, 1, 18, 2 + 256 * 9, 17]), owner);
    // (N to {N}) of fn N 0, and (N to N) of fn N (nil N).
    let longer = ["in a word between", "in a result", "and is longer than the one found"];
    assert_eq!(rows(&[4, 1, 3, 1], &[18, 1, 17]), due(&longer));
    let shorter = ["in the last word", "in a result", "and is shorter than the one found"];
    assert_eq!(rows(&[4, 1, 1], &[18, 1, 24, 1]), due(&shorter));
}

#[test]
fn the_nodes_around_a_place() {
    // add (fn {N} v0) (cons 0 (nil N)): places 0 to 8.
    let term = [21, 18, 3, 1, 16, 25, 17, 24, 1];
    let due: [&[usize]; 9] = [&[], &[0], &[0, 1], &[0, 1, 2], &[0, 1], &[0], &[0, 5], &[0, 5], &[0, 5, 7]];
    for (place, nodes) in due.into_iter().enumerate() {
        assert_eq!(around(&term, place), nodes, "{place}");
    }
}

#[test]
fn faulty_terms_are_not_in_order_at_their_own_node() {
    for term in FAULTY {
        let nodes = judge(&read_ml(term, 0, DEEPEST).expect("words in order")).expect_err("no type");
        let sm = term.iter().position(|&word| word == 45);
        assert_eq!(nodes.iter().map(|node| node.before).collect::<Vec<_>>(), [sm.unwrap_or(0)], "{term:?}");
    }
}

/// What is to be around a term of type N, around 0.
fn around_0(which: &tools::make::mismatches::Around) -> Result<Vec<u32>, usize> {
    let term = which.once(&[17]);
    let judged = judge(&read_ml(&term, 0, DEEPEST).expect("words in order"));
    judged.map(|t| Node::Type(&t).words()).map_err(|nodes| nodes.len())
}

#[test]
fn what_fits_around_a_number_is_a_number_and_what_is_unfit_has_no_type() {
    assert!(FITTING.iter().all(|around| around_0(around) == Ok(vec![1])));
    assert!(UNFIT.iter().all(|around| around_0(around) == Err(1)));
}

#[test]
fn every_mismatch_is_refused_by_6_or_7() {
    on_large_stack(|| {
        let (mut numbers, mut places) = ([0; 8], BTreeSet::new());
        for file in every_mismatch() {
            let Err(Refusal { number, place }) = check(&file) else { panic!("{:?}", words_of(&file)) };
            numbers[number as usize] += 1;
            places.insert(place);
        }
        // 32 terms with 14 things around them at 5 depths, 9 in 4 ways, and behind 3 types; every two of them in 4 ways; 30 far apart;
        // 16 types with 5 rules, either way, and 7 words of a long one; 15 places for the longest.
        let six = 32 * (14 * 5 + 9 * 4 + 3) + 32 * 32 * 4 + 30 + 16 * 5 * 2 + 7 * 5 * 2 + 15;
        // As declared, the same types, 7 words of a longer one, and 8 words of the longest in 2 ways and its first.
        let seven = 16 * 2 + 7 * 2 + 7 * 2 + 8 * 2 + 1;
        assert_eq!(numbers, [0, 0, 0, 0, 0, 0, six, seven]);
        assert!(places.len() > 100, "{}", places.len());
    });
}

#[test]
fn types_that_begin_alike() {
    // (({N} to N) to L): as far as {N}, with L for the first N; at the first word; and at the last.
    let t = [4, 4, 3, 1, 1, 2];
    assert_eq!(begins(&t, 3, 2), [4, 4, 3, 2, 1, 1]);
    assert_eq!(begins(&t, 0, 1), [1]);
    assert_eq!(begins(&t, 5, 3), [4, 4, 3, 1, 1, 3, 1]);
}

#[test]
fn random_mismatches_are_mostly_refused_deep_and_wide() {
    on_large_stack(|| {
        let (mut numbers, mut far, mut deep) = ([0; 8], 0, 0);
        for index in 0..3_000 {
            let file = mismatched_file(&mut Random::new(3, index));
            let Err(Refusal { number, place }) = check(&file) else { continue };
            numbers[number as usize] += 1;
            far += u32::from(number == 6 && place > 300);
            let words = words_of(&file).expect("a file");
            let term = regions(&words).expect("a header in order").term;
            deep += u32::from(number == 6 && around(term, place as usize - (words.len() - term.len())).len() > 100);
        }
        assert!(numbers[6] > 1_500 && numbers[7] > 300 && far > 100 && deep > 100, "{numbers:?} {far} {deep}");
        assert_eq!(numbers[1..4], [0; 3]);
    });
}

#[test]
fn the_answer_is_number_and_place() {
    assert_eq!(answer(&check(&bytes_of(&[1, 4, 4, 5, 1, 21, 17, 26, 17]))), 6 + 256 * 7);
    assert_eq!(answer(&check(&bytes_of(&[2, 4, 2, 6, 3, 2, 24, 1]))), 7 + 256 * 5);
}
