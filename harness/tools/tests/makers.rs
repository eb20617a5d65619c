//! The makers make what they promise, and reach every rule, end and refusal.

use model::earlier::before_u4;
use model::file::words_of;
use model::laws::{try_counts, try_going_on, try_ownerless, try_reduction, WentOn};
use model::node::{ml_words, Node};
use model::owners::owners;
use model::price::items;
use model::rules::{Rule, RuleCounts};
use model::run::{reduce, run_by};
use model::step::{step, Step};
use model::{check, on_large_stack, run, save, End, Ml, Recipe, Scheme};
use std::collections::BTreeSet;
use tools::make::cans::can_file;
use tools::make::nodes::any_node_words;
use tools::make::owners::without_owners;
use tools::make::prices::{any_prices, differing};
use tools::make::saves::{any_room, any_words, outgrowing};
use tools::make::*;
use tools::random::Random;

const FILES: u64 = 3_000;

#[test]
fn well_typed_files_are_accepted() {
    on_large_stack(|| {
        let refused = |index: &u64| check(&well_typed_file(&mut Random::new(1, *index))).err();
        let numbers: Vec<u32> = (0..FILES).filter_map(|index| refused(&index)).map(|refusal| refusal.number).collect();
        assert!(numbers.iter().all(|&number| number == 1), "{numbers:?}");
        assert!(numbers.len() < 30, "{} are too large", numbers.len());
    });
}

#[test]
fn choices_are_drawn_one_by_one_and_then_the_first_stream() {
    let mut random = Random::of_choices(&[0, 1, 0xab]);
    assert_eq!([random.draw(), random.draw()], [0, 0x0101_0101_0101_0101]);
    assert_eq!(random.word(), 0xabab_abab);
    let mut first = Random::new(0, 0);
    assert_eq!([random.draw(), random.draw()], [first.draw(), first.draw()]);
}

#[test]
fn each_of_up_to_256_can_be_chosen() {
    for count in 1..=256 {
        let chosen: BTreeSet<usize> = (0..=255).map(|byte| Random::of_choices(&[byte]).below(count)).collect();
        assert_eq!(chosen.len(), count);
    }
}

#[test]
fn words_to_ask_about_may_be_more_than_a_file_has() {
    // The fuzzer came upon these choices: the recipe that they make has more than 16,384 bytes.
    let rows = [(0xb7, 6), (0xbf, 1), (0xb7, 4), (0x4c, 1), (0xf5, 86), (0xe8, 54), (0xb7, 72), (0x29, 1), (0xb7, 44)];
    let choices: Vec<u8> = rows.iter().flat_map(|&(choice, times)| vec![choice; times]).collect();
    let words = on_large_stack(|| any_node_words(&mut Random::of_choices(&choices)));
    assert!(words.len() > 4_096, "{}", words.len());
}

/// The owners of all lumps in a node.
fn owners_in(node: Node<'_>) -> Vec<u32> {
    owners(&node.words()).collect()
}

/// Whether a term opens a lump of one owner and seals it at once for another, at any type.
fn reseals(node: Node<'_>) -> bool {
    let here = || {
        let Node::Ml(e) = node else { return None };
        let Ml::Ms(sealed, inner) = &**e else { return None };
        let Scheme::Sm(opened, _) = &**inner else { return None };
        Some(!model::owners::differing(sealed, opened)?.is_empty())
    };
    here() == Some(true) || node.parts().into_iter().flatten().any(reseals)
}

#[test]
fn well_typed_files_have_many_owners_and_seal_for_others() {
    on_large_stack(|| {
        let recipes = (0..FILES).filter_map(|index| check(&well_typed_file(&mut Random::new(1, index))).ok());
        let recipes: Vec<Recipe> = recipes.collect();
        let terms: Vec<Vec<u32>> = recipes.iter().map(|recipe| owners_in(Node::Ml(&recipe.term))).collect();
        let all: BTreeSet<u32> = terms.iter().flatten().copied().collect();
        assert!(all.len() > 200 && all.contains(&0) && all.contains(&255), "{}", all.len());
        let with = |is: fn(&u32) -> bool| terms.iter().filter(|owners| owners.iter().any(is)).count();
        for count in [with(|o| *o == 0), with(|o| *o == 1), with(|o| (2..254).contains(o)), with(|o| *o >= 254)] {
            assert!(count > FILES as usize / 8, "{count}");
        }
        let several = terms.iter().filter(|owners| owners.iter().collect::<BTreeSet<_>>().len() > 2).count();
        let sealed = recipes.iter().filter(|recipe| reseals(Node::Ml(&recipe.term))).count();
        assert!(several > FILES as usize / 5 && sealed > FILES as usize / 10, "{several} {sealed}");
    });
}

#[test]
fn damaged_files_have_owners_over_the_last_and_owners_that_differ() {
    on_large_stack(|| {
        let (mut over, mut differ) = (0, [0; 2]);
        for index in 0..10 * FILES {
            let file = damaged_file(&mut Random::new(1, index));
            let Some(refusal) = check(&file).err() else { continue };
            let words = words_of(&file).unwrap_or_default();
            let word = words.get(refusal.place as usize).copied().unwrap_or(0);
            over += u32::from(refusal.number == 3 && word % 256 == 2 && word / 256 > 255);
            if matches!(refusal.number, 6 | 7) {
                differ[refusal.number as usize - 6] += u32::from(check(&without_owners(&file)).is_ok());
            }
        }
        assert!(over > 300 && differ.iter().all(|&count| count > 100), "{over} {differ:?}");
    });
}

#[test]
fn cans_are_accepted_and_most_come_to_a_value_of_0_to_12_items() {
    on_large_stack(|| {
        let mut numbers = [0; 13];
        for index in 0..FILES {
            let recipe = check(&can_file(&mut Random::new(1, index))).expect("accepted");
            let (ended, left) = reduce(recipe.term, 300, 2_000, &mut RuleCounts::default());
            if let (End::Value, Some(value)) = (ended.end, left) {
                let count = items(&value).expect("a list of numbers").len();
                numbers[count.min(12)] += 1;
            }
        }
        assert!(numbers.iter().all(|&count| count > 20), "{numbers:?}");
        assert!(numbers.iter().sum::<u64>() > FILES * 2 / 3, "{numbers:?}");
    });
}

#[test]
fn prices_that_differ_and_prices_that_are_refused() {
    let differ = |cents: [[u32; 3]; 9]| cents.iter().flatten().collect::<BTreeSet<_>>().len() == 27;
    assert!(differ(differing().cents) && differing().cents.iter().flatten().all(|&price| price <= 1_000_000));
    let tables: Vec<_> = (0..FILES).map(|index| any_prices(&mut Random::new(1, index)).cents).collect();
    let over = tables.iter().filter(|cents| cents.iter().flatten().any(|&price| price > 1_000_000)).count();
    assert!((FILES as usize / 20..FILES as usize / 8).contains(&over), "{over}");
    assert!(tables.iter().filter(|cents| differ(**cents)).count() > FILES as usize / 3);
}

#[test]
fn words_to_save_meet_every_refusal_and_are_empty_now_and_then() {
    on_large_stack(|| {
        let (mut met, mut empty) = ([0; 14], [0; 2]);
        for index in 0..10 * FILES {
            let mut random = Random::new(1, index);
            let (declared, term) = any_words(&mut random);
            let room = any_room(&mut random, 16 + 4 * (declared.len() + term.len()));
            let number = save(&declared, &term, room).result.map_or_else(|refusal| refusal.number, |_| 0);
            met[number as usize] += 1;
            empty[0] += u32::from(declared.is_empty());
            empty[1] += u32::from(term.is_empty());
        }
        for number in [0, 3, 4, 5, 6, 7, 12, 13] {
            assert!(met[number] > 5, "{number}: {met:?}");
        }
        assert!(empty.iter().all(|&count| count > 100), "{empty:?}");
    });
}

/// Of a recipe that is accepted, the refusals that a save after each of its first steps meets.
fn unsaved(file: &[u8], steps: usize) -> BTreeSet<u32> {
    let recipe = check(file).expect("accepted");
    let declared = Node::Type(&recipe.declared).words();
    let (mut term, mut met) = (recipe.term, BTreeSet::new());
    for _ in 0..steps {
        met.extend(save(&declared, &ml_words(&term), 16_384).result.err().map(|refusal| refusal.number));
        match step(&term) {
            Step::Next(_, next) if Node::Ml(&next).size() <= 16_384 => term = next,
            _ => break,
        }
    }
    met
}

#[test]
fn runs_outgrow_a_file_and_some_come_back() {
    on_large_stack(|| {
        let ends = |file: &[u8]| run(file, 2_000, 16_384, 16_384).result.is_ok_and(|ended| ended.end == End::Value);
        let (back, endless): (Vec<_>, Vec<_>) = outgrowing().into_iter().partition(|file| ends(file));
        let met = |files: &[Vec<u8>]| files.iter().map(|file| unsaved(file, 400)).collect::<BTreeSet<_>>();
        // Some always fit a file.
        assert_eq!(met(&back), [vec![], vec![4], vec![12]].map(BTreeSet::from_iter).into());
        assert!(met(&endless).iter().flatten().any(|&number| number == 4));
    });
}

#[test]
fn the_type_that_is_compared_again_and_again_is_accepted() {
    on_large_stack(|| {
        for leaf in [1, 2, 2 + 256 * 255] {
            let file = edges::compared_again(leaf);
            assert_eq!(file.len(), 4 * 4_093);
            assert!(check(&file).is_ok(), "its types are not compared at all");
        }
    });
}

#[test]
fn every_rule_is_reached() {
    on_large_stack(|| {
        let mut rules = RuleCounts::default();
        for index in 0..10 * FILES {
            let file = well_typed_file(&mut Random::new(1, index));
            rules.join(&run(&file, 200, 2_000, 2_000).rules);
        }
        for rule in Rule::ALL {
            assert!(rules.of(rule) > 0, "{} was never reached", rule.name());
        }
    });
}

/// Whether a run of the file comes to a test that is no number.
fn tests_no_number(file: &[u8]) -> bool {
    run(file, 200, 2_000, 2_000).rules.of(Rule::SchemeIf0NoNumber) > 0
}

#[test]
fn many_mistaken_files_come_to_a_test_that_is_no_number() {
    on_large_stack(|| {
        let files: Vec<Vec<u8>> = (0..FILES).map(|index| mistaken_file(&mut Random::new(1, index))).collect();
        assert!(files.iter().all(|file| check(file).is_ok()));
        let met: Vec<&Vec<u8>> = files.iter().filter(|file| tests_no_number(file)).collect();
        assert!(met.len() > FILES as usize / 5, "{}", met.len());
        // Before U4 many of them came to a value.
        let value = |file: &&&Vec<u8>| {
            run_by(before_u4, file, 200, (2_000, 2_000)).result.is_ok_and(|ended| ended.end == End::Value)
        };
        assert!(met.iter().filter(value).count() > met.len() / 3);
    });
}

#[test]
fn every_test_of_if0_is_there() {
    on_large_stack(|| {
        let files = every_test();
        // 24 tests of Scheme, 14 of which come to no number; 3 choices of branches in 5 places. In ML 7 tests and 2 choices.
        assert_eq!(files.len(), 24 * 3 * 5 + 7 * 2);
        assert!(files.iter().all(|file| check(file).is_ok()));
        assert_eq!(files.iter().filter(|file| tests_no_number(file)).count(), 14 * 3 * 5);
    });
}

#[test]
fn demand_3_holds_from_terms_that_no_file_holds() {
    on_large_stack(|| {
        let mut unsaved = BTreeSet::new();
        for file in outgrowing() {
            let Recipe { declared, term } = check(&file).expect("accepted");
            let (_, left) = reduce(term, 270, 16_384, &mut RuleCounts::default());
            let Some(term) = left else { continue };
            let saved = save(&Node::Type(&declared).words(), &ml_words(&term), 16_384);
            unsaved.extend(saved.result.err().map(|refusal| refusal.number));
            try_reduction(&Recipe { declared, term }, 10, 16_384).expect("the laws hold");
        }
        assert_eq!(unsaved, [4, 12].into());
    });
}

#[test]
fn reductions_keep_demand_3() {
    on_large_stack(|| {
        for index in 0..FILES {
            if let Ok(recipe) = check(&well_typed_file(&mut Random::new(2, index))) {
                try_reduction(&recipe, 60, 4_000).expect("the laws hold");
            }
        }
    });
}

#[test]
fn counts_add_up_and_are_counts_over_the_reduction() {
    on_large_stack(|| {
        let mut steps = 0;
        for index in 0..FILES {
            let mut random = Random::new(4, index);
            let file = well_typed_file(&mut random);
            let (limit, capacity) = (random.below(120) as u32, 40 + random.below(400));
            if let (Ok(recipe), Ok(ended)) = (check(&file), run(&file, limit, capacity, capacity).result) {
                try_counts(&recipe, &ended).unwrap_or_else(|law| panic!("file {index}: {law}"));
                steps += ended.steps;
            }
        }
        assert!(steps > 10_000, "{steps}");
    });
}

#[test]
fn owners_change_no_run() {
    on_large_stack(|| {
        let (mut tried, mut owned) = (0, 0);
        for index in 0..FILES {
            let mut random = Random::new(6, index);
            let file = if random.chance(80) { well_typed_file(&mut random) } else { damaged_file(&mut random) };
            let (limit, capacity) = (random.below(120) as u32, 40 + random.below(400));
            let accepted = try_ownerless(&file, limit, [capacity, capacity + random.below(2)]);
            tried += u64::from(accepted.unwrap_or_else(|law| panic!("file {index}: {law}")));
            owned += u64::from(check(&file).is_ok() && without_owners(&file) != file);
        }
        assert!(tried > FILES / 2 && owned > FILES / 3, "{tried} {owned}");
    });
}

#[test]
fn saved_runs_go_on_as_one_run() {
    on_large_stack(|| {
        let mut pairs = 0;
        for index in 0..FILES {
            let mut random = Random::new(5, index);
            let file = well_typed_file(&mut random);
            let limits = [random.below(20) as u32, 1 + random.below(60) as u32];
            let lengths = [40 + random.below(400), 40 + random.below(400)];
            let went = try_going_on(&file, limits, lengths, 16_384);
            let went = went.unwrap_or_else(|law| panic!("file {index}: {law}"));
            pairs += u32::from(matches!(went, WentOn::Ended(..)));
        }
        assert!(pairs > 500, "{pairs}");
    });
}

#[test]
fn damaged_files_meet_every_refusal() {
    on_large_stack(|| {
        let mut met = [0; 8];
        for index in 0..10 * FILES {
            let number = check(&damaged_file(&mut Random::new(1, index))).err().map_or(0, |refusal| refusal.number);
            met[number as usize] += 1;
        }
        assert!(met.iter().all(|&count| count > 20), "{met:?}");
    });
}

#[test]
fn small_terms_are_all_there() {
    let (mut terms, mut types, mut recipes) = (0, 0, 0);
    every_small_term(&mut |_| terms += 1);
    every_small_type(&mut |_| types += 1);
    every_small_recipe(&mut |_| recipes += 1);
    // N, and L with 3 owners: 28 types of up to 3 words; 16 leaves, 88 terms of 2 words and 1,552 of 3.
    assert_eq!(recipes, 28 * (16 + 88 + 1_552));
    assert!(terms > 100_000 && types > 1_000, "{terms} {types}");
}
