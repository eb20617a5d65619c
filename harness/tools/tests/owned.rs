//! Planted errors in what the engine makes of the owners of lumps: each is found, and shrunk to a few words. The makers of owners
//! make what they promise.

use crate::common::checking::{finds, PLAN};
use crate::common::pricing;
use crate::common::saving;
use model::check::read_recipe;
use model::file::{bytes_of, regions, words_of};
use model::node::{Node, Tree};
use model::owners::{differing, owners, Differing, Within};
use model::read::{read_ml, DEEPEST};
use model::rules::Rule;
use model::step::{turn, Step, Turn};
use model::typing::type_of;
use model::untyped::untyped;
use model::{check, on_large_stack, Ml, Recipe, Type};
use std::cell::RefCell;
use std::collections::BTreeSet;
use std::rc::Rc;
use tools::compare::owners::{type_place, OwnerCounts};
use tools::compare::{compare_check, compare_ownerless, compare_run, Case, Plan};
use tools::engine::{Check, RecipeRun, Run};
use tools::make::owners::{forgotten, lump, without_owners, OVER};
use tools::make::{every_owner, every_sealed, every_two_owners, file_of_text};
use tools::stand_in;

/// The words with other owners for their lumps.
fn owned(words: &[u32], owner: fn(u32) -> u32) -> Vec<u32> {
    words.iter().map(|&word| if word % 256 == 2 { lump(owner(word / 256)) } else { word }).collect()
}

/// The file with other owners for its lumps; the header stays.
fn changed(file: &[u8], owner: fn(u32) -> u32) -> Vec<u8> {
    match words_of(file) {
        Ok(words) => bytes_of(&[&words[..4], &owned(&words[4..], owner)].concat()),
        Err(_) => file.to_vec(),
    }
}

/// The two types that a refusal 6 or 7 is about, and the owners that differ where they alone do.
fn unequal(file: &[u8]) -> Option<Vec<Differing>> {
    let Recipe { declared, term } = read_recipe(file, DEEPEST).ok()?;
    let [due, found] = match untyped(&term) {
        Some(node) => node.mismatch.unequal()?,
        None => [declared, type_of(&term)?],
    };
    differing(&due, &found)
}

/// The right check, which accepts what is refused for owners alone if those that differ are such.
fn blind(file: &[u8], such: fn(&Differing) -> bool) -> u64 {
    match stand_in::check(file) {
        answer if matches!(answer % 256, 6 | 7) && unequal(file).is_some_and(|all| all.iter().all(such)) => 0,
        answer => answer,
    }
}

#[test]
fn owners_that_are_not_compared() {
    finds(|file| stand_in::check(&changed(file, |o| if o < 256 { 0 } else { o })), "refused ", "accepted");
}

#[test]
fn owners_that_are_compared_at_the_root_alone() {
    finds(|file| blind(file, |owner| owner.within != Within::Alone), "refused ", "accepted");
    let list = finds(|file| blind(file, |owner| owner.within == Within::List), "refused ", "accepted");
    assert!(list.contains('{'), "{list}");
    let argument = finds(|file| blind(file, |owner| owner.within == Within::Argument), "refused ", "accepted");
    let result = finds(|file| blind(file, |owner| owner.within == Within::Result), "refused ", "accepted");
    assert!(argument.contains(" to ") && result.contains(" to "), "{argument}{result}");
}

#[test]
fn owners_that_are_compared_in_part() {
    // By all bits but the highest; by the lowest four; with owner 0 for any.
    finds(|file| blind(file, |owner| owner.due % 128 == owner.found % 128), "refused ", "accepted");
    finds(|file| blind(file, |owner| owner.due % 16 == owner.found % 16), "refused ", "accepted");
    finds(|file| blind(file, |owner| owner.due == 0), "refused ", "accepted");
    finds(|file| blind(file, |owner| owner.found == 0), "refused ", "accepted");
}

/// The right check, which takes types that differ in owners for equal at nodes of a kind; 0 is the declared type.
fn blind_at(file: &[u8], kind: u32) -> u64 {
    let at = || {
        let Recipe { term, .. } = read_recipe(file, DEEPEST).ok()?;
        Some(untyped(&term).map_or(0, |node| node.kind))
    };
    match at() == Some(kind) {
        true => blind(file, |_| true),
        false => stand_in::check(file),
    }
}

#[test]
fn owners_that_are_not_compared_at_one_rule() {
    let at: [(Check, &str); 6] = [
        (|file| blind_at(file, 0), "refused 7"),
        (|file| blind_at(file, 19), "(app "),
        (|file| blind_at(file, 20), "(fix "),
        (|file| blind_at(file, 23), "(if0 "),
        (|file| blind_at(file, 25), "(cons "),
        (|file| blind_at(file, 45), "(sm "),
    ];
    for (engine, inside) in at {
        let text = finds(engine, "refused ", "accepted");
        assert!(text.contains(inside), "{text}");
    }
}

#[test]
fn owners_over_the_last_that_are_not_refused() {
    // 256 alone; all, by their lowest eight bits; all, as the last; all from 65,536 on.
    let engines: [Check; 4] = [
        |file| stand_in::check(&changed(file, |o| if o == 256 { 0 } else { o })),
        |file| stand_in::check(&changed(file, |o| o % 256)),
        |file| stand_in::check(&changed(file, |o| o.min(255))),
        |file| stand_in::check(&changed(file, |o| if o >= 65_536 { 0 } else { o })),
    ];
    for engine in engines {
        let text = finds(engine, "refused 3 at place ", "");
        assert!(text.contains("type L with owner ") && text.contains(", outside 0 to 255)"), "{text}");
    }
}

#[test]
fn owners_up_to_the_last_that_are_refused() {
    // From 255 on; from 1 on, as before U6.
    let text =
        finds(|file| stand_in::check(&changed(file, |o| if o > 254 { 256 } else { o })), "", "refused 3 at place ");
    assert!(text.contains(" 65282"), "{text}");
    let text =
        finds(|file| stand_in::check(&changed(file, |o| if o > 0 { 256 } else { o })), "", "refused 3 at place ");
    assert!(text.contains(" 258"), "{text}");
}

/// The right check of a file in which owners over the last are 255 where the test says so.
fn blind_over(file: &[u8], here: fn(u32, Within) -> bool) -> u64 {
    let mut file = file.to_vec();
    loop {
        let answer = stand_in::check(&file);
        let (Ok(mut words), place) = (words_of(&file), (answer / 256) as usize) else { return answer };
        let stands = regions(&words).ok().and_then(|regions| type_place(regions.declared, regions.term, place));
        let is_over = answer % 256 == 3 && words.get(place).is_some_and(|word| word % 256 == 2);
        if !is_over || !stands.is_some_and(|(standing, within)| here(standing, within)) {
            return answer;
        }
        words[place] = lump(255);
        file = bytes_of(&words);
    }
}

#[test]
fn owners_over_the_last_that_are_not_refused_at_one_place() {
    let places: [Check; 9] = [
        |file| blind_over(file, |standing, _| standing == 0),
        |file| blind_over(file, |standing, _| standing == 18),
        |file| blind_over(file, |standing, _| standing == 24),
        |file| blind_over(file, |standing, _| standing == 29),
        |file| blind_over(file, |standing, _| standing == 30),
        |file| blind_over(file, |standing, _| standing == 45),
        |file| blind_over(file, |_, within| within == Within::List),
        |file| blind_over(file, |_, within| within == Within::Argument),
        |file| blind_over(file, |_, within| within == Within::Result),
    ];
    for engine in places {
        let text = finds(engine, "refused 3 at place ", "");
        assert!(text.contains("type L with owner 256, outside 0 to 255)"), "{text}");
    }
}

#[test]
fn an_owner_over_the_last_told_at_another_place() {
    let engine: Check = |file| match (stand_in::check(file), stand_in::check(&changed(file, |o| o.min(255)))) {
        (answer, other) if answer % 256 == 3 && other != answer => answer - 256,
        (answer, _) => answer,
    };
    finds(engine, "refused 3 at place ", "refused 3 at place ");
}

#[test]
fn nesting_that_goes_before_an_owner_over_the_last() {
    let engine: Check = |file| match (stand_in::check(file), stand_in::check(&changed(file, |o| o.min(255)))) {
        (answer, nested) if answer % 256 == 3 && nested == answer + 1 => nested,
        (answer, _) => answer,
    };
    let text = on_large_stack(|| compare_check(engine, PLAN)).err().expect("a difference");
    let place = |side: &str, number: u32| {
        let told =
            text.split_once(&format!("\n{side}   refused {number} at place ")).unwrap_or_else(|| panic!("{text}"));
        told.1.lines().next().map(str::to_string)
    };
    assert_eq!(place("model: ", 3), place("engine:", 4));
}

/// What the comparison of runs shows of a wrong run: a small term with this in it.
fn run_finds(engine: Run, inside: &str) -> String {
    let text = on_large_stack(|| compare_run(engine, PLAN)).err().expect("a difference");
    let term = text.lines().find_map(|line| line.strip_prefix("term:     ")).unwrap_or("");
    assert!(term.len() < 45 && term.contains(inside), "{text}");
    text
}

/// Today's step; of a step by this rule, what the node becomes has lost its owners.
fn losing(turn: &Turn, lost: Rule) -> Step {
    match turn.step() {
        Step::Next(rule, next) if rule == lost => {
            let (words, place) = (Node::Ml(&next).words(), turn.place());
            let end = place + model::nodes::size_at(&words, place);
            let words = [&words[..place], &forgotten(&words[place..end]), &words[end..]].concat();
            Step::Next(rule, read_ml(&words, 0, usize::MAX).expect("a term"))
        }
        step => step,
    }
}

#[test]
fn owners_lost_where_a_function_is_wrapped() {
    run_finds(|f, l, a, b| stand_in::run_by(|turn| losing(turn, Rule::MsFunction), f, l, a, b), "(ms (");
    run_finds(|f, l, a, b| stand_in::run_by(|turn| losing(turn, Rule::SmFunction), f, l, a, b), "(sm (");
}

#[test]
fn owners_lost_where_a_list_crosses() {
    run_finds(|f, l, a, b| stand_in::run_by(|turn| losing(turn, Rule::MsListNil), f, l, a, b), "(ms {L1} nil)");
    run_finds(|f, l, a, b| stand_in::run_by(|turn| losing(turn, Rule::MsListCons), f, l, a, b), "(ms {L");
    run_finds(|f, l, a, b| stand_in::run_by(|turn| losing(turn, Rule::SmListCons), f, l, a, b), "(sm {L");
}

#[test]
fn owners_lost_where_a_wrong_is_made() {
    run_finds(|f, l, a, b| stand_in::run_by(|turn| losing(turn, Rule::MlHdNil), f, l, a, b), "(hd (nil ");
    run_finds(|f, l, a, b| stand_in::run_by(|turn| losing(turn, Rule::MlTlNil), f, l, a, b), "(tl (nil ");
    run_finds(|f, l, a, b| stand_in::run_by(|turn| losing(turn, Rule::MsListOther), f, l, a, b), "(ms {L");
    run_finds(|f, l, a, b| stand_in::run_by(|turn| losing(turn, Rule::MsFunctionOther), f, l, a, b), "(ms (");
}

/// The step on a lump that is opened to be sealed for another owner: it keeps its old one.
fn kept(turn: &Turn) -> Step {
    let (Tree::Scheme(node), Some(frame)) = (&turn.node, turn.context.last()) else { return turn.step() };
    let (model::Scheme::Sm(old, lump), Tree::Ml(around)) = (&**node, &frame.node) else { return turn.step() };
    match (turn.step(), &**around, &**lump) {
        (Step::Next(rule @ Rule::SmLump, _), Ml::Ms(new, _), Ml::Ms(_, value)) if is_lump(new) => {
            let mut outer = Turn { context: Vec::new(), node: frame.node.clone() };
            outer.context.extend(turn.context[..turn.context.len() - 1].iter().map(copied));
            Step::Next(rule, outer.with(Tree::Ml(Rc::new(Ml::Ms(old.clone(), value.clone())))))
        }
        (step, ..) => step,
    }
}

/// The same frame once more.
fn copied(frame: &model::step::Frame) -> model::step::Frame {
    model::step::Frame { node: frame.node.clone(), part: frame.part }
}

/// Whether a type is a lump's.
fn is_lump(t: &Type) -> bool {
    matches!(t, Type::Lump(_))
}

#[test]
fn a_value_that_keeps_its_old_owner() {
    let text = run_finds(|f, l, a, b| stand_in::run_by(kept, f, l, a, b), "(sm L");
    assert!(text.contains("(ms L"), "{text}");
}

#[test]
fn owners_that_are_shown_in_part() {
    let engine: Run = |file, limit, first, second| {
        let result = stand_in::run(file, limit, first, second);
        let shown = owned(&first[..result.left as usize], |owner| owner % 128);
        first[..shown.len()].copy_from_slice(&shown);
        result
    };
    let text = run_finds(engine, "L");
    assert!(text.contains("L128") || text.contains("L255") || text.contains("L254"), "{text}");
}

#[test]
fn only_lumps_of_owner_0_are_values() {
    let engine: Run = |file, limit, first, second| {
        let mut result = stand_in::run(file, limit, first, second);
        let lump = first.get(..2).is_some_and(|words| words[0] == 30 && words[1] % 256 == 2 && words[1] != 2);
        result.end += u32::from(lump && (result.refusal, result.end) == (0, 0));
        result
    };
    let text = run_finds(engine, "(ms L1 ");
    assert!(text.contains("\nmodel:\n  value (end 0)") && text.contains("\nengine:\n  spent (end 1)"), "{text}");
}

/// What the law that owners change no run shows of a wrong run, the model having no say: the engine's own two runs; none if it sees
/// nothing wrong.
fn law_shows(engine: Run) -> Option<String> {
    let cases = every_sealed().into_iter().flat_map(|file| [1, 9].map(|limit| Case::new(file.clone(), limit, 40, 41)));
    let shown = on_large_stack(|| cases.map(|case| compare_ownerless(engine, &case)).find_map(Result::err))?;
    assert!(shown.contains("\nengine:\n") && shown.contains("\nengine, without owners:\n"), "{shown}");
    assert!(!shown.contains("model"), "{shown}");
    Some(shown)
}

/// The comparison of runs finds it, by the model, in a small term with this in it; and so does the law alone.
fn both_find(engine: Run, inside: &str) {
    let text = run_finds(engine, inside);
    assert!(text.contains("\nmodel:\n") && text.contains("\nengine:\n"), "{text}");
    let shown = law_shows(engine).expect("a difference");
    assert!(shown.contains(inside), "{shown}");
}

/// How often the steps that a run has made open a lump of such an owner.
fn opened(file: &[u8], steps: u32, such: fn(u32) -> bool) -> u32 {
    let Ok(Recipe { mut term, .. }) = check(file) else { return 0 };
    let mut count = 0;
    for _ in 0..steps {
        let turn = turn(&term).expect("a step that was made");
        let Step::Next(rule, next) = turn.step() else { break };
        let owner = turn.node.node().parts()[0].and_then(|t| owners(&t.words()).next());
        count += u32::from(rule == Rule::SmLump && owner.is_some_and(such));
        term = next;
    }
    count
}

#[test]
fn owners_that_cost_a_step() {
    let engine: Run = |file, limit, first, second| {
        let mut result = stand_in::run(file, limit, first, second);
        let more = opened(file, result.steps, |owner| owner > 0);
        (result.steps, result.others) = (result.steps + more, result.others + more);
        result
    };
    both_find(engine, "(sm L");
}

#[test]
fn an_owner_whose_opening_is_a_call() {
    let engine: Run = |file, limit, first, second| {
        let mut result = stand_in::run(file, limit, first, second);
        let calls = opened(file, result.steps, |owner| owner == 7);
        (result.calls, result.conversions) = (result.calls + calls, result.conversions - calls);
        result
    };
    both_find(engine, "(sm L7 ");
}

#[test]
fn an_owner_that_takes_a_word() {
    let engine: Run = |file, limit, first, second| {
        let mut result = stand_in::run(file, limit, first, second);
        let is_owned = words_of(file).is_ok_and(|words| owners(&words[4..]).any(|owner| owner > 0));
        result.wanted += u32::from(is_owned && result.wanted > 0);
        result
    };
    both_find(engine, "L");
}

/// The right run, the words that it leaves changed.
fn left(file: &[u8], limit: u32, buffers: [&mut [u32]; 2], change: fn(&mut [u32])) -> RecipeRun {
    let [first, second] = buffers;
    let result = stand_in::run(file, limit, first, second);
    change(&mut first[..result.left as usize]);
    result
}

#[test]
fn an_owner_left_in_the_wrong_place() {
    // With the word behind the L.
    let engine: Run = |file, limit, first, second| {
        left(file, limit, [first, second], |words| {
            let at = (1..words.len()).find(|at| words[at - 1] % 256 == 2 && words[at - 1] > 2);
            at.into_iter().for_each(|at| (words[at - 1], words[at]) = (2, words[at] + words[at - 1] - 2));
        })
    };
    both_find(engine, "L");
    // With another L: that has the same words without owners, so the model alone finds it.
    let engine: Run = |file, limit, first, second| {
        left(file, limit, [first, second], |words| {
            let lumps: Vec<usize> = (0..words.len()).filter(|at| words[*at] % 256 == 2).collect();
            lumps.windows(2).for_each(|pair| words.swap(pair[0], pair[1]));
        })
    };
    assert!(run_finds(engine, "L").contains("\nmodel:\n"));
    assert_eq!(law_shows(engine), None);
}

thread_local! {
    /// The file that was run last.
    static LAST: RefCell<Vec<u8>> = const { RefCell::new(Vec::new()) };
}

#[test]
fn an_owner_remembered_from_the_run_before() {
    // Each file alone is run rightly, so the law alone finds it.
    let engine: Run = |file, limit, first, second| {
        let mut result = stand_in::run(file, limit, first, second);
        let last = LAST.replace(file.to_vec());
        result.steps += u32::from(last != file && without_owners(&last) == file);
        result
    };
    let text = run_finds(engine, "L");
    assert!(text.contains("\nengine, without owners:\n") && !text.contains("model"), "{text}");
}

#[test]
fn the_right_run_keeps_the_law() {
    assert_eq!(law_shows(stand_in::run), None);
    let tried = |text: &str| compare_ownerless(stand_in::run, &Case::new(file_of_text(text), 9, 9, 2));
    // Accepted with an owner over 0, its term longer than the buffers too; without one; refused.
    assert_eq!(tried("N (null? (nil L7))"), Ok(true));
    assert_eq!(tried("N (null? (nil L))"), Ok(false));
    assert_eq!(tried("L (ms L7 1)"), Ok(false));
    // The comparison of runs tries it, and counts how often.
    let plan = Plan { files: 300, seed: 1, start: 1 };
    let counts = on_large_stack(|| compare_run(stand_in::run, plan)).unwrap_or_else(|shown| panic!("{shown}"));
    assert!(counts.owners.ownerless > 100, "{}", counts.owners.ownerless);
    assert!(counts.of_runs().contains(&("run as without owners".to_string(), counts.owners.ownerless)));
}

#[test]
fn runs_of_files_that_are_to_be_refused() {
    run_finds(|f, l, a, b| stand_in::run(&changed(f, |o| if o < 256 { 0 } else { o }), l, a, b), "L");
    let over: Run = |f, l, a, b| stand_in::run(&changed(f, |o| o.min(255)), l, a, b);
    let text = on_large_stack(|| compare_run(over, PLAN)).err().expect("a difference");
    assert!(text.contains("type L with owner ") && text.contains("\nmodel:\n  refused 3 at place "), "{text}");
}

#[test]
fn pricings_of_files_that_are_to_be_refused() {
    let over: tools::engine::Price = |prices, f, l, a, b| stand_in::price(prices, &changed(f, |o| o.min(255)), l, a, b);
    pricing::answers(over, "refused 3 at place ", "");
    let other: tools::engine::Price =
        |prices, f, l, a, b| stand_in::price(prices, &changed(f, |o| if o < 256 { 0 } else { o }), l, a, b);
    pricing::answers(other, "refused ", "");
}

#[test]
fn saves_that_lose_an_owner_or_take_any() {
    let lost = saving::save_shown(|declared, term, out| {
        saving::changed(declared, term, out, |file| file.copy_from_slice(&changed(file, |o| o % 128)))
    });
    assert!(lost.contains("model:\n  saved, ") && lost.contains("engine:\n  saved, "), "{lost}");
    let over = |declared: &[u32], term: &[u32], out: &mut [u8]| {
        stand_in::save(&owned(declared, |o| o.min(255)), &owned(term, |o| o.min(255)), out)
    };
    saving::answers(over, "refused 3 at place ", "");
    // Owners are written as they are, but not compared.
    let alike = |declared: &[u32], term: &[u32], out: &mut [u8]| {
        let right = stand_in::save(declared, term, out);
        if !matches!(right.refusal, 6 | 7) {
            return right;
        }
        let saved = stand_in::save(&forgotten(declared), &forgotten(term), out);
        let file = model::file::file(declared, term);
        if saved.refusal == 0 {
            out[..file.len()].copy_from_slice(&file);
        }
        saved
    };
    saving::answers(alike, "refused 7 at place ", "");
}

/// The rows that a file of these words is counted in, and its run.
fn rows(declared: &[u32], term: &[u32]) -> Vec<String> {
    let file = model::file::file(declared, term);
    let mut counts = OwnerCounts::default();
    on_large_stack(|| {
        counts.file(&file, check(&file).err().as_ref());
        counts.ran(&file, &model::run(&file, 100, 100, 100));
    });
    let all = [counts.rows(), counts.declared_rows(), counts.step_rows()].concat();
    all.into_iter().filter(|row| row.1 > 0).map(|row| row.0).collect()
}

#[test]
fn a_file_is_counted_by_what_its_owners_do() {
    let over = "refusal 3 by an owner over 255";
    // ms L255 0, declared so, and declared L; fn L7 v0, declared from L7 to L7.
    let sealed = "accepted, declared with an owner over 0, alone";
    let value = "run that comes to a value with an owner over 0";
    assert_eq!(rows(&[lump(255)], &[30, lump(255), 33]), ["accepted with owner 255", sealed, value]);
    assert_eq!(rows(&[2], &[30, lump(255), 33]), ["refusal 7 by an owner, alone"]);
    let argument = "accepted, declared with an owner over 0, in a function's argument";
    let function = rows(&[4, lump(7), lump(7)], &[18, lump(7), 16]);
    assert_eq!(function, ["accepted with an owner from 1 to 254", argument, value]);
    // null? (cons (nil L7) (nil {L9})); add (nil L7) 0; app (fn L9 0) 0: the last two are not refused for owners.
    let at = "refusal 6 by an owner at a cons";
    assert_eq!(rows(&[1], &[28, 25, 24, lump(7), 24, 3, lump(9)]), ["refusal 6 by an owner, in a list", at]);
    assert_eq!(rows(&[1], &[21, 24, lump(7), 17]), [""; 0]);
    assert_eq!(rows(&[1], &[19, 18, lump(9), 17, 17]), [""; 0]);
    // nil {L256}; sm (N to L256); a term that is to be ML; a word that remains.
    assert_eq!(rows(&[1], &[28, 24, 3, lump(256)]), [format!("{over} of nil"), format!("{over}, in a list")]);
    let result = format!("{over}, in a function's result");
    assert_eq!(rows(&[1], &[30, 1, 45, 4, 1, lump(256), 17]), [format!("{over} of sm"), result]);
    assert_eq!(rows(&[1], &[lump(256)]), [""; 0]);
    assert_eq!(rows(&[1, lump(256)], &[17]), [""; 0]);
}

#[test]
fn a_run_is_counted_by_what_it_does_with_owners() {
    let steps = |text: &str| {
        let words = words_of(&file_of_text(text)).expect("a file");
        let regions = regions(&words).expect("a header in order");
        let rows = rows(regions.declared, regions.term);
        rows.iter().filter_map(|row| row.strip_prefix("run that ")).map(str::to_string).collect::<Vec<_>>()
    };
    let (opens, value) = ("opens a lump of an owner over 0", "comes to a value with an owner over 0");
    assert_eq!(steps("N (ms N (sm L (ms L 4)))"), ["opens a lump of owner 0"]);
    assert_eq!(steps("L7 (ms L7 (sm L7 (ms L7 4)))"), [opens, value]);
    assert_eq!(steps("L7 (ms L7 (sm L9 (ms L9 4)))"), [opens, "seals what it opens for another owner", value]);
    assert_eq!(steps("{L7} (ms {L7} nil)"), ["brings over a list with an owner over 0, by ms", value]);
    assert_eq!(steps("(N to L7) (ms (N to L7) (fn v0))"), ["wraps a function with an owner over 0, by ms", value]);
    assert_eq!(steps("N (ms N (fun? (sm (L7 to N) (fn L7 0))))"), ["wraps a function with an owner over 0, by sm"]);
    assert_eq!(steps("{L7} (tl (nil L7))"), ["makes a wrong at a type with an owner over 0"]);
    assert_eq!(steps("{N} (ms {N} nil)"), [""; 0]);
}

/// The number of the refusal of a file; 0 if it is accepted.
fn answer(file: &[u8]) -> u32 {
    check(file).err().map_or(0, |refusal| refusal.number)
}

/// The owners of a file.
fn owners_in(file: &[u8]) -> Vec<u32> {
    owners(&words_of(file).expect("a file")[4..]).collect()
}

#[test]
fn every_owner_stands_at_every_place() {
    on_large_stack(|| {
        let mut places = BTreeSet::new();
        for file in every_owner() {
            let over = owners_in(&file).into_iter().find(|owner| *owner > 255);
            let (words, refusal) = (words_of(&file).expect("a file"), check(&file).err());
            match (over, refusal) {
                (None, None) => {}
                (_, Some(refusal)) if refusal.number == 4 => {}
                (Some(owner), Some(refusal)) => {
                    assert_eq!((refusal.number, words[refusal.place as usize]), (3, lump(owner)));
                    let regions = regions(&words).expect("a header in order");
                    let (standing, within) =
                        type_place(regions.declared, regions.term, refusal.place as usize).expect("a type's place");
                    places.insert((owner, standing, within as u32));
                    // With the last owner in its place it is accepted.
                    assert!(matches!(answer(&changed(&file, |owner| owner.min(255))), 0 | 4));
                }
                other => panic!("{other:?}"),
            }
        }
        assert_eq!(places.len(), OVER.len() * 6 * 4);
    });
}

#[test]
fn two_owners_are_refused_exactly_if_they_differ() {
    on_large_stack(|| {
        let mut refused = [0; 2];
        for file in every_two_owners() {
            let alike = unequal(&file).expect("types that are equal but for owners").is_empty();
            let due = if alike { [0, 0] } else { [6, 7] };
            assert!(due.contains(&answer(&file)));
            refused[usize::from(alike)] += 1;
            assert_eq!(answer(&changed(&file, |_| 9)), 0);
        }
        // Ten types at six rules: seven pairs of owners that differ, and three that do not.
        assert_eq!(refused, [10 * 6 * 7, 10 * 6 * 3]);
    });
}

#[test]
fn sealed_recipes_are_accepted() {
    let files = every_sealed();
    assert_eq!(files.len(), 18 * 6);
    assert!(files.iter().all(|file| answer(file) == 0));
}
