//! The walk of a run: its terms beside the model's, and where each word of them comes from.

use crate::common::model_as_engine;
use model::file::{regions, words_of};
use model::node::Node;
use model::read::read_ml;
use model::step::{turn, Step};
use model::text::parse_recipe;
use model::{on_large_stack, run};
use tools::engine::{RecipeRun, RecipeSaved, Run, Save};
use tools::make::{mistaken_file, well_typed_file};
use tools::random::Random;
use tools::recipe::{Engine, Failure, Input, Next, Walk, WIDTH};
use tools::stand_in::{run as model_run, save as model_save, told};

/// The file of a text, with its text.
fn recipe(text: &str) -> Input {
    let parsed = parse_recipe(text).expect("a recipe");
    Input { bytes: model::file::file(&parsed.declared, &parsed.term), text: Some(parsed), no_text: None, width: WIDTH }
}

/// Its message.
fn said(failure: Failure) -> String {
    match failure {
        Failure::Refused(said) | Failure::Other(said) | Failure::Ended(_, said) => said,
        Failure::Unread => String::new(),
    }
}

/// A walk with the model in the engine's place.
fn walk(input: &Input, capacity: usize) -> Walk {
    Walk::new(&model_as_engine(), input, capacity).unwrap_or_else(|failure| panic!("{}", said(failure)))
}

/// The law of origins: a word that no rule made is the file's own, and one that was made has the node at its origin for a
/// maker that makes such words.
fn fits(walk: &Walk, file: &[u32]) {
    for (word, origin) in walk.words().iter().zip(walk.origins()) {
        let (kind, from) = (word % 256, file[origin.place] % 256);
        let maker = match kind {
            // A number crosses, or add, subtract or a test makes it.
            17 => matches!(from, 17 | 33 | 21 | 22 | 28 | 36 | 37 | 43),
            33 => matches!(from, 17 | 33 | 21 | 22 | 28 | 36 | 37 | 43),
            24 | 39 => matches!(from, 24 | 39),
            // Of wrappers and lists that cross.
            16 | 18 | 19 | 25 | 30 | 32 | 34 | 35 | 40 | 45 => matches!(from, 30 | 45),
            // N and { of a wrong's type.
            1 => from == 21,
            3 => from == 27,
            29 => matches!(from, 21 | 26 | 27 | 30 | 45),
            44 => matches!(from, 35..=38 | 41 | 42),
            _ => false,
        };
        assert!(if origin.made { maker } else { *word == file[origin.place] }, "{word} from {origin:?}");
    }
}

/// Walks at most so many steps; each term, its turn and its rule are the model's, and so is the result. Answers with it.
fn walked(bytes: &[u8], most: u32, capacity: usize) -> Option<RecipeRun> {
    let input = Input { bytes: bytes.to_vec(), text: None, no_text: None, width: WIDTH };
    let words = words_of(bytes).ok()?;
    let mut walk = Walk::new(&model_as_engine(), &input, capacity).ok()?;
    let mut term = read_ml(regions(&words).ok()?.term, 0, usize::MAX).ok()?;
    let mut result = walk.result();
    for _ in 0..most {
        assert_eq!(walk.words(), Node::Ml(&term).words());
        fits(&walk, &words);
        let (now, due) = (turn(&term), walk.due().copied());
        let place = |now: &model::step::Turn| (now.place(), now.node.node().size(), now.class());
        assert_eq!(due.map(|due| (due.place, due.size, due.class)), now.as_ref().map(place));
        let ended = walk.step().unwrap_or_else(|failure| panic!("{}", said(failure)));
        if let Some(ended) = ended {
            result = ended;
            break;
        }
        let (Some(Step::Next(rule, next)), Some(due)) = (now.map(|now| now.step()), due) else { panic!("a step") };
        assert_eq!(due.next, Next::Rule(rule));
        (term, result) = (next, walk.result());
    }
    assert_eq!(result, told(&run(bytes, result.steps + u32::from(result.end == 3), capacity, capacity).result));
    Some(result)
}

#[test]
fn the_terms_of_a_walk_are_the_models() {
    on_large_stack(|| {
        let makers: [fn(&mut Random) -> Vec<u8>; 2] = [well_typed_file, mistaken_file];
        let mut ends = [0; 4];
        for index in 0..400 {
            for make in makers {
                let file = make(&mut Random::new(31, index));
                for capacity in [40, 300, 4_096] {
                    let result = walked(&file, 60, capacity);
                    ends[result.map_or(1, |result| result.end as usize)] += 1;
                }
            }
        }
        assert!(ends.iter().all(|count| *count > 30), "{ends:?}");
    });
}

/// A walk to the end of the run of a text; what it ends with, or what is said of a failure.
fn ended(engine: Engine, text: &str, capacity: usize) -> Result<RecipeRun, String> {
    on_large_stack(|| {
        let mut walk = Walk::new(&engine, &recipe(text), capacity).map_err(said)?;
        loop {
            if let Some(result) = walk.step().map_err(said)? {
                return Ok(result);
            }
        }
    })
}

/// A run of the same, by the model.
fn due(text: &str, capacity: usize) -> RecipeRun {
    on_large_stack(|| told(&run(&recipe(text).bytes, u32::MAX, capacity, capacity).result))
}

/// Builds a list of so many items as its own tail grows, then takes it apart again: the term nests deeper than any file.
fn deep(items: u32) -> String {
    let length = "(fix (fn ({N} to N) (fn {N} (if0 (null? v0) 0 (add 1 (app v1 (tl v0)))))))";
    let list = "(fix (fn (N to {N}) (fn N (if0 v0 (nil N) (cons v0 (app v1 (subtract v0 1)))))))";
    format!("N (app {length} (app {list} {items}))")
}

#[test]
fn where_no_term_can_be_saved_the_walk_goes_on() {
    // 300 items nest 300 levels deep, over the 256 of a file, and then come back; 1,200 take more words than a file has.
    for (items, capacity) in [(300, 16_384), (1_200, 16_384), (300, 700)] {
        assert_eq!(ended(model_as_engine(), &deep(items), capacity), Ok(due(&deep(items), capacity)), "{items}");
    }
    assert_eq!((due(&deep(300), 16_384).end, due(&deep(300), 700).end), (0, 3));
    // Even where nothing is ever saved.
    fn never(_: &[u32], _: &[u32], out: &mut [u8]) -> RecipeSaved {
        out.fill(0);
        RecipeSaved { refusal: 12, place: 0, bytes: 0 }
    }
    let engine = Engine { save: Some(never as Save), ..model_as_engine() };
    assert_eq!(ended(engine, &deep(20), 4_096), Ok(due(&deep(20), 4_096)));
}

#[test]
fn an_engine_that_does_otherwise_is_found_out() {
    let text = "N (app (fn N (add v0 v0)) (subtract 9 (ms N (hd (cons 2 nil)))))";
    let differ = |step: u32| Err(format!("the engine and the program differ at step {step}"));
    // After hd, ms N, subtract and the application comes the sum: 14 in step 5.
    assert_eq!(ended(model_as_engine(), text, 4_096).map(|result| (result.end, result.steps)), Ok((0, 5)));
    fn another_sum(file: &[u8], limit: u32, first: &mut [u32], second: &mut [u32]) -> RecipeRun {
        let result = model_run(file, limit, first, second);
        first[0] += if first[0] == 17 + 256 * 14 { 256 } else { 0 };
        result
    }
    fn another_count(file: &[u8], limit: u32, first: &mut [u32], second: &mut [u32]) -> RecipeRun {
        let result = model_run(file, limit, first, second);
        let (calls, others) = (result.others, result.calls);
        RecipeRun { calls, others, ..result }
    }
    fn too_long(file: &[u8], limit: u32, first: &mut [u32], second: &mut [u32]) -> RecipeRun {
        RecipeRun { left: u32::MAX, ..model_run(file, limit, first, second) }
    }
    let with = |run: Run| Engine { run: Some(run), ..model_as_engine() };
    assert_eq!(ended(with(another_sum), text, 4_096), differ(5));
    // The first step is hd, an other.
    assert_eq!(ended(with(another_count), text, 4_096), differ(1));
    assert_eq!(ended(with(too_long), text, 4_096), differ(0));
    // A save that changes the number 9 shows in the term after the next step.
    fn another_number(declared: &[u32], term: &[u32], out: &mut [u8]) -> RecipeSaved {
        let changed: Vec<u32> =
            term.iter().map(|word| if *word == 17 + 256 * 9 { word + 256 } else { *word }).collect();
        model_save(declared, &changed, out)
    }
    let engine = Engine { save: Some(another_number as Save), ..model_as_engine() };
    assert_eq!(ended(engine, text, 4_096), differ(2));
}

#[test]
fn a_walk_of_a_refused_file_is_refused_as_a_run_is() {
    let refused = |text: &str, capacity| ended(model_as_engine(), text, capacity).expect_err("a refusal");
    assert!(refused("L 3", 4_096).starts_with("refused 7: "));
    assert!(refused("N (add 1 2)", 2).ends_with("  the term has 3 words, the buffers 2 words\n"));
    let without = Engine { save: None, ..model_as_engine() };
    assert_eq!(ended(without, "N 1", 4_096), Err("built without the engine; build with --features run".into()));
}

/// The origins of a term as places in the file, those of made words with a stroke.
fn origins(walk: &Walk) -> String {
    let told = |origin: &tools::recipe::Origin| format!("{}{}", origin.place, if origin.made { "'" } else { "" });
    walk.origins().iter().map(told).collect::<Vec<_>>().join(" ")
}

/// The origins of each term of a run.
fn all_origins(text: &str) -> Vec<String> {
    let mut walk = walk(&recipe(text), 4_096);
    let mut all = vec![origins(&walk)];
    while walk.due().is_some() && walk.step().map_err(said) == Ok(None) {
        all.push(origins(&walk));
    }
    all
}

#[test]
fn origins_follow_the_rules() {
    // Word 4 is the declared type. 5 app, 6 ms, 7 to, 8 N, 9 N, 10 fn, 11 v0, 12 the number 7.
    let wrapped = [
        "5 6 7 8 9 10 11 12",
        // (app (fn N (ms N (app (fn v0) (sm N v0)))) 7): what the boundary makes has its origin, the types their own.
        "5 6' 8 6' 9 6' 10 11 6' 8 6' 12",
        // (ms N (app (fn v0) (sm N 7)))
        "6' 9 6' 10 11 6' 8 12",
        // (ms N (app (fn v0) 7)): the number has crossed.
        "6' 9 6' 10 11 12'",
        "6' 9 12'",
        "12'",
    ];
    assert_eq!(all_origins("N (app (ms (N to N) (fn v0)) 7)"), wrapped);
    // 6 ms, 7 {, 8 N, 9 cons, 10 the number 1, 11 nil; a cons of the boundary's, its parts crossing each by itself.
    let list = ["6 7 8 9 10 11", "6' 6' 8 10 6' 7 8 11", "6' 10' 6' 7 8 11", "6' 10' 11' 8"];
    assert_eq!(all_origins("{N} (ms {N} (cons 1 nil))"), list);
    // 5 if0, 6 subtract, 7 and 8 its numbers, 9 the second part, 10 add, 11, 12.
    assert_eq!(
        all_origins("N (if0 (subtract 1 0) 5 (add 2 3))"),
        ["5 6 7 8 9 10 11 12", "5 6' 9 10 11 12", "10 11 12", "10'"]
    );
    // 5 hd, 6 tl, 7 nil, 8 N: the wrong of tl has a list's type, of which the N is nil's own.
    assert_eq!(all_origins("N (hd (tl (nil N)))"), ["5 6 7 8", "5 6' 6' 8"]);
    // 5 app, 6 fn, 7 N, 8 add, 9 and 10 v0, 11 the number 4: a copy twice.
    assert_eq!(all_origins("N (app (fn N (add v0 v0)) 4)"), ["5 6 7 8 9 10 11", "8 11 11", "8'"]);
}
