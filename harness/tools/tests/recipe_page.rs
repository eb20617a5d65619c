//! `recipe page` without a browser: what it prints, what is in the page and what is not, and that its data lead to the engine's
//! own words at every step, forwards and backwards.

use crate::common::paging::{data_of, paged, Out, Shown};
use crate::common::{printed, typed};
use model::file::bytes_of;
use model::rules::Rule;
use model::step::{turn, Step};
use model::{on_large_stack, Class};
use std::path::Path;
use tools::engine::RecipeRun;
use tools::make::{every_test, well_typed_file};
use tools::random::Random;
use tools::stand_in;

/// Document 01's wrapped function, applied: 8 words, 12, 8, 6, 3 and 1.
const WRAPPED: &[u8] = b"N (app (ms (N to N) (fn v0)) 7)";

/// The engine's result and its words after so many steps.
fn left(file: &[u8], limit: u32) -> (RecipeRun, Vec<u32>) {
    let (mut first, mut second) = (vec![0; 4_096], vec![0; 4_096]);
    let result = stand_in::run(file, limit, &mut first, &mut second);
    first.truncate(result.left as usize);
    (result, first)
}

/// What comes next at a term by the model: the node's place and words, and its rule or code as the page numbers them.
fn due(words: &[u32]) -> Option<(usize, usize, i64, usize)> {
    let term = model::read::read_ml(words, 0, usize::MAX).expect("a term");
    let turn = turn(&term)?;
    let rule = match turn.step() {
        Step::Next(rule, _) => rule as i64,
        Step::Raised(code) => -i64::from(code),
        Step::Value | Step::Stuck => panic!("a step is due"),
    };
    Some((turn.place(), turn.node.node().size(), rule, turn.class() as usize))
}

/// Follows the page of a file forwards and backwards. Answers with how many steps it shows.
fn follow(file: &[u8], to: u32) -> usize {
    let (page, _) = paged(file, &["--to", &to.to_string()]);
    assert_eq!(page.matches("</script>").count(), 2);
    let mut shown = Shown::new(data_of(&page));
    let end = left(file, to).0;
    assert_eq!(shown.last() as u32, end.steps);
    let mut counts = [0; 3];
    for limit in 0..=shown.last() {
        let (result, words) = left(file, limit as u32);
        assert_eq!(shown.term(), words, "step {limit}");
        assert_eq!(counts, [result.calls, result.conversions, result.others], "step {limit}");
        let next = shown.next();
        let told = next.as_ref().map(|step| (step.place, step.size, step.rule, step.class));
        assert_eq!(told, if words.is_empty() { None } else { due(&words) }, "step {limit}");
        if limit < shown.last() {
            counts[told.expect("a step").3] += 1;
            shown.forwards();
        }
    }
    for limit in (0..shown.last()).rev() {
        shown.backwards();
        assert_eq!(shown.term(), left(file, limit as u32).1, "back at step {limit}");
    }
    shown.last()
}

#[test]
fn the_data_lead_to_the_engines_words_of_every_recipe() {
    let folder = Path::new(env!("CARGO_MANIFEST_DIR")).join("../../recipes");
    let entries = std::fs::read_dir(folder).expect("the recipes").map(|entry| entry.expect("an entry").path());
    let files = entries.filter(|path| path.extension().is_some_and(|ending| ending == "bin"));
    let files: Vec<Vec<u8>> = files.map(|path| std::fs::read(path).expect("a file")).collect();
    let accepted = files.iter().filter(|file| on_large_stack(|| stand_in::check(file)) == 0);
    let steps: Vec<usize> = accepted.map(|file| on_large_stack(|| follow(file, 40))).collect();
    assert!(steps.len() >= 15 && steps.iter().sum::<usize>() > 60, "{steps:?}");
}

#[test]
fn the_data_lead_to_the_engines_words_of_random_recipes() {
    let steps = on_large_stack(|| {
        let files = (0..60).map(|index| well_typed_file(&mut Random::new(11, index)));
        let accepted = files.chain(every_test().into_iter().take(20)).filter(|file| stand_in::check(file) == 0);
        accepted.map(|file| follow(&file, 60)).sum::<usize>()
    });
    assert!(steps > 250, "{steps}");
}

#[test]
fn nothing_in_a_page_comes_from_elsewhere() {
    let recipes: [&[u8]; 4] = [WRAPPED, b"N (hd (nil N))", b"N (fix (fn N v0))", b"{L7} (nil L7)"];
    for recipe in recipes {
        let (page, _) = paged(recipe, &["--limit", "50"]);
        for outside in ["http:", "https:", "src=", "<link", "url(", "@import", "fetch(", "XMLHttpRequest", "//cdn"] {
            assert!(!page.contains(outside), "{outside}");
        }
        assert!(page.contains("default-src 'none'; style-src 'unsafe-inline'; script-src 'unsafe-inline'"));
    }
}

#[test]
fn tables_are_the_models() {
    let data = data_of(&paged(WRAPPED, &[]).0);
    let kinds = data.field("kinds").list();
    assert_eq!(kinds.len(), 33);
    let lambda = kinds.iter().find(|kind| kind.list()[0].number() == 18).expect("a lambda").list();
    let row = [lambda[1].text(), lambda[2].text(), lambda[3].list()[0].text(), lambda[4].text()];
    assert_eq!(row, ["M", "lambda", "fn", "TM"]);
    let test = kinds.iter().find(|kind| kind.list()[0].number() == 43).expect("a test").list();
    let tests: Vec<&str> = test[3].list().iter().map(|name| name.text()).collect();
    assert_eq!(tests, ["fun?", "list?", "null?", "num?"]);
    let rules: Vec<&str> = data.field("rules").list().iter().map(|rule| rule.text()).collect();
    assert_eq!(rules, Rule::ALL.map(Rule::name));
    let classes: Vec<&str> = data.field("classes").list().iter().map(|class| class.text()).collect();
    assert_eq!(classes, Class::ALL.map(Class::name));
}

#[test]
fn a_text_is_in_the_page_with_its_positions() {
    let data = data_of(&paged(b"N\n(add 2\n  3)", &[]).0);
    assert_eq!(data.field("text").text(), "N\n(add 2\n  3)");
    // N, add, 2, 3: lines and columns; the words of the term stand behind the header and the type, from word 5.
    assert_eq!(data.field("positions").numbers(), [1, 1, 2, 1, 2, 6, 3, 3]);
    assert_eq!(data.field("first").numbers(), [21, 5, 17 + 512, 6, 17 + 768, 7]);
    let file = data_of(&paged(&bytes_of(&[1, 4, 3, 5, 1, 21, 529, 785]), &[]).0);
    assert_eq!(file.field("text"), &crate::common::json::Json::Nothing);
    assert_eq!(file.field("positions").numbers(), []);
}

#[test]
fn what_comes_from_outside_cannot_end_the_data_or_begin_a_tag() {
    let comment = "; </script><script>alert(1)</script> <!-- & ' \" \\ {{script}} {{run}} \u{2028} \u{1f600} ]]>";
    let text = format!("{comment}\nN (add 2 3)");
    let (page, _) = paged(text.as_bytes(), &[]);
    assert_eq!(data_of(&page).field("text").text(), text);
    assert_eq!((page.matches("</script").count(), page.matches("<script").count()), (2, 2));
    assert!(!page.contains("<!--") && !page.contains("alert(1)<"));
    let folder = std::env::temp_dir().join(format!("page-named-{}", std::process::id()));
    std::fs::create_dir_all(&folder).expect("a folder");
    let [recipe, out] = ["<b>&\"'.txt", "out.html"].map(|name| folder.join(name).display().to_string());
    std::fs::write(&recipe, "N 1").expect("a recipe");
    assert_eq!(typed(&["page", &recipe, "-o", &out], b"").0, 0);
    let page = std::fs::read_to_string(&out).expect("the page");
    assert!(page.contains("<title>The run of &lt;b&gt;&amp;&quot;&#39;.txt</title>"), "{page}");
    assert!(!page.contains(&folder.display().to_string()));
    std::fs::remove_dir_all(folder).expect("the folder is removed");
}

#[test]
fn the_end_is_told_as_run_tells_it() {
    let recipes: [(&[u8], &[&str]); 4] =
        [(WRAPPED, &[]), (WRAPPED, &["--limit", "4"]), (WRAPPED, &["--words", "11"]), (b"N (hd (nil N))", &[])];
    let ends = ["value after 5 steps", "spent after 4 steps", "full after 0 steps", "error 4 after 2 steps"];
    for ((recipe, options), end) in recipes.into_iter().zip(ends) {
        let run = printed(&[&["run"], options].concat(), recipe).1;
        // An error leaves no term, and it is said where it was made; behind the other ends stands the term left.
        let lines = if end.starts_with("error") { 5 } else { 2 };
        let told: Vec<&str> = run.lines().take(lines).collect();
        assert!(told.len() == lines && (lines == 2 || run.lines().count() == lines), "{run}");
        let shown = format!(">{}\n</p>", told.join("\n")).replace('\'', "&#39;");
        let (page, _) = paged(recipe, options);
        assert!(told[0].starts_with(end) && page.contains(&shown), "{run}");
    }
}

#[test]
fn where_it_stops_is_said() {
    assert_eq!(paged(WRAPPED, &[]).1, "OUT shows steps 0 to 5\n");
    let (page, said) = paged(WRAPPED, &["--to", "2"]);
    assert_eq!(said, "OUT shows steps 0 to 2 of 5; --to shows more\n");
    assert!(page.contains(">This page shows steps 0 to 2 of 5; --to shows more.</p>"));
    assert_eq!(paged(b"N (fix (fn N v0))", &[]).1, "OUT shows steps 0 to 2000 of 1000000; --to shows more\n");
}

#[test]
fn a_page_that_cannot_be_made_leaves_what_is_there() {
    let out = Out::new("html");
    std::fs::write(&out.0, "before").expect("a file");
    assert_eq!(typed(&["page", "-o", &out.name()], b"L 3").0, 1);
    let said = "recipe: line 1, column 9: the text ends, and the ( of line 1, column 3 is not closed\n";
    assert_eq!(typed(&["page", "-o", &out.name()], b"N (add 2"), (2, Vec::new(), said.into()));
    assert_eq!(std::fs::read_to_string(&out.0).expect("the file"), "before");
    let said = "recipe: -o is due, with the name of the page to write\n";
    assert_eq!(typed(&["page"], b"N 1"), (2, Vec::new(), said.into()));
    let said = "recipe: -o needs the name of a file to write\n";
    assert_eq!(typed(&["page", "-o"], b"N 1"), (2, Vec::new(), said.into()));
    let (status, _, said) = typed(&["page", "-o", "no such folder/run.html"], b"N 1");
    assert!(status == 2 && said.starts_with("recipe: cannot write no such folder/run.html: "), "{said}");
}

#[test]
fn a_page_of_many_steps_stays_small() {
    // A count-down from 300 that adds what it counts: the term grows to some hundred words, and the run has over 2,000 steps.
    let text = b"N (app (fix (fn (N to N) (fn N (if0 v0 0 (add v0 (app v1 (subtract v0 1))))))) 300)";
    let sizes = ["0", "100", "2000"].map(|to| paged(text, &["--to", to]).0.len());
    assert!(sizes[1] - sizes[0] < 10_000 && sizes[2] - sizes[0] < 200_000, "{sizes:?}");
}
