//! The page of a run in a real browser, where there is one: clicked through forwards and backwards, and what it shows held
//! against the engine's own answers. With the feature `run` that is the engine, else the model in its place.

mod common;

use common::browser::{chromium, Browser};
use common::json::Json;
use common::paging::{data_of, Out, Shown};
use common::{model_as_engine, typed_by};
use model::on_large_stack;
use model::step::{turn, Step};
use std::time::Instant;
use tools::engine::RecipeRun;
use tools::output::say;
use tools::recipe::Engine;

/// The functions and the boundary of the picture in docs/: names, a list, a number that is tested and a script's own code.
const CURVES: &str = "; A <curve> & a trim.
{N}
(let (lime (N to N)
       (ms (N to N) (fn (pulses) (if0 (num? pulses) (add pulses (add pulses 1)) (wrong 300)))))
  (let (trim (N to N) (fn (pulses N) (subtract pulses 3)))
    {(app lime (app trim 40)) (app trim 12)}))
";

/// The keys that a page knows, with the numbers that browsers have for them.
const KEYS: [(&str, u32); 4] = [("End", 35), ("Home", 36), ("ArrowLeft", 37), ("ArrowRight", 39)];

/// The engine, or the model in its place.
fn engine() -> Engine {
    let linked = Engine::linked();
    if linked.run.is_some() {
        linked
    } else {
        model_as_engine()
    }
}

/// A page in the browser, with the file that it is of.
struct Opened<'a> {
    browser: &'a mut Browser,
    file: Vec<u8>,
    shown: Shown,
    compared: usize,
}

impl<'a> Opened<'a> {
    /// Writes the page of a text and loads it.
    fn new(browser: &'a mut Browser, text: &str, options: &[&str]) -> Opened<'a> {
        let (out, mut printed, mut errors) = (Out::new("html"), Vec::new(), Vec::new());
        let name = out.name();
        let words = [&["page", "-o", &name], options].concat();
        let status = typed_by(engine(), &words, text.as_bytes(), &mut printed, &mut errors);
        assert_eq!((status, String::from_utf8_lossy(&errors).as_ref()), (0, ""));
        let page = std::fs::read_to_string(&out.0).expect("the page");
        browser.load(&out.0);
        let file = tools::make::file_of_text(text);
        Opened { browser, file, shown: Shown::new(data_of(&page)), compared: 0 }
    }

    /// What stands in an element of the page.
    fn text(&mut self, id: &str) -> String {
        self.browser.look(&format!("document.getElementById('{id}').textContent")).text().into()
    }

    /// The step that the page says it is at.
    fn step(&mut self) -> usize {
        self.text("step").replace(',', "").parse().expect("a step")
    }

    /// Compares all that is shown with the engine's answer after as many steps.
    fn compare(&mut self, step: usize) {
        assert_eq!(self.step(), step);
        let (result, words) = left(&self.file, step as u32);
        self.shown.go_to(step);
        assert_eq!(self.shown.term(), words, "step {step}");
        let due = due(&words);
        let text = if words.is_empty() { String::new() } else { self.shown.text(due.place) };
        assert_eq!(self.text("flat"), text, "step {step}");
        assert_eq!(self.text("rule"), due.rule, "step {step}");
        assert_eq!(self.text("class"), due.class, "step {step}");
        let size = words.len();
        assert_eq!(self.text("size"), format!("{size} word{}", if size == 1 { "" } else { "s" }), "step {step}");
        let counts = [0, 1, 2].map(|at| self.text(&format!("count{at}")));
        assert_eq!(counts, [result.calls, result.conversions, result.others].map(|count| count.to_string()));
        let marked = "[...document.querySelectorAll('#tree .turn')].map((row) => Number(row.dataset.place))";
        let places: Vec<i64> = due.place.iter().map(|place| *place as i64).collect();
        assert_eq!(self.browser.look(marked).numbers(), places, "step {step}");
        assert_eq!(self.browser.look("document.getElementById('slider').value"), Json::Text(step.to_string()));
        assert_eq!(self.browser.look("location.hash"), Json::Text(format!("#{step}")));
        self.compare_source(step);
        self.compared += 1;
    }

    /// Compares the place in the text that is marked with where the page's data say the node in turn comes from.
    fn compare_source(&mut self, step: usize) {
        let next = self.shown.next().filter(|_| !self.shown.words.is_empty());
        let positions = self.shown.data.field("positions").numbers();
        let told = next.map_or(String::new(), |next| {
            let at = 2 * (self.shown.words[next.place].1 - 4);
            format!("line {}, column {}", positions[at], positions[at + 1])
        });
        assert_eq!(self.text("from"), told, "step {step}");
        assert_eq!(self.text("text"), self.shown.data.field("text").text());
    }

    /// The page has thrown nothing and asked for nothing.
    fn quiet(&mut self) {
        assert_eq!(self.browser.look("JSON.stringify(faults)"), Json::Text("[]".into()));
        assert_eq!(self.browser.look("performance.getEntriesByType('resource').length"), Json::Number(0.0));
    }
}

/// The engine's result and its words after so many steps.
fn left(file: &[u8], limit: u32) -> (RecipeRun, Vec<u32>) {
    let (mut first, mut second) = (vec![0; 4_096], vec![0; 4_096]);
    let run = engine().run.expect("a run");
    let result = on_large_stack(|| run(file, limit, &mut first, &mut second));
    first.truncate(result.left as usize);
    (result, first)
}

/// What is due on the page for a term.
struct Due {
    rule: String,
    class: String,
    place: Option<usize>,
}

fn due(words: &[u32]) -> Due {
    let ended = |rule: &str| Due { rule: rule.into(), class: String::new(), place: None };
    if words.is_empty() {
        return ended("the run has ended");
    }
    let term = model::read::read_ml(words, 0, usize::MAX).expect("a term");
    let Some(turn) = turn(&term) else { return ended("the run has come to its value") };
    let rule = match turn.step() {
        Step::Next(rule, _) => rule.name().to_string(),
        Step::Raised(code) => format!("wrong {code} ends the run"),
        Step::Value | Step::Stuck => panic!("a step is due"),
    };
    Due { rule, class: turn.class().name().into(), place: Some(turn.place()) }
}

/// Forwards by the button to the end, backwards, by keys, by the slider and by clicks in both plots.
fn clicked_through(browser: &mut Browser) -> usize {
    let mut page = Opened::new(browser, CURVES, &[]);
    let last = page.shown.last();
    assert_eq!(last, 15);
    page.compare(0);
    for step in 1..=last {
        page.browser.click("#forward");
        page.compare(step);
    }
    for step in (last - 4..last).rev() {
        page.browser.click("#back");
        page.compare(step);
    }
    let steps = [0, 1, 2, 1, last, last - 1];
    for (key, step) in ["Home", "ArrowRight", "ArrowRight", "ArrowLeft", "End", "ArrowLeft"].iter().zip(steps) {
        let number = KEYS.iter().find(|known| known.0 == *key).expect("a key").1;
        page.browser.press(key, number);
        page.compare(step);
    }
    page.browser.click("#first");
    page.compare(0);
    page.browser.click("#last");
    page.compare(last);
    slid(&mut page, last);
    for (plot, step) in [("sizes", 4), ("counts", 11), ("sizes", 0), ("counts", last)] {
        let width = page.browser.look(&format!("document.getElementById('{plot}').clientWidth")).number() as f64;
        // The plot's edges are 52 on the left and 14 on the right.
        let across = (52.0 + (width - 66.0) * step as f64 / last as f64) / width;
        page.browser.click_at(&format!("#{plot}"), across);
        page.compare(step);
    }
    page.quiet();
    page.compared
}

/// A click in the middle of the slider, and its own keys.
fn slid(page: &mut Opened<'_>, last: usize) {
    page.browser.click("#slider");
    let step = page.step();
    assert!((last / 2..=last / 2 + 1).contains(&step), "{step}");
    page.compare(step);
    page.browser.press("ArrowRight", 39);
    page.compare(step + 1);
    page.browser.press("ArrowLeft", 37);
    page.compare(step);
}

/// An error leaves no term, a full run and a stopped page a node in turn that makes no step.
fn ended(browser: &mut Browser) -> usize {
    let mut page = Opened::new(browser, "N (hd (nil N))", &[]);
    page.browser.click("#last");
    page.compare(2);
    assert_eq!(page.text("tree"), "No term is left: the run has ended with an error.");
    assert_eq!(page.text("end").lines().next(), Some("error 4 after 2 steps: an empty list"));
    page.browser.click("#back");
    page.compare(1);
    page.quiet();
    let mut compared = page.compared;
    let mut page = Opened::new(browser, "N (app (ms (N to N) (fn v0)) 7)", &["--to", "3"]);
    page.browser.click("#last");
    page.compare(3);
    assert_eq!(page.text("shown"), "This page shows steps 0 to 3 of 5; --to shows more.");
    page.quiet();
    compared += page.compared;
    compared
}

/// Names that a text gives are used, made others where one is in use already, and x, y, z where it gives none.
fn named(browser: &mut Browser) -> usize {
    let text = "N (app (fn (dose N) (app (fn (dose N) (app (fn N (add v0 dose)) 1)) dose)) 5)";
    let mut page = Opened::new(browser, text, &[]);
    let first = "[[(app (fn (dose N) (app (fn (dose1 N) (app (fn (z N) (add z dose1)) 1)) dose)) 5)]]";
    assert_eq!(page.text("flat"), first);
    page.compare(0);
    page.browser.click("#forward");
    assert_eq!(page.text("flat"), "[[(app (fn (dose N) (app (fn (y N) (add y dose)) 1)) 5)]]");
    page.compare(1);
    page.quiet();
    page.compared
}

/// A large part is folded and opens by a click, the way to the node in turn is open however deep it is, and a page fits a
/// narrow window.
fn folded(browser: &mut Browser) {
    let items = "(cons 7 ".repeat(150) + "(nil N)" + &")".repeat(150);
    let deep = "(add 1 ".repeat(120) + "(hd v0)" + &")".repeat(120);
    let text = format!("N (app (fn {{N}} {deep}) {items})");
    let mut page = Opened::new(browser, &text, &["--to", "3"]);
    page.compare(0);
    let rows = "document.querySelectorAll('#tree .row').length";
    // The application, and its two parts, both folded: a function, its type and a term of 245 words, and a list of 302.
    assert_eq!(page.browser.look(rows), Json::Number(3.0));
    let much = "[...document.querySelectorAll('#tree .much')].map((row) => row.textContent).join()";
    assert_eq!(page.browser.look(much), Json::Text("… 245 words,… 302 words".into()));
    page.browser.click("#tree .row:last-child .fold");
    // Its 150 items are rows now.
    assert_eq!(page.browser.look(rows), Json::Number(153.0));
    page.browser.click("#tree .row:nth-child(3) .fold");
    assert_eq!(page.browser.look(rows), Json::Number(3.0));
    page.browser.click("#all");
    // The application, the function, 118 adds and their 1, the last two adds in one row, the list and its 150 items.
    assert_eq!(page.browser.look(rows), Json::Number(390.0));
    page.browser.click("#all");
    page.browser.click("#forward");
    page.compare(1);
    // 120 adds and their 1, the node in turn, and the list in it.
    assert_eq!(page.browser.look(rows), Json::Number(242.0));
    for width in [1200, 700, 320] {
        page.browser.resize(width, 700);
        let across = page.browser.look("document.documentElement.scrollWidth").number();
        assert!(across <= i64::from(width), "{across} of {width}");
    }
    page.browser.resize(1200, 900);
    page.quiet();
}

#[test]
fn a_page_shows_what_the_engine_answers() {
    let Some(program) = chromium() else {
        say("the browser's test is passed over: no Chromium here");
        return;
    };
    let start = Instant::now();
    let mut browser = Browser::start(&program);
    let compared = clicked_through(&mut browser) + ended(&mut browser) + named(&mut browser);
    folded(&mut browser);
    say(format!(
        "the browser showed {compared} steps as the engine answers, in {:.1} s",
        start.elapsed().as_secs_f32()
    ));
}
