//! What the tests of `recipe page` share: a page written, and a reader of its data.

use super::json::Json;
use super::typed;
use model::node::Node;
use model::read::read_ml;
use model::text::{pretty, Style};
use std::path::PathBuf;
use std::sync::atomic::{AtomicU32, Ordering};

/// A name of its own for a file, which is removed when it is done with.
pub struct Out(pub PathBuf);

impl Out {
    pub fn new(ending: &str) -> Out {
        static COUNT: AtomicU32 = AtomicU32::new(0);
        let number = COUNT.fetch_add(1, Ordering::Relaxed);
        Out(std::env::temp_dir().join(format!("page-{}-{number}.{ending}", std::process::id())))
    }

    pub fn name(&self) -> String {
        self.0.display().to_string()
    }
}

impl Drop for Out {
    fn drop(&mut self) {
        let _ = std::fs::remove_file(&self.0);
    }
}

/// What `recipe page` of a recipe writes and prints.
pub fn paged(recipe: &[u8], options: &[&str]) -> (String, String) {
    let out = Out::new("html");
    let (status, printed, errors) = typed(&[&["page", "-o", &out.name()], options].concat(), recipe);
    assert_eq!((status, errors.as_str()), (0, ""));
    let printed = String::from_utf8(printed).expect("text").replace(&out.name(), "OUT");
    (std::fs::read_to_string(&out.0).expect("the page"), printed)
}

/// The data in a page.
pub fn data_of(page: &str) -> Json {
    let (_, behind) = page.split_once("<script type=\"application/json\" id=\"run\">").expect("the data");
    Json::read(behind.split_once("</script>").expect("the data's end").0)
}

/// The run in a page, at a step: each word with where it comes from, and what the steps so far have removed.
pub struct Shown {
    pub data: Json,
    pub words: Vec<(u32, usize)>,
    removed: Vec<(usize, usize, Vec<(u32, usize)>)>,
}

/// The step that comes next: the node in turn, its words, its rule and class by their numbers, and the pieces put in.
pub struct ShownStep {
    pub place: usize,
    pub size: usize,
    pub rule: i64,
    pub class: usize,
    pieces: Vec<i64>,
}

impl Shown {
    pub fn new(data: Json) -> Shown {
        let words = pairs(&data.field("first").numbers());
        Shown { data, words, removed: Vec::new() }
    }

    /// How many steps are made.
    pub fn step(&self) -> usize {
        self.removed.len()
    }

    /// The last step of the page.
    pub fn last(&self) -> usize {
        self.data.field("steps").list().len()
    }

    /// The step that comes next, if one does.
    pub fn next(&self) -> Option<ShownStep> {
        let step = self.data.field("steps").list().get(self.step()).unwrap_or(self.data.field("next"));
        let Json::List(parts) = step else { return None };
        let [place, size, rule, class] = [0, 1, 2, 3].map(|at: usize| parts[at].number());
        let pieces = parts[4].numbers();
        Some(ShownStep { place: place as usize, size: size as usize, rule, class: class as usize, pieces })
    }

    /// Makes the next step by what the page has of it.
    pub fn forwards(&mut self) {
        let step = self.next().expect("a step");
        let (from, count) = if step.rule < 0 { (0, self.words.len()) } else { (step.place, step.size) };
        let node = self.words[from..from + count].to_vec();
        let mut put = Vec::new();
        for piece in step.pieces.chunks(2) {
            match piece[0] {
                word if word >= 0 => put.push((word as u32, piece[1] as usize)),
                first => put.extend_from_slice(&node[(-1 - first) as usize..(piece[1] - 1 - first) as usize]),
            }
        }
        self.removed.push((from, put.len(), node));
        self.words.splice(from..from + count, put);
    }

    /// Takes the last step back.
    pub fn backwards(&mut self) {
        let (from, count, node) = self.removed.pop().expect("a step was made");
        self.words.splice(from..from + count, node);
    }

    /// Goes to a step, forwards or backwards.
    pub fn go_to(&mut self, step: usize) {
        while self.step() < step {
            self.forwards();
        }
        while self.step() > step {
            self.backwards();
        }
    }

    /// The term's text as the program writes it, with the text's own names, the node that starts at a word in double brackets.
    pub fn text(&self, marked: Option<usize>) -> String {
        let named = |from: usize| match self.data.field("names").field(&from.to_string()) {
            Json::Text(name) => Some(name.clone()),
            _ => None,
        };
        let names: Vec<Option<String>> = self.words.iter().map(|word| named(word.1)).collect();
        let term = read_ml(&self.term(), 0, usize::MAX).expect("a term");
        pretty(Node::Ml(&term), &Style { width: usize::MAX, marked, names: &names, ..Style::PLAIN })
    }

    /// The words alone.
    pub fn term(&self) -> Vec<u32> {
        self.words.iter().map(|word| word.0).collect()
    }
}

fn pairs(numbers: &[i64]) -> Vec<(u32, usize)> {
    numbers.chunks(2).map(|pair| (pair[0] as u32, pair[1] as usize)).collect()
}
