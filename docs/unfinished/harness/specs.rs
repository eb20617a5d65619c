//! What stands in the rooms' specs/, and which of its definitions a contract cites.

use std::collections::{BTreeMap, BTreeSet};
use std::path::{Path, PathBuf};

/// A definition: its module and its name. A module is written `room/Module`, for crates/room/specs/Module.antt.
pub type Definition = (String, String);

/// By which words a text may cite which names, and which modules it has under another name.
#[derive(Default)]
struct Scope {
    words: BTreeMap<String, BTreeSet<Definition>>,
    modules: BTreeMap<String, String>,
}

impl Scope {
    /// What the `use` lines of a text bring. A type that is declared in src/ is no definition of specs/.
    fn of(text: &str) -> Scope {
        let mut scope = Scope::default();
        for line in text.lines() {
            let Some(path) = line.trim_start_matches("ghost ").strip_prefix("use Rattle·") else { continue };
            let (room, path) = path.trim_end_matches(';').split_once(".specs.").expect("a module of specs/");
            let module = |name| format!("{}/{name}", room.trim_end_matches("·specs"));
            match (path.split_once(".{"), path.split_once(" as ")) {
                _ if path.starts_with("declared.") => {}
                (Some((of, names)), _) => names.trim_end_matches('}').split(", ").for_each(|name| {
                    scope.bring(name, (module(of), name.to_string()));
                }),
                (_, Some((of, other))) => drop(scope.modules.insert(other.to_string(), module(of))),
                _ => panic!("neither names in braces nor `as`: {line}"),
            }
        }
        scope
    }

    /// A name is cited by itself, and `_⟶_` by `⟶` as well: `e ⟶ r`.
    fn bring(&mut self, name: &str, definition: Definition) {
        for word in parts(name).chain([name]) {
            self.words.entry(word.to_string()).or_default().insert(definition.clone());
        }
    }
}

/// The parts of a name between its blanks: `⊢` and `⇒` of `_⊢_⇒_`; of most names there is one, the name.
fn parts(name: &str) -> impl Iterator<Item = &str> {
    name.split('_').filter(|part| !part.is_empty())
}

/// A text without its comments, its blank lines and what stands in quotation marks.
fn plain(text: &str) -> String {
    let comment = |line: &str| ["--", "//"].iter().any(|mark| line.trim_start().starts_with(mark));
    let lines = text.lines().filter(|line| !line.trim().is_empty() && !comment(line));
    let unquoted = lines.map(|line| line.split('"').step_by(2).collect::<String>());
    unquoted.map(|line| line.split(" --").next().expect("a line").to_string() + "\n").collect()
}

/// The kind and the name of what a line in column 0 begins: `abbrev pub name : ..`, `pub record Name ..`. A clause begins
/// nothing.
fn begun(line: &str) -> Option<(&str, &str)> {
    let mut words = line.split_whitespace().skip_while(|word| ["abbrev", "unfoldable", "pub"].contains(word));
    match words.next().filter(|_| !line.starts_with(' '))? {
        kind @ ("record" | "data") => Some((kind, words.next()?)),
        name => words.find(|word| !word.starts_with('{')).filter(|word| *word == ":").map(|_| ("function", name)),
    }
}

/// The names that a line of a record or of a data type declares, by which it cites nothing, and the rest of the line.
fn declared<'a>(kind: &str, line: &'a str) -> (&'a str, &'a str) {
    let is_row = kind != "function" && line.starts_with("  ") && !line.starts_with("   ");
    line.split_once(" :").filter(|_| is_row).unwrap_or(("", line))
}

/// What stands in specs/.
#[derive(Default)]
pub struct Specs {
    texts: BTreeMap<Definition, String>,
    /// What a name stands for: its definition, or the types of which it is a constructor.
    meant: BTreeMap<Definition, BTreeSet<Definition>>,
    scopes: BTreeMap<String, Scope>,
}

impl Specs {
    /// Of all rooms. Lib.antt defines nothing.
    pub fn of_all_rooms() -> Specs {
        let mut specs = Specs::default();
        for (room, path, text) in files_of_rooms("specs").iter().filter(|(_, path, _)| path != "Lib") {
            specs.add(&format!("{room}/{}", path.replace('/', ".")), text);
        }
        specs
    }

    /// One more module: each definition with its clauses or its fields, and what they may cite.
    pub fn add(&mut self, module: &str, text: &str) {
        let (mut scope, text) = (Scope::of(text), plain(text));
        let passed_over = |line: &&str| ["use ", "infix", "unfolding "].iter().any(|word| line.starts_with(word));
        let (mut kind, mut last) = ("", Definition::default());
        for line in text.lines().filter(|line| !passed_over(line)) {
            let begins = begun(line);
            if let Some((begun, name)) = begins {
                (kind, last) = (begun, (module.to_string(), name.to_string()));
            }
            let clause = || parts(&last.1).any(|part| line.split_whitespace().any(|word| word == part));
            assert!(line.starts_with(' ') || begins.is_some() || clause(), "{module}: begins what? {line}");
            let (names, rest) = declared(kind, line);
            let constructors = names.split_whitespace().filter(|_| kind == "data");
            for name in constructors.chain(begins.map(|(_, name)| name)) {
                let named = (module.to_string(), name.to_string());
                scope.bring(name, named.clone());
                self.meant.entry(named).or_default().insert(last.clone());
            }
            *self.texts.entry(last.clone()).or_default() += &format!("{rest}\n");
        }
        self.scopes.insert(module.to_string(), scope);
    }

    /// All names that a module defines.
    pub fn names(&self, module: &str) -> BTreeSet<String> {
        self.texts.keys().filter(|definition| definition.0 == module).map(|definition| definition.1.clone()).collect()
    }

    /// What the contracts in a source cite, and what that cites, to the last. A contract may have a name: `ensures words { .. }`.
    pub fn cited(&self, source: &str) -> BTreeSet<Definition> {
        let (scope, source) = (Scope::of(source), plain(source));
        let contracts = source.split("ensures").skip(1).filter_map(|rest| rest.split("\n{").next()?.split_once('{'));
        let mut all: BTreeSet<Definition> = contracts.flat_map(|(_, text)| self.cites(text, &scope)).collect();
        let mut rest: Vec<Definition> = all.iter().cloned().collect();
        while let Some(next) = rest.pop() {
            let found = self.cites(&self.texts[&next], &self.scopes[&next.0]);
            rest.extend(found.into_iter().filter(|definition| all.insert(definition.clone())));
        }
        all
    }

    /// The definitions that a text cites. Neither a field after a dot (`x .left`) nor one that is given (`{ left = .. }`) is
    /// a citation. A local is one if a definition in that scope has its name: so these may be too many, and never too few.
    fn cites(&self, text: &str, scope: &Scope) -> BTreeSet<Definition> {
        let spaced = "(){}[];,".chars().fold(text.to_string(), |text, mark| text.replace(mark, &format!(" {mark} ")));
        let words: Vec<&str> = [""].into_iter().chain(spaced.split_whitespace()).chain([""]).collect();
        let given = |at: &[&str]| ["{", ";"].contains(&at[0]) && at[2] == "=";
        let citing = words.windows(3).filter(|at| !at[1].starts_with('.') && !given(at));
        citing.flat_map(|at| self.meant_by(at[1].trim_end_matches('.'), scope)).collect()
    }

    /// What a word stands for in a scope: `name`, or `other.name` of a module under another name.
    fn meant_by(&self, word: &str, scope: &Scope) -> BTreeSet<Definition> {
        let names = match word.split_once('.') {
            Some((other, name)) => {
                scope.modules.get(other).map(|of| (of.clone(), name.to_string())).into_iter().collect()
            }
            None => scope.words.get(word).cloned().unwrap_or_default(),
        };
        let meant = |name| self.meant.get(name).unwrap_or_else(|| panic!("{name:?} was not found in specs/"));
        names.iter().flat_map(meant).cloned().collect()
    }
}

/// The files in a folder of every room, in order: the room, the path in that folder without its ending, and the text.
pub fn files_of_rooms(folder: &str) -> Vec<(String, String, String)> {
    let rooms = Path::new(env!("CARGO_MANIFEST_DIR")).join("../../crates");
    let text = |path: &Path| path.to_str().expect("a path that is text").to_string();
    let of_room = |room: PathBuf| {
        let top = room.join(folder);
        let name = text(Path::new(room.file_name().expect("a room")));
        let path = |file: &Path| text(&file.strip_prefix(&top).expect("a file in it").with_extension(""));
        let read = |file: &Path| std::fs::read_to_string(file).expect("text");
        files(&top).iter().map(|file| (name.clone(), path(file), read(file))).collect::<Vec<_>>()
    };
    let entries = std::fs::read_dir(rooms).expect("the rooms").map(|entry| entry.expect("a room").path());
    entries.flat_map(of_room).collect::<BTreeSet<_>>().into_iter().collect()
}

/// The files of a folder and of those in it, if there is such a folder.
fn files(folder: &Path) -> Vec<PathBuf> {
    let entries = std::fs::read_dir(folder).into_iter().flatten().map(|entry| entry.expect("an entry").path());
    entries.flat_map(|path| if path.is_dir() { files(&path) } else { vec![path] }).collect()
}
