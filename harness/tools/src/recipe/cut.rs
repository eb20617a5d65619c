//! A term's text cut to fit: the parts that are left out are written `..`.

use super::input::Input;
use super::walk::Origin;
use model::node::Node;
use model::text::{pretty, Style};

/// A text in its parentheses, braces and double brackets.
pub enum Piece<'a> {
    Atom(&'a str),
    Group { open: &'a str, parts: Vec<Piece<'a>> },
}

/// What a group may open with, and what closes it.
const PAIRS: [(&str, &str); 3] = [("[[", "]]"), ("(", ")"), ("{", "}")];

/// How deep a piece is written at most.
pub const WHOLE: usize = usize::MAX;

/// The text of the words of a term on one line, by the names that their writer gave, with the node at a place marked.
pub fn line(words: &[u32], names: &[Option<String>], marked: Option<usize>) -> Result<String, String> {
    let style = Style { width: usize::MAX, names, marked, ..Style::PLAIN };
    Ok(pretty(Node::Ml(&super::run::term(words)?), &style))
}

/// The names of the words of a term, by their origins.
pub fn names(input: &Input, origins: &[Origin]) -> Vec<Option<String>> {
    let Some(parsed) = &input.text else { return Vec::new() };
    let named = |origin: &Origin| parsed.names.get(origin.place.checked_sub(4)?)?.clone().filter(|_| !origin.made);
    origins.iter().map(named).collect()
}

/// Reads a text into pieces; what is no group is an atom.
pub fn read(text: &str) -> Vec<Piece<'_>> {
    let mut open: Vec<(&str, Vec<Piece<'_>>)> = vec![("", Vec::new())];
    let mut rest = text.trim_start();
    while !rest.is_empty() {
        let opens = PAIRS.iter().find(|pair| rest.starts_with(pair.0));
        let closes = PAIRS.iter().find(|pair| rest.starts_with(pair.1));
        let length = opens.or(closes).map_or_else(|| atom(rest), |pair| pair.0.len());
        if opens.is_some() {
            open.push((&rest[..length], Vec::new()));
        } else {
            let closed = closes.and_then(|_| if open.len() > 1 { open.pop() } else { None });
            let piece = closed.map_or(Piece::Atom(&rest[..length]), |(open, parts)| Piece::Group { open, parts });
            open.last_mut().expect("the outermost is never closed").1.push(piece);
        }
        rest = rest[length..].trim_start();
    }
    open.swap_remove(0).1
}

/// How long the atom is that a text starts with.
fn atom(text: &str) -> usize {
    let ends = |at: &usize| text[*at..].starts_with(' ') || PAIRS.iter().any(|pair| text[*at..].starts_with(pair.1));
    let places = text.char_indices().map(|(at, _)| at).skip(1);
    places.into_iter().find(ends).unwrap_or(text.len())
}

impl Piece<'_> {
    /// The piece with so many levels of groups; what lies deeper is cut. A mark is no level.
    pub fn put(&self, levels: usize, text: &mut String) {
        match self {
            Piece::Atom(atom) => text.push_str(atom),
            Piece::Group { open, .. } if levels == 0 && *open != "[[" => text.push_str(".."),
            Piece::Group { open, parts } => {
                text.push_str(open);
                let inner = if *open == "[[" { levels } else { levels - 1 };
                // A function's argument stays, its name and a level of its type.
                let is_function = matches!(parts[..], [Piece::Atom("fn"), _, _]);
                for (index, part) in parts.iter().enumerate() {
                    text.push_str(if index == 0 { "" } else { " " });
                    part.put(if is_function && index == 1 { inner.max(1) } else { inner }, text);
                }
                text.push_str(closing(open));
            }
        }
    }

    /// The piece with as many levels as fit into so many columns.
    pub fn fitted(&self, width: usize) -> String {
        let at = |levels| {
            let mut text = String::new();
            self.put(levels, &mut text);
            text
        };
        let whole = at(WHOLE);
        if whole.chars().count() <= width {
            return whole;
        }
        let mut fitting = "..".to_string();
        for levels in 1.. {
            let text = at(levels);
            if text.chars().count() > width {
                break;
            }
            fitting = text;
        }
        fitting
    }

    /// Puts the way from this piece to the one that is marked, the marked one last, and answers whether there is one.
    fn find<'b>(&'b self, way: &mut Vec<&'b Self>) -> bool {
        let Piece::Group { open, parts } = self else { return false };
        way.push(self);
        if *open == "[[" || parts.iter().any(|part| part.find(way)) {
            return true;
        }
        way.pop();
        false
    }
}

/// The way from the first piece to the one that is marked, the marked one last; empty where there is none.
fn way<'a, 'b>(pieces: &'b [Piece<'a>]) -> Vec<&'b Piece<'a>> {
    let mut way = Vec::new();
    pieces.iter().any(|piece| piece.find(&mut way));
    way
}

/// The marked node of a text, without its mark, with as many levels as fit into so many columns.
pub fn marked(text: &str, width: usize) -> String {
    let pieces = read(text);
    match way(&pieces)[..] {
        [.., Piece::Group { parts, .. }] => parts.first().map_or(String::new(), |part| part.fitted(width)),
        _ => String::new(),
    }
}

/// Lines that a term has at most where it is cut, and the nodes shown around the marked one.
const LINES: usize = 3;
const AROUND: usize = 2;

/// A text of one line in lines of so many columns: whole where one line holds it, else the marked node with as many levels as fit
/// into three lines, then with as many nodes around it.
pub fn view(text: &str, width: usize) -> Vec<String> {
    let pieces = read(text);
    let way = way(&pieces);
    if way.is_empty() || text.chars().count() <= width {
        return wrapped(text, width);
    }
    let fits = |around: usize, levels: usize| {
        let lines = wrapped(&around_marked(&way, around, levels), width);
        (lines.len() <= LINES).then_some(lines)
    };
    let deepest = (1..=DEEP).take_while(|levels| fits(0, *levels).is_some()).last().unwrap_or(1);
    let levels = if fits(0, WHOLE).is_some() { WHOLE } else { deepest };
    let shown = (0..=AROUND).rev().find_map(|around| fits(around, levels));
    shown.unwrap_or_else(|| vec!["..".into()])
}

/// More levels than this are shown only where the node is shown whole.
const DEEP: usize = 40;

/// The marked node with so many levels, within so many of the nodes around it, whose other parts are cut.
fn around_marked(way: &[&Piece<'_>], around: usize, levels: usize) -> String {
    let from = way.len().saturating_sub(around + 1);
    let mut text = String::new();
    put_way(&way[from..], levels, &mut text);
    match from {
        0 => text,
        _ => format!(".. {text} .."),
    }
}

/// The first node of a way, of its parts only the one that the way goes through.
fn put_way(way: &[&Piece<'_>], levels: usize, text: &mut String) {
    let [Piece::Group { open, parts }, inner @ ..] = way else { return };
    let Some(next) = inner.first() else { return way[0].put(levels, text) };
    text.push_str(open);
    for (index, part) in parts.iter().enumerate() {
        text.push_str(if index == 0 { "" } else { " " });
        match std::ptr::eq(part, *next) {
            true => put_way(inner, levels, text),
            false => part.put(0, text),
        }
    }
    text.push_str(closing(open));
}

/// What closes a group.
fn closing(open: &str) -> &'static str {
    PAIRS.iter().find(|pair| pair.0 == open).map_or("", |pair| pair.1)
}

/// A text in lines of so many columns, broken at blanks; a longer word has a line of its own.
fn wrapped(text: &str, width: usize) -> Vec<String> {
    let mut lines: Vec<String> = Vec::new();
    let mut columns = 0;
    for word in text.split(' ') {
        let length = word.chars().count();
        match lines.last_mut() {
            Some(line) if columns + 1 + length <= width => {
                line.push(' ');
                line.push_str(word);
                columns += 1 + length;
            }
            _ => {
                lines.push(word.to_string());
                columns = length;
            }
        }
    }
    lines
}
