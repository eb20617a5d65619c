//! Trees to text, on one line or laid out, with one node and a part of it marked where asked.

use super::pieces::{piece, Piece};
use crate::node::Node;

/// How a term is written.
#[derive(Clone, Copy)]
pub struct Style<'a> {
    /// The columns that a line has at most, where that can be helped.
    pub width: usize,
    /// Variables by their numbers, functions without names and lists by their conses, as a file has them.
    pub numbers: bool,
    /// An application of a function as `let`.
    pub lets: bool,
    /// The node that stands in double brackets, by its first word, counted from the root's.
    pub marked: Option<usize>,
    /// The node that stands between `<<` and `>>`, in the same way.
    pub part: Option<usize>,
    /// The names that the writer gave, of each word of the term that is a function; there may be fewer than words.
    pub names: &'a [Option<String>],
}

impl Style<'_> {
    pub const PLAIN: Style<'static> =
        Style { width: 100, numbers: false, lets: false, marked: None, part: None, names: &[] };
}

/// The node on one line.
pub fn flat(node: Node<'_>) -> String {
    flat_marked(node, None)
}

/// The same, with the node that starts at the marked word, counted from the root's, in double brackets.
pub fn flat_marked(node: Node<'_>, marked: Option<usize>) -> String {
    pretty(node, &Style { width: usize::MAX, marked, ..Style::PLAIN })
}

/// The node on as many lines as it needs.
pub fn pretty(node: Node<'_>, style: &Style<'_>) -> String {
    let mut page = Page { width: style.width, most_indent: style.width / 5 * 3, text: String::new() };
    page.lay_out(&piece(node, style), Place { column: 0, indent: 0, behind: 0 });
    page.text
}

/// Where a piece begins: its column, how far its line is indented, and how many letters are due behind it on its last line.
#[derive(Clone, Copy)]
struct Place {
    column: usize,
    indent: usize,
    behind: usize,
}

/// A text that is laid out. Deep terms are indented no further than the given.
struct Page {
    width: usize,
    most_indent: usize,
    text: String,
}

impl Page {
    /// Writes a piece on the rest of the line if it fits there, else its parts on lines of their own. Those that lead stay behind
    /// what opens the piece, and the items of a list fill their lines.
    fn lay_out(&mut self, piece: &Piece, place: Place) {
        if piece.parts.is_empty() || self.fits(place.column, piece.width.saturating_add(place.behind)) {
            return piece.flat(&mut self.text);
        }
        self.text.push_str(piece.open.trim_end());
        let inner = (place.indent + if piece.fills { 1 } else { 2 }).min(self.most_indent);
        for (index, part) in piece.parts.iter().enumerate() {
            let last = index + 1 == piece.parts.len();
            let between = piece.between.trim_end();
            let behind = if last { piece.close.len() + place.behind } else { between.len() };
            if index > 0 {
                self.text.push_str(between);
            }
            let gap = if index > 0 || piece.open.ends_with(' ') { " " } else { "" };
            let column = self.column() + gap.len();
            let fills = piece.fills && (index == 0 || self.fits(column, part.width + behind));
            if index < piece.leading || fills {
                self.text.push_str(gap);
                self.lay_out(part, Place { column, indent: inner, behind });
            } else {
                self.text.push('\n');
                self.text.extend(std::iter::repeat_n(' ', inner));
                self.lay_out(part, Place { column: inner, indent: inner, behind });
            }
        }
        self.text.push_str(&piece.close);
    }

    /// Whether so many letters fit on a line from a column on.
    fn fits(&self, column: usize, letters: usize) -> bool {
        column.saturating_add(letters) <= self.width
    }

    /// The column where the text goes on.
    fn column(&self) -> usize {
        self.text.len() - self.text.rfind('\n').map_or(0, |end| end + 1)
    }
}
