//! Recipes as text: s-expressions with document 01's names.
//!
//! Types are `N`, `L`, `{t}` and `(t to u)`; `L` is a lump of owner 0, `L7` one of owner 7. A number is its digits, with `_` between
//! them where a writer likes. Other terms are `(fn (x N) x)`, `(app f a)`, `(fix e)`, `(add a b)`, `(if0 a b c)`, `(nil N)`,
//! `(wrong 300 N)`, `(ms N e)` and so on; in Scheme `(fn (x) x)`, `nil`, `(num? e)`, `(wrong 300)`, `(sm N e)`. `(let (x N e) b)` is
//! `(app (fn (x N) b) e)`, in Scheme `(let (x e) b)` is `(app (fn (x) b) e)`. `{1 2 3}` is the list of these, `(cons 1 (cons 2 ..))`
//! up to its nil, which in ML has the type of the last item. `lambda` and `application` may be written for `fn` and `app`. A file is
//! the declared type and then the term; a comment runs from `;` to the end of its line.
//!
//! Names are resolved to the numbers of the file, and an inner name hides an outer one. A function may do without: `(fn N e)`, in
//! Scheme `(fn e)`; its variable is `v` and a number, which counts the functions without names, of both languages, between the
//! variable and its own.

mod calling;
mod faults;
mod functions;
mod names;
mod numbers;
mod parse;
mod pieces;
mod print;
mod scope;
mod spelling;
mod terms;
mod tokens;

pub use names::{describe, head, kind_name, lump_name};
pub use parse::{early_fault, parse_recipe, Fault, Parsed};
pub use print::{flat, flat_marked, pretty, Style};
pub use spelling::nearest;
pub use tokens::Position;
