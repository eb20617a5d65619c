//! `recipe make`: a text to a recipe file.

use super::input::read_made;
use super::whole::write_whole;
use super::{Command, Desk, Outcome};
use crate::args::Args;

pub const COMMAND: Command = Command { name: "make", help: HELP, work: make };

const HELP: &str = "\
usage: recipe make [TEXT] [-o FILE]

Writes the recipe file of a text, the declared type and then the term: to FILE, which is written whole or stays as it
was, or to standard output. Reads standard input where no TEXT is named. The file's words are in order; whether it has
the declared type is for `recipe check` to say. A fault in the text is told by line and column; status 2.

Types      N  L  L7  {t}  (t to u)
ML         x  7  (fn (x t) e)  (app f a)  (let (x t e) body)  (fix e)  (add a b)  (subtract a b)  (if0 a b c)
           {a b c}  (nil t)  (cons a b)  (hd e)  (tl e)  (null? e)  (wrong CODE t)  (ms t S)
Scheme     x  7  (fn (x) e)  (app f a)  (let (x e) body)  (add a b)  (subtract a b)  (if0 a b c)
           {a b c}  nil  (cons a b)  (hd e)  (tl e)  (fun? e)  (list? e)  (null? e)  (num? e)  (wrong CODE)  (sm t M)
L is a lump of owner 0, L7 one of owner 7; an owner is 0 to 255, and lumps of two owners have two types.
A name is a letter, then letters, digits, _ - ? and '. It is known in its function alone, and an inner one hides an outer
one. (sm t x) brings ML's x into Scheme, (ms t x) Scheme's x into ML.
(let (x t e) body) is (app (fn (x t) body) e). {a b c} is (cons a (cons b (cons c nil))); in ML the nil has the type of
the last item that has one, and the empty list is (nil t). A number is 0 to 16777215, and may be written 16_777_215.
if0 tests a number, in Scheme too: (if0 (null? e) b c) asks whether a list is empty; null?, num?, .. are 0 for yes.
lambda and application may be written for fn and app; a comment runs from ; to the end of its line.
Without names: (fn t e), in Scheme (fn e), and v0, v1, ..: the number counts the functions without names, of both
languages, between the variable and its own. Of a text that has such a variable, a note says so.

Example: printf 'N (let (x N 2) (add x 3))' | recipe make -o add.bin
";

/// The file of a text, written when all is well.
fn make(mut args: Args, desk: &mut Desk<'_>) -> Outcome {
    let name = args.named("-o", "the name of a file to write")?;
    let file = read_made(args, desk)?;
    match name {
        Some(name) if name != "-" => {
            Ok(write_whole(&name, &file).map_err(|fault| format!("cannot write {name}: {fault}"))?)
        }
        _ => Ok(desk.output.write_all(&file)?),
    }
}
