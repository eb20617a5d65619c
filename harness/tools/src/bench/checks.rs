//! The engine's check against the checker on trees, and how both grow with the file; where it is linked, against the
//! archive of the landing before.

use super::recipes::plain;
use super::table::figure;
use super::timing::{side_by_side, Work};
use crate::engine::Check;
use crate::make::edges::{compared_again, edges_of_owner_0};
use crate::{engine, old_engine};
use model::check;
use model::kinds::LUMP;
use std::hint::black_box;

/// Rows for plain files of growing size, one for types of lumps, and one for all files at the edges together. Each lump has owner
/// 0, which older archives know too.
pub fn tables() -> Vec<String> {
    let plain_files = [512, 1_024, 2_048, 4_080].map(plain).map(|recipe| (recipe.name, vec![recipe.file]));
    let lumps = ("lumps in functions, compared 228 times".to_string(), vec![compared_again(LUMP)]);
    let edge_files = ("the files at the edges, all together".to_string(), edges_of_owner_0());
    let rows = plain_files.into_iter().chain([lumps, edge_files]).map(|(name, files)| row(&name, &files));
    head(old_engine::linked_check().is_some()).into_iter().chain(rows).collect()
}

/// The lines that stand over the columns, with those of the old archive or without.
fn head(old: bool) -> [String; 2] {
    let mut groups = "                                               nanoseconds a word     tree/".to_string();
    let mut names = "files                                     words      tree     engine  engine".to_string();
    if old {
        groups += "               new/";
        names += "        old     old";
    }
    [groups, names]
}

/// The row of some files checked together.
fn row(name: &str, files: &[Vec<u8>]) -> String {
    let words = files.iter().map(Vec::len).sum::<usize>() / 4;
    let Seconds { tree, engine, old } = measured(files);
    let each = |seconds: f64| 1e9 * seconds / words as f64;
    let mut text = format!("{name:<38} {words:>8} {:>9}  {:>9}", figure(Some(each(tree))), figure(engine.map(each)));
    text += &format!(" {:>7}", figure(engine.map(|engine| tree / engine)));
    if let Some(old) = old {
        text += &format!("  {:>9} {:>7}", figure(Some(each(old))), figure(engine.map(|engine| engine / old)));
    }
    text
}

/// The seconds that checking some files takes.
struct Seconds {
    tree: f64,
    engine: Option<f64>,
    old: Option<f64>,
}

/// The files checked: on trees, by the engine and by the old archive, where they are linked.
fn measured(files: &[Vec<u8>]) -> Seconds {
    let (new, old) = (engine::linked_check(), old_engine::linked_check());
    let by = |check: Check| {
        each(files, move |file| {
            black_box(check(file));
        })
    };
    let mut works = vec![each(files, |file| drop(black_box(check(file))))];
    works.extend(new.into_iter().chain(old).map(by));
    let mut times = side_by_side(&mut works).into_iter();
    let mut next = || times.next().expect("a time for each work");
    Seconds { tree: next(), engine: new.map(|_| next()), old: old.map(|_| next()) }
}

/// The work of doing something with every file.
fn each<'a>(files: &'a [Vec<u8>], work: impl Fn(&[u8]) + 'a) -> Work<'a> {
    Box::new(move || files.iter().for_each(|file| work(black_box(file))))
}
