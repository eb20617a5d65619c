//! The text form is exact: every file whose words are in order comes back from its own text, however that is written.

use model::check::read_recipe;
use model::file::file;
use model::node::Node;
use model::on_large_stack;
use model::text::{flat, parse_recipe, pretty, Style};
use tools::make::{damaged_file, edges, every_small_recipe, well_typed_file};
use tools::random::Random;

/// Names that are wished for at every function: those that a term gets anyway, those that come of others, and none.
fn wishes(random: &mut Random, count: usize) -> Vec<Option<String>> {
    const NAMES: [&str; 8] = ["x", "y", "x1", "x2", "v", "lime", "add", "v0"];
    (0..count).map(|_| random.chance(70).then(|| random.pick(&NAMES).to_string())).collect()
}

/// Whether the file's words are in order; then it comes back from its text, by names and by numbers, with lets and without, narrow
/// and wide.
fn returns(bytes: &[u8], random: &mut Random) -> bool {
    let Ok(recipe) = read_recipe(bytes, usize::MAX) else { return false };
    let (declared, term) = (Node::Type(&recipe.declared), Node::Ml(&recipe.term));
    let names = wishes(random, term.size());
    let styles = [
        Style::PLAIN,
        Style { numbers: true, ..Style::PLAIN },
        Style { lets: true, width: 20, ..Style::PLAIN },
        Style { lets: true, width: 61, names: &names, ..Style::PLAIN },
        Style { names: &names, width: 1, ..Style::PLAIN },
    ];
    let laid_out = styles.map(|style| format!("{}\n{}\n", pretty(declared, &style), pretty(term, &style)));
    for text in laid_out.into_iter().chain([format!("{} {}", flat(declared), flat(term))]) {
        let parsed = parse_recipe(&text).unwrap_or_else(|fault| panic!("{fault}\n{text}"));
        assert!(file(&parsed.declared, &parsed.term) == bytes, "{text}");
    }
    true
}

#[test]
fn files_come_back_from_their_text() {
    on_large_stack(|| {
        let makers: [fn(&mut Random) -> Vec<u8>; 2] = [well_typed_file, damaged_file];
        let made = makers.iter().flat_map(|make| (0..2_000).map(|index| make(&mut Random::new(3, index))));
        let mut random = Random::new(5, 0);
        let in_order = made.chain(edges()).filter(|bytes| returns(bytes, &mut random)).count();
        assert!(in_order > 2_500, "{in_order}");
        every_small_recipe(&mut |bytes| assert!(returns(&bytes, &mut random)));
    });
}

/// Words of a term whose variables point anywhere: at functions of their own language and of the other, and past them all.
fn wild(random: &mut Random, scheme: bool, depth: usize, words: &mut Vec<u32>) {
    let operand = 256 * random.below(6) as u32;
    let (variable, number, lambda, app, cons, cross) =
        if scheme { (32, 33, 34, 35, 40, 45) } else { (16, 17, 18, 19, 25, 30) };
    if depth == 0 {
        return words.push(if random.chance(70) { variable + operand } else { number + operand });
    }
    let part = |words: &mut Vec<u32>, random: &mut Random, scheme| wild(random, scheme, depth - 1, words);
    match random.below(6) {
        0 | 1 => {
            words.push(lambda);
            words.extend((!scheme).then_some(1));
            part(words, random, scheme);
        }
        2 => {
            words.extend([app, lambda]);
            words.extend((!scheme).then_some(1));
            part(words, random, scheme);
            part(words, random, scheme);
        }
        3 => {
            words.push(cons);
            part(words, random, scheme);
            if random.chance(50) {
                words.extend(if scheme { &[39][..] } else { &[24, 1] });
            } else {
                part(words, random, scheme);
            }
        }
        4 => {
            words.extend([cross, 1]);
            part(words, random, !scheme);
        }
        _ => words.push(variable + operand),
    }
}

#[test]
fn variables_that_point_anywhere_come_back() {
    on_large_stack(|| {
        let mut random = Random::new(11, 0);
        for _ in 0..20_000 {
            let mut words = Vec::new();
            let depth = 1 + random.below(7);
            wild(&mut random, false, depth, &mut words);
            assert!(returns(&file(&[1], &words), &mut random), "{words:?}");
        }
    });
}
