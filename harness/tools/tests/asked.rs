//! Readers of nodes with planted errors: each is found, in recipe_node alone and in recipe_node_walked alone, and shown by a
//! few words; the model itself shows no difference.

use model::kinds::row_of;
use model::nodes::node_at;
use model::on_large_stack;
use tools::compare::{compare_node, missing, NodeReaders, Plan};
use tools::engine::Node;
use tools::stand_in;

const PLAN: Plan = Plan { files: 300, seed: 1, start: 0 };

/// The right reader, which also takes some words for whole nodes.
fn also(words: &[u32], at: usize, is: fn(u32) -> bool) -> usize {
    match words.get(at) {
        Some(word) if is(*word) => 1,
        _ => stand_in::node(words, at),
    }
}

/// The right reader, which finds no node at some places.
fn never(words: &[u32], at: usize, is: fn(&[u32], usize) -> bool) -> usize {
    match at < words.len() && is(words, at) {
        true => 0,
        false => stand_in::node(words, at),
    }
}

/// The right reader of words that were changed before.
fn changed(words: &[u32], at: usize, change: fn(u32) -> u32) -> usize {
    stand_in::node(&words.iter().map(|word| change(*word)).collect::<Vec<_>>(), at)
}

/// An error: what it is, the wrong reader, and the words, the place, the model's answer and the wrong one that are shown.
type Planted = (&'static str, Node, (&'static str, usize, usize, usize));

/// Words that are taken for whole nodes, or are not taken for them.
const WORDS: [Planted; 17] = [
    ("ML nil is one word", |words, at| also(words, at, |word| word == 24), ("24", 0, 0, 1)),
    ("ML wrong is one word", |words, at| also(words, at, |word| word == 29 + 256), ("285", 0, 0, 1)),
    ("kind 0 is one word", |words, at| also(words, at, |word| word == 0), ("0", 0, 0, 1)),
    ("kind 31 is one word", |words, at| also(words, at, |word| word == 31), ("31", 0, 0, 1)),
    ("kind 46 is one word", |words, at| also(words, at, |word| word == 46), ("46", 0, 0, 1)),
    ("kind 255 is one word", |words, at| also(words, at, |word| word == 255), ("255", 0, 0, 1)),
    ("N may have operand 1", |words, at| also(words, at, |word| word == 1 + 256), ("257", 0, 0, 1)),
    ("L may have owner 256", |words, at| also(words, at, |word| word == 2 + 256 * 256), ("65538", 0, 0, 1)),
    (
        "an owner is taken modulo 256",
        |words, at| changed(words, at, |word| if word % 256 == 2 { word % 65_536 } else { word }),
        ("65538", 0, 0, 1),
    ),
    (
        "L with owner 255 is none",
        |words, at| never(words, at, |words, at| words[at] == 2 + 256 * 255),
        ("65282", 0, 1, 0),
    ),
    (
        "L with an owner over 0 is none",
        |words, at| never(words, at, |words, at| words[at] % 256 == 2 && words[at] > 2),
        ("258", 0, 1, 0),
    ),
    ("a Scheme wrong may have code 0", |words, at| also(words, at, |word| word == 44), ("44", 0, 0, 1)),
    (
        "a Scheme wrong may have code 65,536",
        |words, at| also(words, at, |word| word == 44 + 256 * 65_536),
        ("16777260", 0, 0, 1),
    ),
    ("a Scheme nil may have an operand", |words, at| also(words, at, |word| word == 39 + 256), ("295", 0, 0, 1)),
    ("Scheme variables are none", |words, at| never(words, at, |words, at| words[at] % 256 == 32), ("32", 0, 1, 0)),
    (
        "the largest number is none",
        |words, at| never(words, at, |words, at| words[at] == 17 + 256 * 16_777_215),
        ("4294967057", 0, 1, 0),
    ),
    // 99 is taken for 35, an application.
    (
        "the kind is taken modulo 64",
        |words, at| changed(words, at, |word| word - word % 256 + word % 64),
        ("99 33 33", 0, 0, 3),
    ),
];

/// Places and nodes of several words.
const NODES: [Planted; 11] = [
    ("the last place holds none", |words, at| never(words, at, |words, at| at + 1 == words.len()), ("1", 0, 1, 0)),
    ("the first place holds none", |words, at| never(words, at, |_, at| at == 0), ("1", 0, 1, 0)),
    (
        "the place past the end holds one",
        |words, at| if at == words.len() { 1 } else { stand_in::node(words, at) },
        ("", 0, 0, 1),
    ),
    ("a place is taken as 32 bits", |words, at| stand_in::node(words, at as u32 as usize), ("1", 1 << 32, 0, 1)),
    (
        "a node is a word too short",
        |words, at| stand_in::node(words, at) - usize::from(stand_in::node(words, at) > 1),
        ("3 1", 0, 2, 1),
    ),
    (
        "a node nested over 256 is none",
        |words, at| never(words, at, |words, at| node_at(words, at).is_ok_and(|node| node.levels > 256)),
        ("3(x256) 1", 0, 257, 0),
    ),
    (
        "a node of 16,384 words is none",
        |words, at| never(words, at, |words, at| stand_in::node(words, at) == 16_384),
        ("3(x16383) 1", 0, 16_384, 0),
    ),
    ("a part may be of any sort", counted_alone, ("3 17", 0, 0, 2)),
    ("a part may have any operand", operands_unseen, ("3 257", 0, 0, 2)),
    ("a part may have any owner", |words, at| parts_owned(words, at, |owner| owner.min(255)), ("3 65538", 0, 0, 2)),
    (
        "a part has no owner over 0",
        |words, at| parts_owned(words, at, |o| if o > 0 { 256 } else { 0 }),
        ("24 258", 0, 2, 0),
    ),
];

/// A reader that counts parts and does not look at their sorts.
fn counted_alone(words: &[u32], at: usize) -> usize {
    let (mut due, mut end) = (1, at);
    while due > 0 {
        let Some(row) = words.get(end).and_then(|word| row_of(*word)) else { return 0 };
        due += row.parts.len();
        due -= 1;
        end += 1;
    }
    end - at
}

/// A reader that looks at the operand of the first word alone.
fn operands_unseen(words: &[u32], at: usize) -> usize {
    let due = |word: &u32| word % 256 + 256 * u32::from(matches!(word % 256, 29 | 44));
    let seen = words.iter().take(at.saturating_add(1)).copied();
    let words: Vec<u32> = seen.chain(words.iter().skip(at.saturating_add(1)).map(due)).collect();
    stand_in::node(&words, at)
}

/// A reader that takes the owners behind the first word for others.
fn parts_owned(words: &[u32], at: usize, owner: fn(u32) -> u32) -> usize {
    let first = at.saturating_add(1).min(words.len());
    let changed = |word: &u32| if word % 256 == 2 { 2 + 256 * owner(word / 256) } else { *word };
    let words: Vec<u32> = words[..first].iter().copied().chain(words[first..].iter().map(changed)).collect();
    stand_in::node(&words, at)
}

/// What is shown of two readers.
fn shown(node: Node, walked: Node) -> String {
    let readers = NodeReaders { node, walked };
    on_large_stack(|| compare_node(readers, PLAN)).err().expect("a difference")
}

/// What is due to be shown: the words, the place, and the answers of the model and of both readers.
fn due(words: &str, place: usize, [model, node, walked]: [usize; 3]) -> String {
    let words = format!("words:              {words}").trim_end().to_string();
    let answers = format!("model:              {model}\nrecipe_node:        {node}\nrecipe_node_walked: {walked}\n");
    format!("{words}\nplace:              {place}\n{answers}")
}

/// Each error is found where recipe_node alone has it, and where recipe_node_walked alone has it.
fn are_found(planted: &[Planted]) {
    for (name, reader, (words, place, model, wrong)) in planted {
        let (model, wrong) = (*model, *wrong);
        assert_eq!(shown(*reader, stand_in::node), due(words, *place, [model, wrong, model]), "{name}");
        assert_eq!(shown(stand_in::node, *reader), due(words, *place, [model, model, wrong]), "{name}");
    }
}

#[test]
fn wrong_words_are_found() {
    are_found(&WORDS);
}

#[test]
fn wrong_places_and_wrong_nodes_are_found() {
    are_found(&NODES);
}

#[test]
fn the_model_shows_no_difference_and_all_is_reached() {
    let readers = NodeReaders { node: stand_in::node, walked: stand_in::node };
    let counts = on_large_stack(|| compare_node(readers, PLAN)).expect("no difference");
    assert!(missing(&counts.rows()).is_empty(), "{:?}", missing(&counts.rows()));
    // Every one, two and three words of an alphabet are among them.
    assert!(counts.asks > 1_000_000, "{}", counts.asks);
}

#[test]
fn a_place_in_the_middle_of_many_words_is_shown() {
    let text = shown(|words, at| never(words, at, |_, at| at == 1_000), stand_in::node);
    assert!(text.ends_with(&due("", 1_000, [1, 0, 1])["words:".len()..]), "{text}");
    assert!(text.starts_with("words:              1(x1"), "{text}");
}

#[test]
fn a_difference_in_random_words_says_which_they_are() {
    let late: Node = |words, at| never(words, at, |words, at| words[at..].starts_with(&[25, 24, 1, 24]));
    let readers = NodeReaders { node: late, walked: stand_in::node };
    let text =
        on_large_stack(|| compare_node(readers, Plan { files: 100_000, seed: 1, start: 1 })).err().expect("found");
    assert!(
        text.starts_with("random file ") && text.contains(" of seed 1\nwords:              25 24 1 24 1\n"),
        "{text}"
    );
}
