//! What the bytes of an input become.

use model::file::file;
use targets::input::Input;
use tools::make::well_typed_file;
use tools::random::Random;

/// The file of add 2 3, from document 01.
const ADD: [u32; 8] = [1, 4, 3, 5, 1, 21, 529, 785];

fn add() -> Vec<u8> {
    ADD.iter().flat_map(|word| word.to_le_bytes()).collect()
}

#[test]
fn a_raw_file_is_the_bytes_as_they_are() {
    assert_eq!(Input(&[&[0][..], &add()].concat()).file(&[]), add());
    assert_eq!(Input(&[8]).file(&[]), []);
    assert_eq!(Input(&[]).file(&[]), []);
}

#[test]
fn wide_words_get_a_header() {
    // One word of type, as the byte behind the form says; or, with 0, the first whole node.
    for count in [1, 0] {
        assert_eq!(Input(&[&[1, count][..], &add()[16..]].concat()).file(&[]), add());
    }
    // Two words of type, and the rest is the term.
    let file_of_two = Input(&[&[1, 2][..], &add()[16..]].concat()).file(&[]);
    assert_eq!(file_of_two, file(&[1, 21], &[529, 785]));
}

#[test]
fn short_words_are_a_kind_of_the_table_and_an_operand() {
    // N is the first kind of the table, add its tenth, and the number its sixth.
    assert_eq!(Input(&[2, 0, 0, 0, 9, 0, 5, 2, 5, 3]).file(&[]), add());
    // The last bytes are operands at the edges: 248 is 255, 255 the largest.
    assert_eq!(Input(&[2, 5, 248, 5, 255]).words(&[]), [17 + 256 * 255, 17 + 256 * 16_777_215]);
}

#[test]
fn words_without_a_node_first_have_no_type() {
    assert_eq!(Input(&[2, 0, 2, 0]).type_and_term(&[]), (vec![], vec![3]));
}

#[test]
fn a_maker_takes_its_choices_from_the_bytes() {
    let choices = [7, 1, 200, 33];
    let made = well_typed_file(&mut Random::of_choices(&choices));
    assert_eq!(Input(&[&[3][..], &choices].concat()).file(&[well_typed_file]), made);
    // The second of two makers: 3 + 8.
    assert_eq!(Input(&[11]).file(&[well_typed_file, |_| vec![5]]), [5]);
}

#[test]
fn numbers_come_first_and_are_0_behind_the_end() {
    let mut input = Input(&[4, 1, 2, 9, 9, 9]);
    assert_eq!((input.byte(), input.number()), (4, 513));
    assert_eq!((input.bytes(2), input.bytes(2), input.byte()), (&[9, 9][..], &[9][..], 0));
}
