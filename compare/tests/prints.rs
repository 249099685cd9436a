//! Printing: the cases that came with document 02, the tables of all short texts, and the longest texts.

use std::collections::HashMap;

use compare::records::{cases, entry, from_hex, to_hex};
use compare::same::{self, Outcome, PRINT_ROOM, TEXT_ROOM};
use compare::texts::{all_of_length, BYTES};
use second::Reply;

const TOO_LONG: Reply = Reply::Refused { number: 18, place: 0 };

fn printed(table: &[u8]) -> Outcome {
    same::print_query(table, PRINT_ROOM)
}

fn brackets(text: &[u8]) -> usize {
    text.iter().filter(|byte| b"[({".contains(byte)).count()
}

/// In front of a line's bar stands what was printed while two stars in a row were read.
#[test]
fn the_listed_tables() {
    for case in cases(include_str!("../../second/tests/vectors/prints.txt")) {
        let bar = case.iter().position(|word| *word == "|").expect("a line has its bar");
        let (reply, text) = printed(&from_hex(case[0]));
        assert_eq!(format!("{} {reply} {}", case[0], to_hex(&text)), [&case[..1], &case[bar + 1..]].concat().join(" "));
    }
}

/// The table that a text is read as.
fn table(text: &[u8]) -> Option<Vec<u8>> {
    let (reply, table) = same::read_text(text, TEXT_ROOM);
    matches!(reply, Reply::Count(_)).then_some(table)
}

#[test]
fn the_tables_of_all_texts_of_up_to_four_bytes_come_back() {
    let mut texts = 0;
    for text in (0..=4).flat_map(all_of_length) {
        let Some(read) = table(&text) else { continue };
        let (reply, fewest) = printed(&read);
        assert_eq!(reply, Reply::Count(fewest.len()), "{}", to_hex(&text));
        assert!(fewest.len() <= text.len() && table(&fewest) == Some(read), "{}", to_hex(&text));
        texts += 1;
    }
    assert_eq!(texts, 210);
}

/// Whether some text begins so: call 2 finds no byte amiss, at most that there must be more.
fn begins_a_text(text: &Vec<u8>) -> bool {
    let at_its_end = Reply::Refused { number: 14, place: text.len() };
    let reply = compare::read_text(text, &mut [0; TEXT_ROOM]);
    reply == at_its_end || matches!(reply, Reply::Count(_))
}

/// All texts of up to so many of these bytes, by the table that they are read as.
fn texts_by_table(bytes: &[u8], longest: usize) -> HashMap<Vec<u8>, Vec<Vec<u8>>> {
    let (mut by_table, mut begun) = (HashMap::<_, Vec<_>>::new(), vec![Vec::new()]);
    for _ in 0..longest {
        let longer = |text: &Vec<u8>| bytes.iter().map(|byte| [&text[..], &[*byte]].concat()).collect::<Vec<_>>();
        begun = begun.iter().flat_map(longer).filter(begins_a_text).collect();
        let read = begun.iter().filter_map(|text| Some((table(text)?, text)));
        read.for_each(|(table, text)| by_table.entry(table).or_default().push(text.clone()));
    }
    by_table
}

/// Of all texts that are read as a table, the one that is printed has the fewest brackets and the fewest bytes, and no other has as few.
/// Gives how many tables and texts there are.
fn hold_fewest(by_table: HashMap<Vec<u8>, Vec<Vec<u8>>>) -> (usize, usize) {
    for (table, texts) in &by_table {
        let (_, fewest) = printed(table);
        assert!(texts.contains(&fewest), "{}", to_hex(table));
        let others = || texts.iter().filter(|text| **text != fewest);
        assert!(others().all(|text| brackets(text) > brackets(&fewest)), "{}", to_hex(table));
        assert!(others().all(|text| text.len() > fewest.len()), "{}", to_hex(table));
    }
    (by_table.len(), by_table.values().map(Vec::len).sum())
}

/// There are as many texts as the lines of the grammar give, counted by length, with at most one star behind an atom.
#[test]
fn no_text_of_up_to_seven_bytes_has_as_few_brackets() {
    assert_eq!(hold_fewest(texts_by_table(BYTES, 4)), (195, 210));
    assert_eq!(hold_fewest(texts_by_table(BYTES, 7)), (27_512, 33_067));
}

/// One step and one truth leave time for longer texts: a filter needs `{` in eight bytes and more.
#[test]
fn no_longer_text_of_few_bytes_has_as_few_brackets() {
    assert_eq!(hold_fewest(texts_by_table(b"vt|/*+&![](){}", 9)), (6_015, 9_806));
}

/// A table whose text has 1,007 bytes, and so many more, each a `!`.
fn long_table(negations: usize) -> Vec<u8> {
    let mut table = vec![entry(16, 64, 0, 0), entry(6, 0, 0, 0)];
    // `[#64]` has 5 bytes, and then each entry joins the one before it to itself, in brackets from the second on: 11, 25, 53, 109, 221, 445
    // and 893 bytes.
    table.extend((1..8).map(|before| entry(7, 0, before, before)));
    // 893 + 1 + 109 = 1,003, and `|[t]` has four bytes more.
    table.extend([entry(8, 0, 8, 5), entry(18, 0, 0, 0)]);
    table.extend((10..10 + negations).map(|before| entry(20, 0, before, 0)));
    table.push(entry(6, 0, 10 + negations, 0));
    table.push(entry(8, 0, 9, 11 + negations));
    table.concat()
}

#[test]
fn texts_of_up_to_1024_bytes() {
    for negations in 0..=17 {
        let (reply, text) = printed(&long_table(negations));
        assert_eq!(reply, Reply::Count(1007 + negations));
        assert!(text.ends_with(&[b"|[", &b"!".repeat(negations)[..], b"t]"].concat()));
    }
    for negations in 18..=28 {
        assert_eq!(printed(&long_table(negations)), (TOO_LONG, Vec::new()));
    }
}

/// The longest text in rooms short by one, exact and longer by one; where the room is short nothing else is looked at.
#[test]
fn rooms_for_the_longest_text() {
    let short = Reply::Refused { number: 1, place: 0 };
    for (room, reply, too_long) in
        [(1023, short, short), (1024, Reply::Count(1024), TOO_LONG), (1025, Reply::Count(1024), TOO_LONG)]
    {
        assert_eq!(same::print_query(&long_table(17), room).0, reply);
        assert_eq!(same::print_query(&long_table(18), room).0, too_long);
    }
}

/// Entries upon one another, 32 high, the last of them a path; each takes two of those below it, as said by the number of the one before.
fn tower(kind: u8, operands: fn(usize) -> (usize, usize)) -> Vec<u8> {
    let of_paths = kind < 16;
    let ground = if of_paths { entry(2, 0, 0, 0) } else { entry(16, 64, 0, 0) };
    let storeys = (0..if of_paths { 31 } else { 30 }).map(|before| {
        let (left, right) = operands(before);
        entry(kind, 0, left, right)
    });
    let end = if of_paths { vec![] } else { vec![entry(6, 0, 30, 0)] };
    [ground].into_iter().chain(storeys).chain(end).flatten().collect()
}

/// The last entry stands for 2^31 steps or 2^30 labels.
#[test]
fn texts_that_could_never_be_written() {
    for kind in [7, 8, 21, 22] {
        assert_eq!(printed(&tower(kind, |before| (before, before))), (TOO_LONG, Vec::new()));
    }
}

/// Each right operand is in brackets but the last, which is a step or a label; `[` is one more.
#[test]
fn as_many_brackets_as_a_table_is_high() {
    for kind in [7, 8, 21, 22] {
        let (reply, text) = printed(&tower(kind, |before| (0, before)));
        assert!(matches!(reply, Reply::Count(_)));
        assert_eq!(brackets(&text), 30);
    }
}
