//! Call 3: document 01's worked cases, the cases that came with it, and rolls of 4,096 nodes.

use std::collections::BTreeSet;

use compare::annotated::Annotated;
use compare::chance::Chance;
use compare::records::{cases, chain, from_hex, grown_roll, wide, MOST_NODES};
use compare::same::{self, BITMAP_ROOM};
use compare::tables::{table_of, Table, FILTERS, PATHS};

/// The records that a text reaches.
fn records(roll: &[u8], text: &str) -> Vec<usize> {
    same::nodes(&same::answer_on_roll(roll, &table_of(text), BITMAP_ROOM))
}

#[test]
fn the_worked_cases_on_the_roll() {
    let roll = Annotated::worked().roll;
    assert_eq!(records(&roll, "v"), [1, 8]);
    assert_eq!(records(&roll, "v*/[#5]"), [3, 4, 7, 11]);
    assert_eq!(records(&roll, "v/[!v/[#4]]"), []);
    assert_eq!(records(&roll, "[f]"), []);
    assert_eq!(records(&roll, "[t]"), [0]);
    assert_eq!(records(&roll, "(v|v/v)*"), (0..13).collect::<Vec<_>>());
    for text in [".", "^", "v/v", "v/>", "v/v/>", "v/v/>/<", "v*/^", "v*/[!<]", "v*/[!>&!v]", "(v*)*"] {
        same::answer_on_roll(&roll, &table_of(text), BITMAP_ROOM);
    }
}

/// Roll and query of each line, with the reply and the records.
#[test]
fn the_listed_draws() {
    for case in cases(include_str!("../../second/tests/vectors/draws.txt")) {
        let outcome = same::answer_on_roll(&from_hex(case[0]), &from_hex(case[3]), BITMAP_ROOM);
        let listed: Vec<&str> = case[5..].iter().take_while(|word| **word != "|").copied().collect();
        assert_eq!(same::shown(&outcome), listed.join(" "));
    }
}

/// Tables that grow by chance have entries of all kinds.
#[test]
fn grown_tables_are_of_all_kinds() {
    let mut chance = Chance::new(6);
    let kinds = |chance: &mut Chance| Table::query(chance).bytes.chunks(6).map(|entry| entry[0]).collect::<Vec<_>>();
    let seen: BTreeSet<u8> = (0..200).flat_map(|_| kinds(&mut chance)).collect();
    assert!(seen.iter().eq(PATHS.iter().chain(&FILTERS)), "{seen:?}");
}

#[test]
fn the_greatest_rolls() {
    let mut chance = Chance::new(7);
    for roll in [chain(MOST_NODES), wide(MOST_NODES), grown_roll(&mut chance, MOST_NODES, 3)] {
        assert_eq!(records(&roll, "v*"), (0..MOST_NODES).collect::<Vec<_>>());
        for text in ["v", "v/v", "v*/>", "v*/<", "v*/^", "v*/[#1]", "v*/[!v]", "v*/[!>]", "v*/[!^]", "v/>*", "(v|>)*"] {
            records(&roll, text);
        }
        for text in [
            "v*/v*/v*/v*/v*/v*/v*/v*",
            "v*/^*/v*/>*/<*",
            "(v/v|^)*",
            "v*/[!v/v/v&^/^/^]",
            "(v/[#1]|>/[#2])*",
            "((((v*)*)*)*)*",
        ] {
            records(&roll, text);
        }
    }
}
