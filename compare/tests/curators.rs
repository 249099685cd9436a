//! Call 6: document 01's worked cases, the cases that came with it, and rolls of 4,096 nodes. Call 4 and then call 3 give the same.

use compare::annotated::Annotated;
use compare::chance::Chance;
use compare::records::{cases, from_hex, grown_roll, MOST_NODES};
use compare::same::{self, BITMAP_ROOM};
use compare::tables::table_of;

/// The positions that a text reaches.
fn positions(input: &Annotated, text: &str) -> Vec<usize> {
    same::nodes(&same::curators_answer(input, &table_of(text), BITMAP_ROOM))
}

#[test]
fn the_worked_cases() {
    let worked = Annotated::worked();
    assert_eq!(positions(&worked, "."), [0]);
    assert_eq!(positions(&worked, "^"), []);
    assert_eq!(positions(&worked, "v"), [1, 6]);
    assert_eq!(positions(&worked, "v/v"), [2, 4, 7]);
    assert_eq!(positions(&worked, "v*/[#5]"), [2, 5, 6]);
    assert_eq!(positions(&worked, "v/>"), [6]);
    assert_eq!(positions(&worked, "v/v/>"), [4]);
    assert_eq!(positions(&worked, "v/v/>/<"), [2]);
    assert_eq!(positions(&worked, "v*/^"), [0, 1, 2, 4, 6]);
    assert_eq!(positions(&worked, "v/[!v/[#4]]"), [1, 6]);
    assert_eq!(positions(&worked, "[f]"), []);
    assert_eq!(positions(&worked, "[t]"), [0]);
    assert_eq!(positions(&worked, "(v|v/v)*"), (0..8).collect::<Vec<_>>());
    for text in ["(v*)*", "[#64]", "v*/[!<]", "v*/[!>&!v]", "v*/>*", "(v|^|>|<)*"] {
        positions(&worked, text);
    }
}

/// Everything of each line, with the reply and the positions.
#[test]
fn the_listed_draws() {
    for case in cases(include_str!("../../second/tests/vectors/draws.txt")) {
        let [roll, annotation, filters, query] = [0, 1, 2, 3].map(|word| from_hex(case[word]));
        let outcome = same::curators_answer(&Annotated { roll, annotation, filters }, &query, BITMAP_ROOM);
        let listed = case.rsplit(|word| *word == "|").next().expect("it is the last part").join(" ");
        assert_eq!(same::shown(&outcome), listed);
    }
}

/// Random rolls of 4,096 nodes whose nodes with label 2 are hidden.
#[test]
fn the_greatest_rolls() {
    let mut chance = Chance::new(13);
    for labels in [2, 3] {
        let input = Annotated { roll: grown_roll(&mut chance, MOST_NODES, labels), ..Annotated::hiding_label_2() };
        for text in ["v", "v/v", "v*/[#1]", "v/>", "v*/>", "v*/<", "v*/^", "v/[!v/[#1]]"] {
            positions(&input, text);
        }
    }
}
