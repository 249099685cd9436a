//! Call 4: document 01's worked roll, the cases that came with it, and rolls of 4,096 nodes.

use compare::annotated::Annotated;
use compare::chance::Chance;
use compare::records::{cases, from_hex, grown_roll, node, MOST_NODES, NO_PARENT};
use compare::same;
use second::Reply;

#[test]
fn the_worked_roll() {
    let worked = Annotated::worked();
    let labels = [1, 2, 5, 8, 7, 5, 5, 8];
    let parents = [NO_PARENT, 0, 1, 2, 1, 4, 0, 6];
    let view: Vec<u8> = labels.iter().zip(parents).flat_map(|(label, parent)| node(*label, parent)).collect();
    let size = worked.roll.len();
    for room in [size, size + 1, size + 100] {
        assert_eq!(same::cut_view(&worked, room), (Reply::Count(8), view.clone()));
    }
    for room in [0, size - 1] {
        assert_eq!(same::cut_view(&worked, room).0, Reply::Refused { number: 1, place: 0 });
    }
}

/// Roll, annotation and filters of each line, with the reply and the view.
#[test]
fn the_listed_draws() {
    for case in cases(include_str!("../../second/tests/vectors/draws.txt")) {
        let [roll, annotation, filters] = [0, 1, 2].map(|word| from_hex(case[word]));
        let room = roll.len();
        let (reply, view) = same::cut_view(&Annotated { roll, annotation, filters }, room);
        let listed: Vec<&str> = case.split(|word| *word == "|").nth(2).expect("it is the third part").to_vec();
        let (bytes, told) = listed.split_last().expect("there are words");
        assert_eq!(reply.to_string(), told.join(" "));
        assert_eq!(view, from_hex(bytes));
    }
}

/// A chain of 4,096 whose nodes with label 2 are hidden.
fn hiding(label: impl Fn(usize) -> u8) -> Annotated {
    let above = |at: usize| at.checked_sub(1).unwrap_or(NO_PARENT);
    let roll = (0..MOST_NODES).flat_map(|at| node(label(at), above(at))).collect();
    Annotated { roll, ..Annotated::hiding_label_2() }
}

#[test]
fn the_greatest_rolls() {
    let shown = |input: &Annotated| same::cut_view(input, input.roll.len()).0;
    assert_eq!(shown(&hiding(|at| 1 + (at % 2) as u8)), Reply::Count(2048));
    assert_eq!(shown(&hiding(|at| if at % 4095 == 0 { 1 } else { 2 })), Reply::Count(2));
    let mut chance = Chance::new(9);
    for _ in 0..20 {
        let roll = grown_roll(&mut chance, MOST_NODES, 3);
        shown(&Annotated { roll, ..Annotated::grown(&mut chance, 1) });
    }
}
