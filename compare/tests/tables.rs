//! The check of a query table, by call 3 on a roll of one record: there is nothing else to be refused.

use compare::chance::Chance;
use compare::records::{cases, entry, from_hex, node, NO_PARENT};
use compare::same::{self, BITMAP_ROOM};
use second::Reply;

/// Both programs on one table: the same reply.
fn same(table: &[u8]) -> Reply {
    same::answer_on_roll(&node(1, NO_PARENT), table, BITMAP_ROOM).0
}

#[test]
fn the_listed_tables() {
    for case in cases(include_str!("../../second/tests/vectors/tables.txt")) {
        assert_eq!(same(&from_hex(case[0])).to_string(), case[1..].join(" "));
    }
}

#[test]
fn each_kind_with_each_field() {
    let before = [entry(2, 0, 0, 0), entry(18, 0, 0, 0)].concat();
    let mut taken = 0;
    for kind in 0..=255 {
        for label in [0, 1, 64, 65] {
            for left in 0..4 {
                for right in 0..4 {
                    let table = [before.as_slice(), &entry(kind, label, left, right)].concat();
                    let (stay, star) = (entry(6, 0, 2, 0), entry(9, 0, 2, 0));
                    let ends = [&[][..], &stay, &star];
                    let replies = ends.map(|end| same(&[table.as_slice(), end].concat()));
                    // A path ends a table, and takes a star; a filter takes neither, but can be stayed for.
                    let [alone, stayed, starred] = replies.map(|reply| matches!(reply, Reply::Count(_)));
                    assert!(alone == starred && !(alone && stayed), "{kind} {label} {left} {right}");
                    taken += usize::from(alone || stayed);
                }
            }
        }
    }
    // Seven kinds have neither operand nor label, one has two of these labels, and of the operands 0 to 3 one is a path and one a filter:
    // four kinds take one of them, four take one twice.
    assert_eq!(taken, 7 + 2 + 4 + 4);
}

#[test]
fn the_greatest_tables() {
    let stars = |entries: usize, height: usize| -> Vec<u8> {
        let star = |i: usize| if i % height == 0 { entry(2, 0, 0, 0) } else { entry(9, 0, i - 1, 0) };
        (0..entries).flat_map(star).collect()
    };
    for entries in [1, 2, 1023, 1024, 1025] {
        for height in [1, 127, 128, 129] {
            same(&stars(entries, height));
        }
    }
    assert_eq!(same(&stars(1024, 128)).to_string(), "A 1");
    assert_eq!(same(&stars(1024, 129)).to_string(), "R 9 128");
    assert_eq!(same(&stars(1025, 128)).to_string(), "R 12 0");
}

#[test]
fn grown_tables_and_spoilt_ones() {
    let mut chance = Chance::new(4);
    for _ in 0..30_000 {
        let mut table = Vec::new();
        for number in 0..1 + chance.below(20) {
            let kind = chance.pick(&[1, 2, 3, 4, 5, 6, 7, 8, 9, 16, 17, 18, 19, 20, 21, 22]);
            let label = if kind == 16 { 1 + chance.below(64) as u8 } else { 0 };
            let operand = |chance: &mut Chance| if number == 0 { 0 } else { chance.below(number) };
            let left = if [6, 7, 8, 9, 17, 20, 21, 22].contains(&kind) { operand(&mut chance) } else { 0 };
            let right = if [7, 8, 21, 22].contains(&kind) { operand(&mut chance) } else { 0 };
            table.extend(entry(kind, label, left, right));
        }
        same(&table);
        let at = chance.below(table.len());
        table[at] = chance.below(24) as u8;
        same(&table);
        table.truncate(chance.below(table.len() + 1));
        same(&table);
    }
}
