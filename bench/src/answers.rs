//! Call 3 on rolls of 4,096 nodes: how long it takes, beside the second program, and how that grows from 512 nodes on.

use std::hint::black_box;

use crate::rolls::{shapes, small_rolls, SEED};
use crate::tools::{entry, least, table_of};

const ROOM: usize = 512;

/// Each step, filter and star by itself. `.` shows what the checks and the links cost; `v*` gives a step all nodes to start from; `[!v]`,
/// `[!<]` and `[!>]` give a star its farthest start.
const QUERIES: [&str; 20] = [
    ".",
    "v*/.",
    "v*/v",
    "v*/^",
    "v*/>",
    "v*/<",
    "v*/[#5]",
    "v*/[v]",
    "v*/[!#5]",
    "v*",
    "v*/[!v]/^*",
    "v/[!<]/>*",
    "v/[!>]/<*",
    "(v/[#1])*",
    "(v/[!#64])*",
    "(v|>)*",
    "(v|^|>|<)*",
    "(v*)*",
    "v*/[v*/[#5]]",
    "v*/[!v*/[#6]&!v*/[#8]]",
];

fn proved(roll: &[u8], query: &[u8]) -> f64 {
    let mut room = [0; ROOM];
    least(|| compare::answer_on_roll(black_box(roll), black_box(query), &mut room))
}

/// The time for one of several small rolls, answered in turn in one run: together they have as many nodes as the large one, so that the
/// processor has as much to learn of them.
fn proved_in_turn(rolls: &[Vec<u8>], query: &[u8]) -> f64 {
    let mut room = [0; ROOM];
    let all = least(|| {
        let replies = rolls.iter().map(|roll| compare::answer_on_roll(black_box(roll), black_box(query), &mut room));
        replies.last().expect("there are rolls")
    });
    all / rolls.len() as f64
}

fn second(roll: &[u8], query: &[u8]) -> f64 {
    let mut room = [0; ROOM];
    least(|| second::answer_on_roll(black_box(roll), black_box(query), &mut room))
}

fn head(work: &str) {
    let [reply, proved, second] = ["reply", "proved", "second"];
    println!("{work:<38}{:>12}{reply:>8}{proved:>12}{second:>12}{:>8}{:>8}", "roll", "ratio", "growth");
}

/// One query on one shape of roll. Where the second program's time on the small roll says that the large one could take it more than some
/// seconds, it is left out.
fn line(name: &str, shape: &str, small: &[Vec<u8>], large: &[u8], query: &[u8]) {
    let reply = compare::answer_on_roll(large, query, &mut [0; ROOM]).to_string();
    let (least_small, least_large) = (proved_in_turn(small, query), proved(large, query));
    print!("{name:<38}{shape:>12}{reply:>8}{least_large:>10.1}µs");
    let square = (large.len() / small[0].len()).pow(2) as f64;
    if second(&small[0], query) * square < 4e6 {
        let theirs = second(large, query);
        print!("{theirs:>10.0}µs{:>8.3}", least_large / theirs);
    } else {
        print!("{:>12}{:>8}", "too long", "-");
    }
    println!("{:>8.1}", least_large / least_small);
}

pub fn answering() {
    head("answering on 4,096 nodes; growth: of 512");
    for (at, (shape, large)) in shapes(4096, SEED).into_iter().enumerate() {
        let small = small_rolls(at);
        for text in QUERIES {
            line(text, shape, &small, &large, &table_of(text));
        }
        for (name, table) in
            [("1,024 entries, v and ^ in turn", sequence()), ("1,024 entries, a star over 512 steps", star())]
        {
            line(name, shape, &small, &large, &table);
        }
    }
}

/// Steps joined two by two in a tree, from the first on.
fn joined(steps: &[u8], joint: u8) -> Vec<u8> {
    let joints = (0..steps.len() - 1).map(|at| entry(joint, 2 * at, 2 * at + 1));
    steps.iter().map(|kind| entry(*kind, 0, 0)).chain(joints).flatten().collect()
}

fn sequence() -> Vec<u8> {
    let mut table = joined(&[2, 3].repeat(256), 7);
    table.extend(entry(1, 0, 0));
    table
}

fn star() -> Vec<u8> {
    let mut table = joined(&[2, 3, 4, 5].repeat(128), 8);
    table.extend(entry(9, 1022, 0));
    table
}

/// Each entry is used twice by the next, so a table of n entries unfolds to 2^n steps.
pub fn shared() {
    println!("{:<38}{:>12}{:>12}", "entries used twice, on a root alone", "proved", "second");
    let [(_, root), ..] = shapes(1, SEED);
    for entries in [4, 8, 12, 16, 20] {
        let table: Vec<u8> = (0..entries)
            .flat_map(|at: usize| if at == 0 { entry(1, 0, 0) } else { entry(7, at - 1, at - 1) })
            .collect();
        println!(
            "{:<38}{:>10.1}µs{:>10.1}µs",
            format!("{entries} entries"),
            proved(&root, &table),
            second(&root, &table)
        );
    }
}
