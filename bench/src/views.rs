//! Calls 4 and 5: cutting out a view of a roll of 4,096 nodes, and rewriting.

use std::hint::black_box;

use second::Reply;

use crate::hidden::{drafts, hiding, Annotated};
use crate::rolls::{shapes, small_rolls, SEED};
use crate::tools::{entry, least, table_of};

fn head(work: &str) {
    let [reply, proved, second] = ["reply", "proved", "second"];
    println!("{work:<50}{reply:>8}{proved:>12}{second:>12}{:>8}{:>8}", "ratio", "growth");
}

fn proved(input: &Annotated) -> Reply {
    let mut room = [0; 4 * 4096];
    compare::cut_view(black_box(&input.roll), &input.annotation, &input.filters, &mut room)
}

fn second(input: &Annotated) -> Reply {
    let mut room = [0; 4 * 4096];
    second::cut_view(black_box(&input.roll), &input.annotation, &input.filters, &mut room)
}

fn line(name: &str, small: &[Annotated], large: &Annotated) {
    let (ours, theirs) = (least(|| proved(large)), least(|| second(large)));
    let in_turn = least(|| small.iter().map(proved).last().expect("there are rolls")) / small.len() as f64;
    let (reply, ratio, growth) = (proved(large).to_string(), ours / theirs, ours / in_turn);
    println!("{name:<50}{reply:>8}{ours:>10.1}µs{theirs:>10.0}µs{ratio:>8.3}{growth:>8.1}");
}

/// Views of one shape: how the nodes are hidden is said for a roll of any size.
fn lines(name: &str, shape: usize, hide: impl Fn(Vec<u8>) -> Annotated) {
    let small: Vec<Annotated> = small_rolls(shape).into_iter().map(&hide).collect();
    line(name, &small, &hide(shapes(4096, SEED)[shape].1.clone()));
}

pub fn cutting() {
    head("cutting out a view of 4,096 nodes; growth: of 512");
    lines("one chain, nothing hidden", 0, |roll| hiding(roll, |_| false));
    lines("one chain, every second node hidden", 0, |roll| hiding(roll, |at| at % 2 == 1));
    lines("one chain, all but the ends hidden", 0, |roll| {
        let last = roll.len() / 4 - 1;
        hiding(roll, |at| at != last)
    });
    lines("one root, every second node hidden", 1, |roll| hiding(roll, |at| at % 2 == 1));
    lines("random, every second node hidden", 3, |roll| hiding(roll, |at| at % 2 == 1));
    lines("court, drafts hidden", 2, drafts);
}

/// A table of 256 entries, as high as it may be: a step along each axis, and filters upon them.
fn fullest(height: usize, last_kind: u8) -> Vec<u8> {
    let mut entries = [2, 3, 4, 5].map(|kind| entry(kind, 0, 0)).to_vec();
    entries.extend([entry(7, 0, 2), entry(8, 1, 3), entry(7, 4, 5), entry(17, 6, 0)]);
    let top = height + 2;
    entries.extend((7..top).map(|below| entry(20, below, 0)));
    entries.extend((7..top).cycle().take(255 - entries.len()).map(|left| entry(21, left, 7)));
    entries.push(entry(last_kind, top, 0));
    entries.concat()
}

pub fn rewriting() {
    head("rewriting");
    let all: Vec<u8> = (0..32).flat_map(|at| [1 + at / 8, 1 + at % 8, 255, 0, 0, 0]).collect();
    let drafts = drafts(Vec::new());
    let largest = ("the largest inputs", all, fullest(16, 20), fullest(32, 6));
    let worked = |name, text| (name, drafts.annotation.clone(), drafts.filters.clone(), table_of(text));
    for (name, annotation, filters, query) in
        [largest, worked("three records, v", "v"), worked("three records, v*/[#5]", "v*/[#5]")]
    {
        let (mut ours, mut theirs) = ([0; 6144], [0; 6144]);
        let reply = compare::rewrite(&annotation, &filters, &query, &mut ours).to_string();
        let proved = least(|| compare::rewrite(black_box(&annotation), &filters, &query, &mut ours));
        let second = least(|| second::rewrite(black_box(&annotation), &filters, &query, &mut theirs));
        println!("{name:<50}{reply:>8}{proved:>10.2}µs{second:>10.2}µs{:>8.3}{:>8}", proved / second, "-");
    }
}
