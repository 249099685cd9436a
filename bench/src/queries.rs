//! Query tables to be printed: of several shapes and lengths, low and high, and with a text that is too long.

use second::Reply;

use crate::tools::{entry, table_of};

/// What a table is, and its bytes.
pub type Query = (&'static str, Vec<u8>);

fn child() -> Vec<u8> {
    table_of("v")
}

fn last(table: &[u8]) -> usize {
    table.len() / 6 - 1
}

/// The table with so many entries behind it, each made from the number of the one before.
fn raised(mut table: Vec<u8>, times: usize, above: impl Fn(usize) -> [u8; 6]) -> Vec<u8> {
    (0..times).for_each(|_| table.extend(above(last(&table))));
    table
}

/// Each entry has the one before it as both operands, so that its text is twice as long and more.
fn doubled(table: Vec<u8>, kind: u8, times: usize) -> Vec<u8> {
    raised(table, times, |below| entry(kind, below, below))
}

/// `v/(..)` around a table whose first entry is `v`, so many times.
fn bracketed(table: Vec<u8>, times: usize) -> Vec<u8> {
    raised(table, times, |below| entry(7, 0, below))
}

/// `[!..]` around `v`, so many times: each is three entries.
fn denied(times: usize) -> Vec<u8> {
    raised(child(), 3 * times, |below| entry([17, 20, 6][below % 3], below, 0))
}

/// The table's text as often as so many bytes hold it, and once at least, with `|` between. Each use is of the same entries, since a long
/// text has more parts than a table may have entries.
fn repeated(unit: Vec<u8>, bytes: usize) -> Vec<u8> {
    let fits = |table: &Vec<u8>| match compare::print_query(table, &mut [0; 1024]) {
        Reply::Count(size) => size <= bytes,
        Reply::Refused { .. } => false,
    };
    let times = |times: usize| raised(unit.clone(), times, |below| entry(8, below, last(&unit)));
    (1..).map(times).take_while(fits).last().unwrap_or(unit.clone())
}

/// The most bytes of a text, and how high brackets are nested in one of brackets: so that the height that is left lets them be repeated up
/// to that length.
const LENGTHS: [(usize, usize); 4] = [(16, 5), (128, 32), (512, 26), (1024, 20)];

/// A short text, repeated to an eighth of so many bytes, and that to all of them: so it is as long as it may be within the height.
fn repeated_twice(text: &str, bytes: usize) -> Vec<u8> {
    repeated(repeated(table_of(text), bytes / 8), bytes)
}

fn of_lengths(name: &'static str, table: impl Fn(usize, usize) -> Vec<u8>) -> Vec<Query> {
    LENGTHS.into_iter().map(|(bytes, nested)| (name, table(bytes, nested))).collect()
}

/// Tables that are printed.
pub fn printed() -> Vec<Query> {
    let low = doubled(child(), 7, 8);
    let high = bracketed(low.clone(), 23);
    [
        of_lengths("steps, `v/^/>/<`", |bytes, _| repeated_twice("v/^/>/<", bytes)),
        of_lengths("brackets, `v/(v/(..))`", |bytes, nested| repeated(bracketed(child(), nested - 1), bytes)),
        of_lengths("filters, `[{#7+v}&!{t&f}]`", |bytes, _| repeated_twice("[{#7+v}&!{t&f}]", bytes)),
        of_lengths("stars, `((v*)*)*`", |bytes, _| repeated_twice("((v*)*)*", bytes)),
        vec![("`v`, doubled 8 times", low), ("the same in 23 brackets", high)],
    ]
    .concat()
}

/// Tables whose text is too long.
pub fn too_long() -> Vec<Query> {
    let nots = raised(table_of("[t]")[..6].to_vec(), 15, |below| entry(20, below, 0));
    vec![
        ("`v`, doubled 31 times: 2^31 `v`s", doubled(child(), 7, 31)),
        ("`v`, doubled 9 times", doubled(child(), 7, 9)),
        ("`v`, doubled 11 times, in 20 brackets", bracketed(doubled(child(), 7, 11), 20)),
        ("15 times `!`, doubled 6 times", raised(doubled(nots, 21, 6), 1, |below| entry(6, below, 0))),
        ("`[!..]` 8 times, doubled 7 times", doubled(denied(8), 7, 7)),
    ]
}
