//! Inputs of each call drawn by chance: small ones and such that come up to the limits, as they grow or damaged, with rooms that are too
//! short, as named and longer.

use second::table::{Limits, CURATORS_QUERY, ENTRY_BYTES, FILTER_TABLE, QUERY_ON_ROLL};
use second::Reply;

use crate::annotated::Annotated;
use crate::chance::Chance;
use crate::damage::{break_annotation, break_list, break_roll, break_rules, break_table};
use crate::labels::{any_labels, Labels};
use crate::outcomes::*;
use crate::records::{chain, grown_roll, labelled, wide, MOST_NODES};
use crate::rules::{greatest_rules, some_rules};
use crate::same::{self, BITMAP_ROOM, CONTENT, PRINTING, PRINT_ROOM, REWRITE_ROOM, TEXT_ROOM};
use crate::seen::{outcome, Kind, Seen};
use crate::tables::{table_of, Table, LABELS};
use crate::texts::some_text;

/// A call with the draw of one input, and the outcomes that draws have to reach.
pub struct Call {
    pub number: u8,
    draw: fn(&mut Chance, &mut Seen),
    pub expected: &'static [&'static [Kind]],
}

/// How many inputs of each call the tests draw, and how often each outcome must come among them.
pub const INPUTS: u64 = 50_000;
pub const LEAST: usize = 20;

impl Call {
    /// Draws some inputs of a run. Each has its own chance, so that one of them can be drawn again alone.
    pub fn draw(&self, seed: u64, inputs: std::ops::Range<u64>, seen: &mut Seen) {
        for input in inputs {
            let _told = Told { call: self.number, seed, input };
            (self.draw)(&mut Chance::of(seed.wrapping_add(u64::from(self.number) << 56), input), seen);
        }
    }

    /// What is amiss with the outcomes of a run: those that came less often than this, and those that no call of this number has.
    pub fn amiss(&self, seen: &Seen, least: usize) -> Vec<String> {
        seen.amiss(&self.expected.concat(), least)
    }
}

/// Says which input was being drawn when a check failed.
struct Told {
    call: u8,
    seed: u64,
    input: u64,
}

impl Drop for Told {
    fn drop(&mut self) {
        if std::thread::panicking() {
            eprintln!("call {}, seed {}, input {}", self.call, self.seed, self.input);
        }
    }
}

pub const CALLS: [Call; 9] = [
    Call { number: 1, draw: check_roll, expected: &[OF_ROLL, &[(0, "nodes"), (0, "4,096 nodes")]] },
    Call { number: 2, draw: read_text, expected: &[OF_ROOM, OF_TEXT] },
    Call { number: 3, draw: answer_on_roll, expected: &[OF_ROOM, OF_ROLL, OF_QUERY, OF_ANSWERS, OF_GREATEST_QUERIES] },
    Call {
        number: 4,
        draw: cut_view,
        expected: &[OF_ROOM, OF_ROLL, OF_FILTERS, OF_ANNOTATION, OF_VIEWED, OF_GREATEST_ANNOTATIONS],
    },
    Call {
        number: 5,
        draw: rewrite,
        expected: &[
            OF_ROOM,
            OF_FILTERS,
            OF_ANNOTATION,
            OF_QUERY,
            OF_REWRITTEN,
            OF_GREATEST_ANNOTATIONS,
            OF_GREATEST_QUERIES,
        ],
    },
    Call {
        number: 6,
        draw: curators_answer,
        expected: &[
            OF_ROOM,
            OF_ROLL,
            OF_FILTERS,
            OF_ANNOTATION,
            OF_QUERY,
            OF_ANSWERS,
            OF_VIEWS,
            OF_GREATEST_ANNOTATIONS,
            OF_GREATEST_QUERIES,
        ],
    },
    Call { number: 7, draw: run_of_record, expected: &[OF_RUNS] },
    Call { number: PRINTING, draw: print_query, expected: &[OF_ROOM, OF_QUERY, OF_GREATEST_QUERIES, OF_PRINTED] },
    Call { number: CONTENT, draw: check_content, expected: &[OF_ROLL, OF_CONTENT] },
];

/// A roll of few nodes, of some hundred, or of about as many as there may be; and whether it is one of these. A chain is no longer than
/// said: what takes a round for each level takes long on it.
fn some_roll(chance: &mut Chance, labels: usize, longest_chain: usize) -> (Vec<u8>, bool) {
    let size = match chance.below(16) {
        0 => MOST_NODES - chance.below(4),
        1 => 25 + chance.below(200),
        _ => 1 + chance.below(24),
    };
    let roll = match chance.below(8) {
        0 if size <= longest_chain => labelled(chance, chain(size), labels),
        1 => labelled(chance, wide(size), labels),
        _ => grown_roll(chance, size, labels),
    };
    (roll, size > 1000)
}

/// Whether an input is to be damaged; a great one mostly, since it takes long otherwise.
fn to_break(chance: &mut Chance, great: bool) -> bool {
    chance.below(8) < if great { 6 } else { 5 }
}

/// A room of the length named, short by one or more, or longer.
fn some_room(chance: &mut Chance, named: usize) -> usize {
    match chance.below(32) {
        0 => named.saturating_sub(1),
        1 => chance.below(named + 1),
        2..=11 => named + 1 + chance.below(40),
        _ => named,
    }
}

fn check_roll(chance: &mut Chance, seen: &mut Seen) {
    let (mut roll, _) = some_roll(chance, 64, MOST_NODES);
    for _ in 0..chance.below(3) {
        break_roll(chance, &mut roll);
    }
    match outcome(same::check_roll(&roll)) {
        Err(refused) => note_roll(seen, refused),
        Ok(nodes) => seen.note(0, if nodes == MOST_NODES { "4,096 nodes" } else { "nodes" }),
    }
}

fn run_of_record(chance: &mut Chance, seen: &mut Seen) {
    let (mut roll, _) = some_roll(chance, 64, MOST_NODES);
    if chance.one_in(4) {
        break_roll(chance, &mut roll);
    }
    let nodes = roll.len() / 4;
    let record = match chance.below(8) {
        0 => chance.pick(&[nodes, nodes + 1, 4096, 65_535, 65_536, usize::MAX / 4 + 1, usize::MAX]),
        1 => chance.pick(&[0, 1, nodes.saturating_sub(1)]),
        _ => chance.below(nodes + 1),
    };
    let run = same::run_of_record(&roll, record).len();
    let bad = outcome(second::check_roll(&roll)).is_err();
    seen.note(
        0,
        match run {
            0 if bad => "nothing, of a bad roll",
            0 => "nothing, no such record",
            run if run == roll.len() => "the whole roll",
            4 => "the record alone",
            _ => "a part of it",
        },
    );
}

fn read_text(chance: &mut Chance, seen: &mut Seen) {
    let text = some_text(chance);
    let room = some_room(chance, TEXT_ROOM);
    let reply = same::read_text(&text, room).0;
    note_room(seen, reply, room, TEXT_ROOM);
    note_text(seen, reply, text.len());
}

/// A query within limits, small or great, which unfolds to no more than said.
fn some_query(chance: &mut Chance, limits: Limits, largest: usize) -> Vec<u8> {
    if chance.one_in(12) {
        return Table::greatest(chance, limits, largest).bytes;
    }
    let tries = 1 + chance.below(16);
    Table::within(limits.height.min(30), largest).grown(chance, tries).ended(chance).bytes
}

fn answer_on_roll(chance: &mut Chance, seen: &mut Seen) {
    let (mut roll, great) = some_roll(chance, LABELS, MOST_NODES);
    let mut query = some_query(chance, QUERY_ON_ROLL, 300);
    let labels = Labels::drawn(chance);
    labels.on_roll(&mut roll);
    labels.in_table(&mut query);
    if to_break(chance, great) {
        for _ in 0..1 + chance.below(2) {
            match chance.below(2) {
                0 => break_roll(chance, &mut roll),
                _ => break_table(chance, &mut query, QUERY_ON_ROLL),
            }
        }
    }
    let room = some_room(chance, BITMAP_ROOM);
    let reply = same::answer_on_roll(&roll, &query, room).0;
    note_room(seen, reply, room, BITMAP_ROOM);
    match outcome(reply) {
        Err(refused) if refused.0 < 6 => note_roll(seen, refused),
        Err(refused) => note_query(seen, refused, &query, QUERY_ON_ROLL),
        Ok(count) => {
            note_answer(seen, count, great);
            note_greatest_query(seen, &query, QUERY_ON_ROLL);
        }
    }
}

/// A roll with its annotation and filters, small or great.
fn some_annotated(chance: &mut Chance, most: usize) -> Annotated {
    if chance.one_in(12) {
        Annotated::greatest(chance, most)
    } else {
        Annotated::grown(chance, most)
    }
}

/// Damage to filters or annotation.
fn break_annotated(chance: &mut Chance, input: &mut Annotated) {
    match chance.below(2) {
        0 => break_annotation(chance, &mut input.annotation),
        _ => break_table(chance, &mut input.filters, FILTER_TABLE),
    }
}

fn cut_view(chance: &mut Chance, seen: &mut Seen) {
    let (roll, great) = some_roll(chance, LABELS, MOST_NODES);
    let mut input = Annotated { roll, ..some_annotated(chance, 1) };
    Labels::drawn(chance).on(&mut input);
    if to_break(chance, great) {
        for _ in 0..1 + chance.below(2) {
            match chance.below(3) {
                0 => break_roll(chance, &mut input.roll),
                _ => break_annotated(chance, &mut input),
            }
        }
    }
    let size = input.roll.len();
    let room = some_room(chance, size);
    let reply = same::cut_view(&input, room).0;
    note_room(seen, reply, room, size);
    match outcome(reply) {
        Err(refused) => note_annotated(seen, refused),
        Ok(nodes) => {
            note_view(seen, nodes == size / 4, great);
            note_greatest_annotation(seen, &input);
        }
    }
}

fn rewrite(chance: &mut Chance, seen: &mut Seen) {
    let most = if chance.one_in(32) { 60 } else { 12 };
    let mut input = some_annotated(chance, most);
    let mut query = some_query(chance, CURATORS_QUERY, 100);
    let labels = Labels::drawn(chance);
    labels.on(&mut input);
    labels.in_table(&mut query);
    if to_break(chance, false) {
        for _ in 0..1 + chance.below(2) {
            match chance.below(3) {
                0 => break_table(chance, &mut query, CURATORS_QUERY),
                _ => break_annotated(chance, &mut input),
            }
        }
    }
    let room = some_room(chance, REWRITE_ROOM);
    let (reply, table) = same::rewrite(&input.annotation, &input.filters, &query, room);
    note_room(seen, reply, room, REWRITE_ROOM);
    match outcome(reply) {
        Err(refused) => note_asked(seen, refused, &input, &query),
        Ok(_) => {
            let reached = same::rewritten_reaches(&input, &query, &table);
            seen.note(0, if reached > 0 { "it leads somewhere" } else { "it leads nowhere" });
            note_greatest_annotation(seen, &input);
            note_greatest_query(seen, &query, CURATORS_QUERY);
        }
    }
}

fn curators_answer(chance: &mut Chance, seen: &mut Seen) {
    let (roll, great) = some_roll(chance, LABELS, 200);
    let mut input = Annotated { roll, ..some_annotated(chance, 1) };
    let mut query = some_query(chance, CURATORS_QUERY, 40);
    let labels = Labels::drawn(chance);
    labels.on(&mut input);
    labels.in_table(&mut query);
    if to_break(chance, great) {
        for _ in 0..1 + chance.below(2) {
            match chance.below(4) {
                0 => break_table(chance, &mut query, CURATORS_QUERY),
                1 => break_roll(chance, &mut input.roll),
                _ => break_annotated(chance, &mut input),
            }
        }
    }
    let room = some_room(chance, BITMAP_ROOM);
    let (reply, bitmap) = same::curators_answer(&input, &query, room);
    note_room(seen, reply, room, BITMAP_ROOM);
    match outcome(reply) {
        Err(refused) => note_asked(seen, refused, &input, &query),
        Ok(count) => {
            note_answer(seen, count, great);
            note_greatest_annotation(seen, &input);
            note_greatest_query(seen, &query, CURATORS_QUERY);
            let mut on_roll = [0; BITMAP_ROOM];
            crate::answer_on_roll(&input.roll, &query, &mut on_roll);
            seen.note(0, if bitmap == on_roll { "as on the roll" } else { "other than on the roll" });
        }
    }
}

/// The table of a text by chance, or of a plain one where that is refused.
fn some_read(chance: &mut Chance) -> Vec<u8> {
    let (text, mut room) = (some_text(chance), [0; TEXT_ROOM]);
    match crate::read_text(&text, &mut room) {
        Reply::Count(entries) => room[..entries * ENTRY_BYTES].to_vec(),
        Reply::Refused { .. } => table_of("v"),
    }
}

/// A query whose text has so many bytes, which are more than a small one has.
fn query_of_length(chance: &mut Chance, bytes: usize) -> Vec<u8> {
    let tries = 1 + chance.below(40);
    let mut table = Table::within(20, 200).grown(chance, tries).ended(chance);
    any_labels(chance, &mut table.bytes);
    let reply = second::print_query(&table.bytes, &mut [0; PRINT_ROOM]);
    let Reply::Count(printed) = reply else { panic!("a small query is not printed: {reply}") };
    table.lengthened(chance, printed, bytes).bytes
}

/// A query of entries that share others, and so may stand for more text than could ever be written.
fn doubled_query(chance: &mut Chance) -> Vec<u8> {
    let (tries, storeys) = (chance.below(16), chance.below(25));
    Table::within(6, 40).grown(chance, tries).doubled(chance, storeys).ended(chance).bytes
}

/// A query to be printed, and the bytes of its text, if it was made for that.
fn some_printed(chance: &mut Chance) -> (Vec<u8>, Option<usize>) {
    if chance.one_in(8) {
        let bytes = chance.pick(&[PRINT_ROOM - 1, PRINT_ROOM, PRINT_ROOM + 1]);
        return (query_of_length(chance, bytes), Some(bytes));
    }
    let mut query = match chance.below(3) {
        0 => some_read(chance),
        1 => some_query(chance, CURATORS_QUERY, 300),
        _ => doubled_query(chance),
    };
    any_labels(chance, &mut query);
    (query, None)
}

fn print_query(chance: &mut Chance, seen: &mut Seen) {
    let (mut query, made) = some_printed(chance);
    if made.is_none() && chance.one_in(2) {
        for _ in 0..1 + chance.below(2) {
            break_table(chance, &mut query, CURATORS_QUERY);
        }
    }
    let room = some_room(chance, PRINT_ROOM);
    let (reply, text) = same::print_query(&query, room);
    note_room(seen, reply, room, PRINT_ROOM);
    match outcome(reply) {
        Err((1, _)) => {}
        Err((18, _)) => {
            assert!(made.is_none_or(|bytes| bytes > PRINT_ROOM), "a text of {made:?} bytes is too long");
            seen.note(18, if made.is_some() { "a text of 1,025 bytes" } else { "shared entries" });
        }
        Err(refused) => note_query(seen, refused, &query, CURATORS_QUERY),
        Ok(bytes) => {
            assert!(made.is_none_or(|made| made == bytes), "a text of {made:?} bytes has {bytes}");
            note_printed(seen, &query, &text);
            note_greatest_query(seen, &query, CURATORS_QUERY);
        }
    }
}

/// A node, mostly one of the last, gets a label that no other has.
fn relabel(chance: &mut Chance, roll: &mut [u8], labels: usize) {
    let nodes = roll.len() / 4;
    if nodes > 1 {
        let back = if chance.one_in(4) { nodes - 1 } else { (nodes - 1).min(8) };
        roll[4 * (nodes - 1 - chance.below(back))] = labels as u8 + 1;
    }
}

fn check_content(chance: &mut Chance, seen: &mut Seen) {
    let labels = 1 + chance.below(4);
    let (mut roll, great) = some_roll(chance, labels, MOST_NODES);
    let (mut rules, mut list) =
        if chance.one_in(32) { greatest_rules(chance) } else { some_rules(chance, &roll, labels) };
    for _ in 0..chance.below(3) {
        match chance.below(6) {
            0 => break_roll(chance, &mut roll),
            1 | 2 => break_rules(chance, &mut rules),
            3 => break_list(chance, &mut list),
            4 => relabel(chance, &mut roll, labels),
            _ => {}
        }
    }
    match outcome(same::check_content(&roll, &rules, &list)) {
        Err(refused) => note_content(seen, refused, &rules, &list),
        Ok(_) => note_followed(seen, &rules, &list, great),
    }
}
