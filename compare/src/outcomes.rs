//! The outcomes that each call's draws have to reach, and which of them a reply is.

use second::table::{heights, read_filters, read_query, Limits, CURATORS_QUERY, ENTRY_BYTES, FILTER_TABLE};
use second::Reply;

use crate::annotated::Annotated;
use crate::rules::{heights_of, stars_of, Stars, HEIGHT, MOST_ENTRIES, MOST_LISTED};
use crate::same::{PRINT_ROOM, TEXT_ROOM};
use crate::seen::{outcome, Kind, Seen};

/// A roll of one node, for what is asked of rules alone.
const ROOT_ALONE: [u8; 4] = [1, 0, 255, 255];

pub const OF_ROOM: &[Kind] =
    &[(1, "a room short by one"), (1, "a shorter room"), (0, "a room as named"), (0, "a longer room")];
pub const OF_ROLL: &[Kind] = &[
    (2, "the roll's length"),
    (3, "a record"),
    (3, "a late record"),
    (4, "a record"),
    (4, "a late record"),
    (5, "a record"),
    (5, "a late record"),
];
pub const OF_FILTERS: &[Kind] = &[
    (7, "the filters' length"),
    (8, "a filter entry"),
    (8, "a late filter entry"),
    (9, "a filter entry"),
    (9, "a late filter entry"),
];
pub const OF_ANNOTATION: &[Kind] = &[
    (6, "the annotation's length"),
    (10, "an annotation record"),
    (10, "a late annotation record"),
    (11, "an annotation record"),
    (11, "a late annotation record"),
];
pub const OF_QUERY: &[Kind] = &[
    (8, "a query entry"),
    (8, "a late query entry"),
    (9, "a query entry"),
    (9, "a late query entry"),
    (12, "the query's length"),
    (12, "the last query entry"),
    (12, "the last query entry, a late one"),
];
pub const OF_TEXT: &[Kind] = &[
    (13, "the text's length"),
    (14, "a byte"),
    (14, "a late byte"),
    (14, "the end"),
    (14, "a late end"),
    (15, "a byte"),
    (15, "a late byte"),
    (16, "the text"),
    (16, "a long text"),
    (19, "a byte"),
    (19, "a late byte"),
    (0, "a text"),
    (0, "a long text"),
    (0, "a text of many entries"),
];
pub const OF_ANSWERS: &[Kind] = &[
    (0, "no node"),
    (0, "one node"),
    (0, "several nodes"),
    (0, "few nodes of a great roll"),
    (0, "many nodes of a great roll"),
];
/// Accepted inputs that are as large as they may be.
pub const OF_GREATEST_QUERIES: &[Kind] = &[(0, "the most query entries"), (0, "the highest query")];
pub const OF_GREATEST_ANNOTATIONS: &[Kind] =
    &[(0, "the most filter entries"), (0, "the highest filters"), (0, "the most records")];
/// Of call 6: the view makes a difference.
pub const OF_VIEWS: &[Kind] = &[(0, "as on the roll"), (0, "other than on the roll")];
pub const OF_VIEWED: &[Kind] =
    &[(0, "all nodes"), (0, "some nodes"), (0, "all nodes of a great roll"), (0, "some nodes of a great roll")];
pub const OF_REWRITTEN: &[Kind] = &[(0, "it leads somewhere"), (0, "it leads nowhere")];
pub const OF_RUNS: &[Kind] = &[
    (0, "the whole roll"),
    (0, "a part of it"),
    (0, "the record alone"),
    (0, "nothing, of a bad roll"),
    (0, "nothing, no such record"),
];
/// Of printing, behind the query's refusals.
pub const OF_PRINTED: &[Kind] = &[
    (18, "a text of 1,025 bytes"),
    (18, "shared entries"),
    (0, "a text of 1,024 bytes"),
    (0, "a text with ("),
    (0, "a text with {"),
    (0, "a text with ["),
    (0, "a label of two digits"),
    (0, "read as the same bytes"),
    (0, "read as other bytes"),
    (0, "too many entries in a text"),
    (0, "too many entries in a long text"),
];

/// Of the check of content, behind the roll's refusals.
pub const OF_CONTENT: &[Kind] = &[
    (20, "a length"),
    (20, "a rule entry"),
    (20, "a late rule entry"),
    (20, "a list record"),
    (20, "a late list record"),
    (21, "the root"),
    (21, "a node"),
    (21, "a late node"),
    (21, "by a rule with stars inside stars"),
    (0, "with no list"),
    (0, "some nodes with a rule"),
    (0, "a great roll with rules"),
    (0, "the most rule entries"),
    (0, "the highest rule entry"),
    (0, "the most list records"),
    (0, "a rule with stars inside stars"),
    (0, "more than 32 stars in one"),
];

/// The room of a call that has one: too short, as long as is named for it, or longer. Other refusals say nothing of it.
pub fn note_room(seen: &mut Seen, reply: Reply, room: usize, named: usize) {
    match outcome(reply) {
        Err((1, _)) => seen.note(1, if room + 1 == named { "a room short by one" } else { "a shorter room" }),
        Err(_) => {}
        Ok(_) => seen.note(0, if room == named { "a room as named" } else { "a longer room" }),
    }
}

/// What a text of so many bytes came to.
pub fn note_text(seen: &mut Seen, reply: Reply, length: usize) {
    let late = 500;
    match outcome(reply) {
        Err((1, _)) => {}
        Err((13, _)) => seen.note(13, "the text's length"),
        Err((14, place)) if place == length => seen.note_place(14, place, late, ["the end", "a late end"]),
        Err((16, _)) => seen.note_place(16, length, late, ["the text", "a long text"]),
        Err((number, place)) => seen.note_place(number, place, late, ["a byte", "a late byte"]),
        Ok(entries) if entries > 200 => seen.note(0, "a text of many entries"),
        Ok(_) => seen.note_place(0, length, late, ["a text", "a long text"]),
    }
}

/// A bitmap's count.
pub fn note_answer(seen: &mut Seen, count: usize, great: bool) {
    if great {
        seen.note(0, if count < 1000 { "few nodes of a great roll" } else { "many nodes of a great roll" });
    } else {
        seen.note(0, ["no node", "one node", "several nodes"][count.min(2)]);
    }
}

/// A view of all nodes or of some.
pub fn note_view(seen: &mut Seen, all: bool, great: bool) {
    let kinds = [["some nodes", "some nodes of a great roll"], ["all nodes", "all nodes of a great roll"]];
    seen.note(0, kinds[usize::from(all)][usize::from(great)]);
}

/// A refusal of the roll; one of the room is noted with the room.
pub fn note_roll(seen: &mut Seen, (number, place): (u8, usize)) {
    match number {
        1 => {}
        2 => seen.note(2, "the roll's length"),
        _ => seen.note_place(number, place, 4000, ["a record", "a late record"]),
    }
}

/// A refusal of the filters or the annotation, of which the former are looked at first.
pub fn note_annotated(seen: &mut Seen, (number, place): (u8, usize)) {
    match number {
        6 => seen.note(6, "the annotation's length"),
        7 => seen.note(7, "the filters' length"),
        8 | 9 => seen.note_place(number, place, 200, ["a filter entry", "a late filter entry"]),
        10 | 11 => seen.note_place(number, place, 25, ["an annotation record", "a late annotation record"]),
        _ => note_roll(seen, (number, place)),
    }
}

pub fn note_query(seen: &mut Seen, (number, place): (u8, usize), query: &[u8], limits: Limits) {
    let late = limits.entries * 3 / 4;
    let bad_length = query.is_empty() || query.len() % ENTRY_BYTES > 0 || query.len() > limits.entries * ENTRY_BYTES;
    match number {
        12 if bad_length => seen.note(12, "the query's length"),
        12 => seen.note_place(12, place, late, ["the last query entry", "the last query entry, a late one"]),
        _ => seen.note_place(number, place, late, ["a query entry", "a late query entry"]),
    }
}

/// An accepted query that has as many entries as it may have, or is as high.
pub fn note_greatest_query(seen: &mut Seen, query: &[u8], limits: Limits) {
    let entries = read_query(query, limits).expect("it was accepted");
    if entries.len() == limits.entries {
        seen.note(0, "the most query entries");
    }
    if heights(&entries).into_iter().max() == Some(limits.height) {
        seen.note(0, "the highest query");
    }
}

/// An accepted annotation and its filters, likewise.
pub fn note_greatest_annotation(seen: &mut Seen, input: &Annotated) {
    let entries = read_filters(&input.filters).expect("they were accepted");
    if entries.len() == FILTER_TABLE.entries {
        seen.note(0, "the most filter entries");
    }
    if heights(&entries).into_iter().max() == Some(FILTER_TABLE.height) {
        seen.note(0, "the highest filters");
    }
    if input.annotation.len() == 32 * ENTRY_BYTES {
        seen.note(0, "the most records");
    }
}

/// A refusal of a call that takes an annotation and a curator's query. 8 and 9 are the filters' if these are not in order.
pub fn note_asked(seen: &mut Seen, refused: (u8, usize), input: &Annotated, query: &[u8]) {
    match refused.0 {
        8 | 9 if read_filters(&input.filters).is_ok() => note_query(seen, refused, query, CURATORS_QUERY),
        12 => note_query(seen, refused, query, CURATORS_QUERY),
        _ => note_annotated(seen, refused),
    }
}

/// A text that was printed: what stands in it, and how it is read.
pub fn note_printed(seen: &mut Seen, query: &[u8], text: &[u8]) {
    for (bracket, kind) in [(b'(', "a text with ("), (b'{', "a text with {"), (b'[', "a text with [")] {
        if text.contains(&bracket) {
            seen.note(0, kind);
        }
    }
    if text.windows(3).any(|bytes| bytes[0] == b'#' && bytes[2].is_ascii_digit()) {
        seen.note(0, "a label of two digits");
    }
    if text.len() == PRINT_ROOM {
        seen.note(0, "a text of 1,024 bytes");
    }
    // Those that were made for their length all have too many entries; shorter ones must come too.
    let (mut room, made_for_its_length) = ([0; TEXT_ROOM], PRINT_ROOM - 1);
    match outcome(crate::read_text(text, &mut room)) {
        Err(_) => {
            let kinds = ["too many entries in a text", "too many entries in a long text"];
            seen.note_place(0, text.len(), made_for_its_length, kinds);
        }
        Ok(entries) if room[..entries * ENTRY_BYTES] == *query => seen.note(0, "read as the same bytes"),
        Ok(_) => seen.note(0, "read as other bytes"),
    }
}

/// A refusal of rules or of a node's children. 20 is of the first of lengths, entries and list that is not in order, which the rules say.
pub fn note_content(seen: &mut Seen, (number, place): (u8, usize), rules: &[u8], list: &[u8]) {
    let bad_length = |bytes: &[u8], record: usize, most: usize| bytes.len() % record > 0 || bytes.len() > record * most;
    let lengths = bad_length(rules, ENTRY_BYTES, MOST_ENTRIES) || bad_length(list, 4, MOST_LISTED);
    match number {
        20 if lengths => seen.note(20, "a length"),
        20 if second::check_content(&ROOT_ALONE, rules, &[]) == (Reply::Refused { number, place }) => {
            seen.note_place(20, place, 100, ["a rule entry", "a late rule entry"]);
        }
        20 => seen.note_place(20, place, 8, ["a list record", "a late list record"]),
        21 if place == 0 => seen.note(21, "the root"),
        21 => seen.note_place(21, place, 100, ["a node", "a late node"]),
        _ => note_roll(seen, (number, place)),
    }
    if number == 21 && listed_stars(rules, list).any(|stars| stars.deep > 1) {
        seen.note(21, "by a rule with stars inside stars");
    }
}

/// The stars of the rules that are listed.
fn listed_stars<'a>(rules: &[u8], list: &'a [u8]) -> impl Iterator<Item = Stars> + 'a {
    let stars = stars_of(rules);
    list.chunks_exact(4).map(move |record| stars[usize::from(record[2]) + 256 * usize::from(record[3])])
}

/// Rules that a roll follows.
pub fn note_followed(seen: &mut Seen, rules: &[u8], list: &[u8], great: bool) {
    seen.note(0, if list.is_empty() { "with no list" } else { "some nodes with a rule" });
    if great && !list.is_empty() {
        seen.note(0, "a great roll with rules");
    }
    if rules.len() == ENTRY_BYTES * MOST_ENTRIES {
        seen.note(0, "the most rule entries");
    }
    if heights_of(rules).into_iter().max() == Some(HEIGHT) {
        seen.note(0, "the highest rule entry");
    }
    if list.len() == 4 * MOST_LISTED {
        seen.note(0, "the most list records");
    }
    if listed_stars(rules, list).any(|stars| stars.deep > 1) {
        seen.note(0, "a rule with stars inside stars");
    }
    if listed_stars(rules, list).any(|stars| stars.in_one > 32) {
        seen.note(0, "more than 32 stars in one");
    }
}
