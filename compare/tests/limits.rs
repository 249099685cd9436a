//! The limits of documents 01 and 02, one step within and one beyond, on every call that has them.

use compare::annotated::Annotated;
use compare::records::{chain, entry, node, shaped, wide, MOST_NODES, NO_PARENT};
use compare::same::{self, BITMAP_ROOM, PRINT_ROOM, REWRITE_ROOM, TEXT_ROOM};
use compare::tables::table_of;
use second::Reply;

fn refused(number: u8, place: usize) -> Reply {
    Reply::Refused { number, place }
}

/// A roll with everything visible.
fn open(roll: Vec<u8>) -> Annotated {
    Annotated { roll, annotation: Vec::new(), filters: Vec::new() }
}

/// The replies of calls 1, 3, 4 and 6 for a roll, where all nodes are asked for, and the length of the run of its record 0.
fn judged(roll: &[u8]) -> ([Reply; 4], usize) {
    let (all, input) = (table_of("v*"), open(roll.to_vec()));
    let replies = [
        same::check_roll(roll),
        same::answer_on_roll(roll, &all, BITMAP_ROOM).0,
        same::cut_view(&input, roll.len()).0,
        same::curators_answer(&input, &all, BITMAP_ROOM).0,
    ];
    (replies, same::run_of_record(roll, 0).len())
}

/// Rolls of so many nodes: one chain, all under one root, a comb, and the two with half the nodes each, either way round.
fn shapes(size: usize) -> [Vec<u8>; 5] {
    let half = size / 2;
    [
        chain(size),
        wide(size),
        shaped(size, |at| if at % 2 == 0 { at - 2 } else { at - 1 }),
        shaped(size, |at| at.min(half) - usize::from(at <= half)),
        shaped(size, |at| if at <= half { 0 } else { at - 1 }),
    ]
}

#[test]
fn the_nodes_of_a_roll() {
    for size in [1, 2, 4095, MOST_NODES] {
        for roll in shapes(size) {
            assert_eq!(judged(&roll), ([Reply::Count(size); 4], 4 * size));
        }
    }
    for roll in shapes(MOST_NODES + 1) {
        assert_eq!(judged(&roll), ([refused(2, 0); 4], 0));
    }
    for length in [0, 1, 3, 5, 16_383, 16_385, 16_388] {
        assert_eq!(judged(&chain(4097)[..length]), ([refused(2, 0); 4], 0));
    }
    assert_eq!(judged(&node(1, 0)), ([refused(5, 0); 4], 0));
}

#[test]
fn the_runs_of_the_greatest_rolls() {
    for roll in shapes(MOST_NODES) {
        for record in [0, 1, 2, 2047, 2048, 2049, 4094, 4095] {
            assert!(!same::run_of_record(&roll, record).is_empty());
        }
        for record in [4096, 4097, 65_535, 65_536, usize::MAX / 4, usize::MAX] {
            assert!(same::run_of_record(&roll, record).is_empty());
        }
    }
    assert_eq!(same::run_of_record(&chain(MOST_NODES), 4000).len(), 4 * 96);
    assert_eq!(same::run_of_record(&wide(MOST_NODES), 4000).len(), 4);
}

/// The last record broken in each way.
#[test]
fn the_last_record_of_a_roll() {
    for roll in shapes(MOST_NODES) {
        for (at, byte, number) in [(0, 0, 3), (0, 65, 3), (1, 1, 4), (3, 16, 5), (3, 255, 5)] {
            let mut broken = roll.clone();
            broken[4 * 4095 + at] = byte;
            assert_eq!(judged(&broken), ([refused(number, 4095); 4], 0));
        }
    }
}

/// A table of so many entries: steps or truths, upon which stars or nots stand as high as said.
fn tower(entries: usize, height: usize, ground: u8, upon: u8) -> Vec<u8> {
    let at_height = |at: usize| if at % height == 0 { entry(ground, 0, 0, 0) } else { entry(upon, 0, at - 1, 0) };
    (0..entries).flat_map(at_height).collect()
}

fn stars(entries: usize, height: usize) -> Vec<u8> {
    tower(entries, height, 2, 9)
}

fn nots(entries: usize, height: usize) -> Vec<u8> {
    tower(entries, height, 18, 20)
}

#[test]
fn the_entries_and_height_of_a_query_on_a_roll() {
    for roll in shapes(MOST_NODES) {
        let reply = |entries: usize, height: usize| same::answer_on_roll(&roll, &stars(entries, height), BITMAP_ROOM).0;
        for (entries, height) in [(128, 128), (1024, 128), (2, 2)] {
            assert_eq!(reply(entries, height), Reply::Count(MOST_NODES));
        }
        assert!(matches!(reply(1, 1), Reply::Count(1 | 2048 | 4095 | 2)));
        assert_eq!(reply(129, 129), refused(9, 128));
        assert_eq!(reply(1024, 129), refused(9, 128));
        assert_eq!(reply(1025, 128), refused(12, 0));
        assert_eq!(reply(0, 1), refused(12, 0));
    }
}

/// A tree of joints, 1,024 entries in all, and a path that turns back and forth, 128 high.
#[test]
fn the_largest_queries_on_a_roll() {
    let steps = (0..512).map(|at| entry([2, 3, 2, 4, 5, 3][at % 6], 0, 0, 0));
    let joints = (0..511).map(|at| entry(8, 0, 2 * at, 2 * at + 1));
    let joined: Vec<u8> = steps.chain(joints).chain([entry(9, 0, 1022, 0)]).flatten().collect();
    assert_eq!(joined.len(), 6 * 1024);
    let back_and_forth: Vec<u8> = (0..255)
        .flat_map(|at| match at {
            0 => entry(2, 0, 0, 0),
            at if at % 2 == 1 => entry([2, 3, 4, 2, 5][at / 2 % 5], 0, 0, 0),
            at => entry(7, 0, at - 2, at - 1),
        })
        .collect();
    // A star goes as deep as the roll, and 1,024 entries at each of 4,096 rounds take the second program seconds.
    for roll in shapes(256) {
        assert_eq!(same::answer_on_roll(&roll, &joined, BITMAP_ROOM).0, Reply::Count(256));
    }
    assert_eq!(same::answer_on_roll(&wide(MOST_NODES), &joined, BITMAP_ROOM).0, Reply::Count(MOST_NODES));
    for roll in shapes(MOST_NODES) {
        same::answer_on_roll(&roll, &back_and_forth, BITMAP_ROOM);
    }
}

/// Both calls that take a curator's query, on a view.
fn curators(input: &Annotated, query: &[u8]) -> [Reply; 2] {
    let rewritten = same::rewrite(&input.annotation, &input.filters, query, REWRITE_ROOM).0;
    // The number of entries is free.
    let rewritten = if let Reply::Count(_) = rewritten { Reply::Count(0) } else { rewritten };
    [rewritten, same::curators_answer(input, query, BITMAP_ROOM).0]
}

#[test]
fn the_entries_and_height_of_a_curators_query() {
    let worked = Annotated::worked();
    let taken = [Reply::Count(0), Reply::Count(8)];
    assert_eq!(curators(&worked, &stars(32, 32)), taken);
    assert_eq!(curators(&worked, &stars(256, 32)), taken);
    assert_eq!(curators(&worked, &stars(33, 33)), [refused(9, 32); 2]);
    assert_eq!(curators(&worked, &stars(256, 33)), [refused(9, 32); 2]);
    assert_eq!(curators(&worked, &stars(257, 32)), [refused(12, 0); 2]);
    assert_eq!(curators(&worked, &[]), [refused(12, 0); 2]);
}

#[test]
fn the_entries_and_height_of_a_printed_query() {
    let printed = |entries: usize, height: usize| same::print_query(&stars(entries, height), PRINT_ROOM).0;
    // A step, 31 stars, and a pair of brackets between each two of them.
    assert_eq!([printed(32, 32), printed(256, 32)], [Reply::Count(1 + 31 + 2 * 30); 2]);
    assert_eq!([printed(33, 33), printed(256, 33)], [refused(9, 32); 2]);
    assert_eq!([printed(257, 32), printed(0, 1)], [refused(12, 0); 2]);
}

/// Calls 4, 5 and 6 on a chain of 4,096, with so many records of which each names a filter of this table.
fn annotated(records: usize, filters: Vec<u8>) -> [Reply; 3] {
    let named = |at: usize| at % (filters.len() / 6).max(1);
    let record = |at: usize| entry(40 + (at / 8) as u8, 1 + (at % 8) as u8, named(at), 0);
    let annotation = (0..records).flat_map(record).collect();
    let input = Annotated { roll: chain(MOST_NODES), annotation, filters };
    let [rewritten, answered] = curators(&input, &entry(2, 0, 0, 0));
    [same::cut_view(&input, input.roll.len()).0, rewritten, answered]
}

#[test]
fn the_entries_and_height_of_a_filter_table_and_the_records_of_an_annotation() {
    let taken = [Reply::Count(MOST_NODES), Reply::Count(0), Reply::Count(1)];
    assert_eq!(annotated(32, nots(256, 16)), taken);
    assert_eq!(annotated(32, nots(256, 17)), [refused(9, 16); 3]);
    assert_eq!(annotated(32, nots(257, 16)), [refused(7, 0); 3]);
    assert_eq!(annotated(33, nots(256, 16)), [refused(6, 0); 3]);
    assert_eq!(annotated(32, nots(1, 1)), taken);
    assert_eq!(annotated(33, nots(1, 1)), [refused(6, 0); 3]);
    assert_eq!(annotated(0, nots(0, 1)), taken);
    assert_eq!(annotated(1, nots(0, 1)), [refused(10, 0); 3]);
    assert_eq!(annotated(0, nots(17, 17)), [refused(9, 16); 3]);
}

/// A chain of 4,096 of which every second node, or all but the ends, are hidden.
#[test]
fn a_chain_with_hidden_nodes() {
    for (every, shown) in [(2, 2048), (4095, 2)] {
        let label = |at: usize| if at % every == 0 { 1 } else { 2 };
        let roll = (0..MOST_NODES).flat_map(|at| node(label(at), at.checked_sub(1).unwrap_or(NO_PARENT))).collect();
        let input = Annotated { roll, ..Annotated::hiding_label_2() };
        assert_eq!(same::cut_view(&input, input.roll.len()).0, Reply::Count(shown));
        assert_eq!(curators(&input, &table_of("v")), [Reply::Count(0), Reply::Count(1)]);
        assert_eq!(curators(&input, &table_of("v*")), [Reply::Count(0), Reply::Count(shown)]);
        assert_eq!(curators(&input, &table_of("v*/[!v]/^*")), [Reply::Count(0), Reply::Count(shown)]);
    }
}

/// Rooms short by one, exact and longer; where the room is short nothing else is looked at.
#[test]
fn rooms() {
    let (input, query) = (Annotated::worked(), table_of("v/v"));
    let Annotated { roll, annotation, filters } = &input;
    let empty = open(Vec::new());
    for (past, reply) in [(-1, Some(refused(1, 0))), (0, None), (1, None), (1000, None)] {
        let room = |named: usize| named.checked_add_signed(past).expect("a room is named");
        let read = |text: &[u8]| same::read_text(text, room(TEXT_ROOM)).0;
        assert_eq!([read(b"v/v"), read(b"")], [reply.unwrap_or(Reply::Count(3)), reply.unwrap_or(refused(13, 0))]);
        let answered = |roll: &[u8]| same::answer_on_roll(roll, &query, room(BITMAP_ROOM)).0;
        assert_eq!([answered(roll), answered(&[])], [reply.unwrap_or(Reply::Count(4)), reply.unwrap_or(refused(2, 0))]);
        assert_eq!(same::cut_view(&input, room(roll.len())).0, reply.unwrap_or(Reply::Count(8)));
        let rewritten = |query: &[u8]| same::rewrite(annotation, filters, query, room(REWRITE_ROOM)).0;
        assert_eq!(rewritten(&[]), reply.unwrap_or(refused(12, 0)));
        assert!(matches!((rewritten(&query), reply), (Reply::Count(_), None) | (_, Some(_))));
        let printed = |query: &[u8]| same::print_query(query, room(PRINT_ROOM)).0;
        assert_eq!(
            [printed(&query), printed(&[])],
            [reply.unwrap_or(Reply::Count(3)), reply.unwrap_or(refused(12, 0))]
        );
        let asked = |input: &Annotated| same::curators_answer(input, &query, room(BITMAP_ROOM)).0;
        assert_eq!([asked(&input), asked(&empty)], [reply.unwrap_or(Reply::Count(3)), reply.unwrap_or(refused(2, 0))]);
    }
    // The room of call 4 is as long as the roll, so that none is too short for an empty one.
    assert_eq!(same::cut_view(&empty, 0).0, refused(2, 0));
}

fn read(text: &str) -> Reply {
    same::read_text(text.as_bytes(), TEXT_ROOM).0
}

#[test]
fn the_bytes_of_a_text() {
    // Brackets are bytes that write no entry.
    let nested = |open: usize| format!("{}v{}", "(".repeat(open), ")".repeat(open));
    let long = vec![nested(32); 15].join("|") + "|" + &nested(16) + "*";
    assert_eq!((long.len(), read(&long)), (1024, Reply::Count(32)));
    assert_eq!(read(&(long.clone() + "*")), refused(13, 0));
    assert_eq!(read(&(long[..1023].to_string() + ")")), refused(14, 1023));
    assert_eq!(read(&(long[..1023].to_string() + "/")), refused(14, 1024));
    assert_eq!(read(""), refused(13, 0));
}

#[test]
fn the_entries_and_height_of_a_text() {
    let sequence = ["v"; 16].join("/");
    let joined = vec![sequence; 8].join("|");
    assert_eq!(read(&joined), Reply::Count(255));
    assert_eq!(read(&(joined.clone() + "*")), Reply::Count(256));
    assert_eq!(read(&(joined.clone() + "|v")), refused(16, 0));
    assert_eq!(read(&(joined.clone() + "**")), refused(19, joined.len() + 1));
    for (unit, joint) in [("v", "/"), ("v", "|")] {
        assert_eq!(read(&[unit; 32].join(joint)), Reply::Count(63));
        assert_eq!(read(&[unit; 33].join(joint)), refused(16, 0));
    }
    let starred = |stars: usize| "(".repeat(stars - 1) + "v" + &"*)".repeat(stars - 1) + "*";
    assert_eq!(read(&starred(31)), Reply::Count(32));
    assert_eq!(read(&starred(32)), refused(16, 0));
    assert_eq!(read(&("v".to_string() + &"*".repeat(32))), refused(19, 2));
    assert_eq!(read(&format!("[{}t]", "!".repeat(30))), Reply::Count(32));
    assert_eq!(read(&format!("[{}t]", "!".repeat(31))), refused(16, 0));
    for joint in ["+", "&"] {
        assert_eq!(read(&format!("[{}]", ["t"; 31].join(joint))), Reply::Count(62));
        assert_eq!(read(&format!("[{}]", ["t"; 32].join(joint))), refused(16, 0));
    }
}

#[test]
fn the_open_brackets_of_a_text() {
    let nested = |first: &str, open: &str, times: usize, inside: &str, close: &str, last: &str| {
        read(&format!("{first}{}{inside}{}{last}", open.repeat(times), close.repeat(times)))
    };
    assert_eq!(nested("", "(", 32, "v", ")", ""), Reply::Count(1));
    assert_eq!(nested("", "(", 33, "v", ")", ""), refused(15, 32));
    assert_eq!(nested("[", "{", 31, "t", "}", "]"), Reply::Count(2));
    assert_eq!(nested("[", "{", 32, "t", "}", "]"), refused(15, 32));
    assert_eq!(nested("", "[", 15, "v", "]", ""), Reply::Count(31));
    assert_eq!(nested("", "[", 16, "v", "]", ""), refused(16, 0));
    assert_eq!(nested("", "[", 32, "v", "]", ""), refused(16, 0));
    assert_eq!(nested("", "[", 33, "v", "]", ""), refused(15, 32));
    // Brackets that are closed again do not count.
    let before = "(v)/".repeat(100);
    assert_eq!(nested(&before, "(", 33, "v", ")", ""), refused(15, 432));
}
