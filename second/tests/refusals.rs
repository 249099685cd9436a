//! Refusals: which, where, in what order, and that they leave the room alone.

mod common;

use common::*;
use second::calls::{BITMAP_ROOM, PRINT_ROOM, REWRITE_ROOM, TEXT_ROOM};
use second::Reply;

/// Makes a call with a room of this length: the reply and the room afterwards. A refusal must not have touched the
/// room.
fn with_room(length: usize, call: impl FnOnce(&mut [u8]) -> Reply) -> (Reply, Vec<u8>) {
    let mut room = vec![UNTOUCHED; length];
    let reply = call(&mut room);
    if !matches!(reply, Reply::Count(_)) {
        assert_eq!(room, vec![UNTOUCHED; length], "{reply} changed the room");
    }
    (reply, room)
}

fn on_roll(roll: &[u8], query: &[u8]) -> Reply {
    with_room(BITMAP_ROOM, |room| second::answer_on_roll(roll, query, room)).0
}

fn cut(roll: &[u8], annotation: &[u8], filters: &[u8]) -> Reply {
    with_room(roll.len(), |room| second::cut_view(roll, annotation, filters, room)).0
}

fn rewrite(annotation: &[u8], filters: &[u8], query: &[u8]) -> Reply {
    with_room(REWRITE_ROOM, |room| second::rewrite(annotation, filters, query, room)).0
}

fn curators(roll: &[u8], annotation: &[u8], filters: &[u8], query: &[u8]) -> Reply {
    with_room(BITMAP_ROOM, |room| second::curators_answer(roll, annotation, filters, query, room)).0
}

fn print(query: &[u8]) -> Reply {
    with_room(PRINT_ROOM, |room| second::print_query(query, room)).0
}

fn one_node() -> Vec<u8> {
    roll(&[(1, NO_PARENT)])
}

// Entries that stand for themselves.
const SELF: [u8; 6] = [1, 0, 0, 0, 0, 0];
const TRUE: [u8; 6] = [18, 0, 0, 0, 0, 0];

/// So many entries of which each is one higher than the one before, from a filter or from a path.
fn tower(height: usize, of_paths: bool) -> Vec<[u8; 6]> {
    let (ground, storey) = if of_paths { (SELF, 9) } else { (TRUE, 20) };
    let mut entries = vec![ground];
    while entries.len() < height {
        entries.push(entry(storey, 0, entries.len() as u16 - 1, 0));
    }
    entries
}

#[test]
fn a_room_one_byte_too_short_is_refused_before_anything_is_looked_at() {
    let (annotation, filters) = working_annotation();
    let (good_roll, good_query) = (working_roll(), query("v/v"));
    for (roll, annotation, filters, query, text) in [
        (&good_roll[..], &annotation[..], &filters[..], &good_query[..], &b"v/v"[..]),
        (&[9, 9, 9][..], &[9][..], &[9][..], &[9][..], &b"v//"[..]),
    ] {
        assert_eq!(with_room(TEXT_ROOM - 1, |room| second::read_text(text, room)).0, refused(1, 0));
        assert_eq!(with_room(BITMAP_ROOM - 1, |room| second::answer_on_roll(roll, query, room)).0, refused(1, 0));
        let short = roll.len() - 1;
        assert_eq!(with_room(short, |room| second::cut_view(roll, annotation, filters, room)).0, refused(1, 0));
        assert_eq!(
            with_room(REWRITE_ROOM - 1, |room| second::rewrite(annotation, filters, query, room)).0,
            refused(1, 0)
        );
        let answer = |room: &mut [u8]| second::curators_answer(roll, annotation, filters, query, room);
        assert_eq!(with_room(BITMAP_ROOM - 1, answer).0, refused(1, 0));
        assert_eq!(with_room(0, answer).0, refused(1, 0));
        assert_eq!(with_room(PRINT_ROOM - 1, |room| second::print_query(query, room)).0, refused(1, 0));
        assert_eq!(with_room(0, |room| second::print_query(query, room)).0, refused(1, 0));
    }
    assert_eq!((TEXT_ROOM, BITMAP_ROOM, REWRITE_ROOM, PRINT_ROOM), (1536, 512, 6144, 1024));
}

#[test]
fn bytes_behind_what_is_written_stay() {
    let (annotation, filters) = working_annotation();
    let (roll, query) = (working_roll(), query("v/v"));
    let stays = |room: &[u8], written: usize| room[written..].iter().all(|byte| *byte == UNTOUCHED);

    let (reply, room) = with_room(TEXT_ROOM + 5, |room| second::read_text(b"v/v", room));
    assert!(reply == Reply::Count(3) && stays(&room, 3 * 6) && room[..3 * 6] == query);
    let (reply, room) = with_room(BITMAP_ROOM + 5, |room| second::answer_on_roll(&roll, &query, room));
    assert!(reply == Reply::Count(4) && stays(&room, 512) && room[511] == 0);
    let (reply, room) = with_room(roll.len() + 5, |room| second::cut_view(&roll, &annotation, &filters, room));
    assert!(reply == Reply::Count(8) && stays(&room, 8 * 4) && room[8 * 4 - 1] != UNTOUCHED);
    let (reply, room) = with_room(REWRITE_ROOM + 5, |room| second::rewrite(&annotation, &filters, &query, room));
    assert!(stays(&room, count(reply) * 6) && room[count(reply) * 6 - 1] != UNTOUCHED);
    let answer = |room: &mut [u8]| second::curators_answer(&roll, &annotation, &filters, &query, room);
    let (reply, room) = with_room(BITMAP_ROOM + 5, answer);
    assert!(reply == Reply::Count(3) && stays(&room, 512) && room[511] == 0);
    let (reply, room) = with_room(PRINT_ROOM + 5, |room| second::print_query(&query, room));
    assert!(reply == Reply::Count(3) && stays(&room, 3) && room[..3] == *b"v/v");
}

#[test]
fn call_4_measures_its_room_by_the_roll_as_it_is() {
    let cut = |roll: &[u8], room: usize| with_room(room, |room| second::cut_view(roll, &[], &[], room)).0;
    assert_eq!(cut(&[1, 0, 255, 255, 1], 4), refused(1, 0));
    assert_eq!(cut(&[1, 0, 255, 255, 1], 5), refused(2, 0));
    assert_eq!(cut(&[], 0), refused(2, 0));
    assert_eq!(cut(&[1; 16_388], 16_387), refused(1, 0));
    assert_eq!(cut(&[1; 16_388], 16_388), refused(2, 0));
}

#[test]
fn rolls_are_refused_at_the_lowest_record_and_there_in_order() {
    assert_eq!(second::check_roll(&[]), refused(2, 0));
    for length in [1, 2, 3, 5, 16_383, 16_385, 16_388] {
        assert_eq!(second::check_roll(&vec![0; length]), refused(2, 0), "{length}");
    }
    // One record after the other is made worse, from the last to the first and from 5 to 3.
    let mut bytes = working_roll();
    for record in (0..13).rev() {
        bytes[record * 4 + 2..record * 4 + 4].copy_from_slice(&(record as u16).to_le_bytes());
        assert_eq!(second::check_roll(&bytes), refused(5, record));
        bytes[record * 4 + 1] = 1;
        assert_eq!(second::check_roll(&bytes), refused(4, record));
        bytes[record * 4] = if record % 2 == 0 { 0 } else { 65 };
        assert_eq!(second::check_roll(&bytes), refused(3, record));
    }
}

#[test]
fn parents_are_the_record_before_or_its_ancestors() {
    let with_parent = |parent: u16| {
        let nodes = [&WORKING_ROLL[..8], &[(2, parent)]].concat();
        second::check_roll(&roll(&nodes))
    };
    // Record 7 hangs from 6, that from 1, that from 0.
    for parent in [0, 1, 6, 7] {
        assert_eq!(with_parent(parent), Reply::Count(9), "{parent}");
    }
    for parent in [2, 3, 4, 5, 8, 9, 256, 65_534, NO_PARENT] {
        assert_eq!(with_parent(parent), refused(5, 8), "{parent}");
    }
    for parent in [0, 1, 65_534, 0xFF00, 0x00FF] {
        assert_eq!(second::check_roll(&roll(&[(1, parent)])), refused(5, 0));
    }
    assert_eq!(second::check_roll(&roll(&[(64, NO_PARENT), (1, 0)])), Reply::Count(2));
}

#[test]
fn malformed_entries_are_8_where_they_stand() {
    // A path, a filter, and then the entry in question.
    let judged = |entry: [u8; 6]| on_roll(&one_node(), &table(&[SELF, TRUE, entry, SELF]));
    let (path, filter, itself, later) = (0, 1, 2, 3);
    for kind in (0..=255).filter(|kind| !matches!(kind, 1..=9 | 16..=22)) {
        assert_eq!(judged(entry(kind, 0, 0, 0)), refused(8, 2), "kind {kind}");
        assert_eq!(judged(entry(kind, 1, path, path)), refused(8, 2), "kind {kind}");
    }
    // Kind, label, left, right.
    let sound = [
        (1, 0, 0, 0),
        (2, 0, 0, 0),
        (3, 0, 0, 0),
        (4, 0, 0, 0),
        (5, 0, 0, 0),
        (6, 0, filter, 0),
        (7, 0, path, path),
        (8, 0, path, path),
        (9, 0, path, 0),
        (16, 1, 0, 0),
        (16, 64, 0, 0),
        (17, 0, path, 0),
        (18, 0, 0, 0),
        (19, 0, 0, 0),
        (20, 0, filter, 0),
        (21, 0, filter, filter),
        (22, 0, filter, filter),
    ];
    for (kind, label, left, right) in sound {
        assert!(matches!(judged(entry(kind, label, left, right)), Reply::Count(_)), "kind {kind}");
        for wrong in if kind == 16 { vec![0, 65, 255] } else { vec![1, 64, 255] } {
            assert_eq!(judged(entry(kind, wrong, left, right)), refused(8, 2), "label of kind {kind}");
        }
        let takes_left = !matches!(kind, 1..=5 | 16 | 18 | 19);
        let takes_right = matches!(kind, 7 | 8 | 21 | 22);
        let wrong_operands = |taken: bool| if taken { vec![itself, later, 256, 65_535] } else { vec![1, 256, 65_535] };
        for wrong in wrong_operands(takes_left).into_iter().chain(takes_left.then_some(1 - left)) {
            assert_eq!(judged(entry(kind, label, wrong, right)), refused(8, 2), "left of kind {kind}");
        }
        for wrong in wrong_operands(takes_right).into_iter().chain(takes_right.then_some(1 - right)) {
            assert_eq!(judged(entry(kind, label, left, wrong)), refused(8, 2), "right of kind {kind}");
        }
    }
    // The first entry has no earlier one.
    assert_eq!(on_roll(&one_node(), &table(&[entry(9, 0, 0, 0)])), refused(8, 0));
}

#[test]
fn heights_are_limited_by_the_table_they_stand_in() {
    let good = query("v");
    assert_eq!(rewrite(&[], &table(&tower(17, false)), &good), refused(9, 16));
    assert!(matches!(rewrite(&[], &table(&tower(16, false)), &good), Reply::Count(_)));
    assert_eq!(rewrite(&[], &[], &table(&tower(33, true))), refused(9, 32));
    assert!(matches!(rewrite(&[], &[], &table(&tower(32, true))), Reply::Count(_)));
    assert_eq!(curators(&one_node(), &[], &[], &table(&tower(33, true))), refused(9, 32));
    assert_eq!(curators(&one_node(), &[], &[], &table(&tower(32, true))), Reply::Count(1));
    assert_eq!(print(&table(&tower(33, true))), refused(9, 32));
    // A step, 31 stars, and a pair of brackets between each two of them.
    assert_eq!(print(&table(&tower(32, true))), Reply::Count(1 + 31 + 2 * 30));
    assert_eq!(on_roll(&one_node(), &table(&tower(129, true))), refused(9, 128));
    assert_eq!(on_roll(&one_node(), &table(&tower(128, true))), Reply::Count(1));
}

#[test]
fn lengths_are_limited_by_the_table_they_belong_to() {
    let paths = |entries: usize| SELF.repeat(entries);
    let filters = |entries: usize| TRUE.repeat(entries);
    assert!(matches!(rewrite(&[], &filters(256), &paths(256)), Reply::Count(_)));
    assert_eq!(rewrite(&[], &filters(257), &paths(256)), refused(7, 0));
    assert_eq!(rewrite(&[], &filters(256), &paths(257)), refused(12, 0));
    assert_eq!(cut(&one_node(), &[], &filters(257)), refused(7, 0));
    assert_eq!(cut(&one_node(), &[], &filters(256)), Reply::Count(1));
    assert_eq!(on_roll(&one_node(), &paths(1024)), Reply::Count(1));
    assert_eq!(on_roll(&one_node(), &paths(1025)), refused(12, 0));
    assert_eq!(on_roll(&one_node(), &[]), refused(12, 0));
    assert_eq!(rewrite(&[], &[], &[]), refused(12, 0));
    assert_eq!(print(&paths(256)), Reply::Count(1));
    assert_eq!(print(&paths(257)), refused(12, 0));
    assert_eq!(print(&[]), refused(12, 0));
    for cut_off in 1..6 {
        assert_eq!(on_roll(&one_node(), &paths(2)[cut_off..]), refused(12, 0));
        assert_eq!(print(&paths(2)[cut_off..]), refused(12, 0));
        assert_eq!(rewrite(&[], &filters(2)[cut_off..], &paths(1)), refused(7, 0));
        assert_eq!(rewrite(&[0; 12][cut_off..], &[], &paths(1)), refused(6, 0));
    }
}

#[test]
fn the_lowest_entry_is_refused_and_8_before_9_and_the_last_entry_after_all() {
    let height_17 = entry(20, 0, 15, 0);
    let malformed = entry(20, 0, 15, 1);
    let storeys = tower(16, false);
    let behind = |last: &[[u8; 6]]| table(&[&storeys[..], last].concat());
    assert_eq!(cut(&one_node(), &[], &behind(&[height_17, malformed])), refused(9, 16));
    assert_eq!(cut(&one_node(), &[], &behind(&[malformed, height_17])), refused(8, 16));
    // Malformed and too high at once.
    assert_eq!(cut(&one_node(), &[], &behind(&[entry(20, 1, 15, 0)])), refused(8, 16));
    // The last entry's sort is asked for only when all entries are in order.
    assert_eq!(on_roll(&one_node(), &table(&[SELF, TRUE])), refused(12, 1));
    assert_eq!(on_roll(&one_node(), &table(&[TRUE])), refused(12, 0));
    assert_eq!(on_roll(&one_node(), &table(&[entry(2, 0, 0, 1), TRUE])), refused(8, 0));
    assert_eq!(on_roll(&one_node(), &table(&[SELF, entry(18, 1, 0, 0)])), refused(8, 1));
    assert_eq!(on_roll(&one_node(), &table(&tower(129, false))), refused(9, 128));
    assert_eq!(on_roll(&one_node(), &table(&tower(128, false))), refused(12, 127));
}

#[test]
fn annotation_records_are_judged_in_order() {
    let filters = table(&[SELF, TRUE]);
    let judged = |records: &[[u8; 6]]| cut(&one_node(), &table(records), &filters);
    let good = |parent: u8, child: u8| entry(parent, child, 1, 0);
    assert_eq!(judged(&[good(1, 1), good(1, 2), good(2, 1), good(64, 64)]), Reply::Count(1));
    for bad in [
        good(0, 1),
        good(65, 1),
        good(1, 0),
        good(1, 65),
        entry(1, 1, 0, 0),
        entry(1, 1, 2, 0),
        entry(1, 1, 257, 0),
        entry(1, 1, 1, 1),
        entry(1, 1, 1, 256),
    ] {
        assert_eq!(judged(&[bad]), refused(10, 0), "{bad:?}");
        assert_eq!(judged(&[good(1, 1), bad]), refused(10, 1), "{bad:?} is 10 and perhaps 11");
        assert_eq!(judged(&[good(2, 2), good(2, 2), bad]), refused(11, 1), "{bad:?} comes later");
    }
    assert_eq!(judged(&[good(1, 2), good(1, 2)]), refused(11, 1));
    assert_eq!(judged(&[good(1, 2), good(1, 1)]), refused(11, 1));
    assert_eq!(judged(&[good(2, 1), good(1, 2)]), refused(11, 1));
    // With an empty filter table there is no entry to name.
    assert_eq!(cut(&one_node(), &table(&[entry(1, 1, 0, 0)]), &[]), refused(10, 0));
    let many = |records: u8| (1..=records).map(|label| good(label, 1)).collect::<Vec<_>>();
    assert_eq!(judged(&many(32)), Reply::Count(1));
    assert_eq!(judged(&many(33)), refused(6, 0));
}

/// A part of the inputs, and what is wrong with it.
type Part = (Vec<u8>, Option<Reply>);

fn rolls() -> Vec<Part> {
    vec![
        (working_roll(), None),
        (vec![1, 0, 255], Some(refused(2, 0))),
        (roll(&[(1, NO_PARENT), (65, 0)]), Some(refused(3, 1))),
        (vec![1, 1, 255, 255], Some(refused(4, 0))),
        (roll(&[(1, NO_PARENT), (2, 0), (2, 2)]), Some(refused(5, 2))),
    ]
}

/// Bad ones hold filters as well, so that only their own fault is at fault.
fn filter_tables() -> Vec<Part> {
    vec![
        (table(&tower(16, false)), None),
        ([table(&tower(16, false)), vec![0]].concat(), Some(refused(7, 0))),
        (table(&[TRUE, entry(20, 0, 1, 0)]), Some(refused(8, 1))),
        (table(&tower(17, false)), Some(refused(9, 16))),
    ]
}

fn annotations() -> Vec<Part> {
    vec![
        (annotation(&[(1, 2, 0), (2, 2, 1)]), None),
        (vec![1, 2, 0], Some(refused(6, 0))),
        (annotation(&[(1, 2, 0), (2, 2, 256)]), Some(refused(10, 1))),
        (annotation(&[(2, 2, 0), (1, 2, 0)]), Some(refused(11, 1))),
    ]
}

fn queries() -> Vec<Part> {
    vec![
        (query("v"), None),
        (vec![], Some(refused(12, 0))),
        (table(&[SELF, entry(9, 0, 1, 0)]), Some(refused(8, 1))),
        (table(&tower(129, true)), Some(refused(9, 32))),
        (table(&[SELF, SELF, TRUE]), Some(refused(12, 2))),
    ]
}

/// The first fault in this order; a call that refuses without one is at fault itself.
fn check_first_fault(reply: Reply, faults: &[Option<Reply>]) {
    match faults.iter().flatten().next() {
        Some(first) => assert_eq!(reply, *first, "{faults:?}"),
        None => assert!(matches!(reply, Reply::Count(_)), "{reply}"),
    }
}

#[test]
fn of_several_faults_the_first_in_order_is_given() {
    let mut calls = 0;
    for (roll, roll_fault) in rolls() {
        for (filters, filters_fault) in filter_tables() {
            for (annotation, annotation_fault) in annotations() {
                let shared = [filters_fault, annotation_fault];
                check_first_fault(cut(&roll, &annotation, &filters), &[&[roll_fault], &shared[..]].concat());
                for (query, query_fault) in queries() {
                    let faults = [roll_fault, filters_fault, annotation_fault, query_fault];
                    check_first_fault(curators(&roll, &annotation, &filters, &query), &faults);
                    check_first_fault(rewrite(&annotation, &filters, &query), &faults[1..]);
                    calls += 1;
                }
            }
        }
        for (query, query_fault) in queries() {
            // On a roll the limit of height is 128.
            let query_fault = query_fault.map(|fault| if fault == refused(9, 32) { refused(9, 128) } else { fault });
            check_first_fault(on_roll(&roll, &query), &[roll_fault, query_fault]);
        }
    }
    assert_eq!(calls, 5 * 4 * 4 * 5);
    for (query, query_fault) in queries() {
        check_first_fault(print(&query), &[query_fault]);
    }
}

/// A path that unfolds to more text than can be printed, and behind it what is wrong with the table.
#[test]
fn the_length_of_a_text_is_asked_for_after_all_else() {
    let mut storeys = vec![SELF];
    while storeys.len() < 32 {
        let below = storeys.len() as u16 - 1;
        storeys.push(entry(7, 0, below, below));
    }
    let behind = |last: &[[u8; 6]]| print(&table(&[&storeys[..], last].concat()));
    assert_eq!(behind(&[]), refused(18, 0));
    assert_eq!(behind(&[TRUE]), refused(12, 32));
    assert_eq!(behind(&[entry(9, 0, 31, 0)]), refused(9, 32));
    assert_eq!(behind(&[entry(9, 0, 32, 0)]), refused(8, 32));
    assert_eq!(behind(&[[0; 6]; 225]), refused(12, 0));
    // Entries that the query does not use are not printed, however long they are.
    assert_eq!(behind(&[SELF]), Reply::Count(1));
}

#[test]
fn runs_hold_a_record_and_all_its_descendants() {
    let roll = working_roll();
    let ends = [13, 8, 6, 4, 6, 6, 8, 8, 13, 10, 13, 13, 13];
    for (record, end) in ends.into_iter().enumerate() {
        let run = second::run_of_record(&roll, record);
        assert_eq!(run, &roll[record * 4..end * 4], "{record}");
        assert_eq!(run.as_ptr(), roll[record * 4..].as_ptr(), "it is not the caller's own part");
    }
    for record in [13, 14, 4096, 65_535, 65_536, usize::MAX] {
        assert!(second::run_of_record(&roll, record).is_empty());
    }
    for (bad, fault) in rolls() {
        assert_eq!(second::run_of_record(&bad, 0).is_empty(), fault.is_some());
    }
}
