//! Each call put to both programs: the same reply, and the same bytes in the whole room. What is held besides is that nothing is changed
//! behind what is written, behind the room, or in an input.

use second::meaning::{Meaning, Nodes};
use second::roll::{Node, Tree};
use second::table::{read_query, Entry, CURATORS_QUERY, ENTRY_BYTES, QUERY_ON_ROLL};
use second::Reply;

use crate::annotated::Annotated;
use crate::records::to_hex;

/// The rooms that documents 01 and 02 name; call 4's is as long as the roll.
pub const TEXT_ROOM: usize = 1536;
pub const BITMAP_ROOM: usize = 512;
pub const REWRITE_ROOM: usize = 6144;
pub const PRINT_ROOM: usize = 1024;

/// Printing and the check of content have no number in the documents; here they go by those behind document 01's calls.
pub const PRINTING: u8 = 8;
pub const CONTENT: u8 = 9;

/// How many bytes behind a room are looked at too.
const BEHIND: usize = 16;

/// A reply and what was written: no byte, if it is a refusal.
pub type Outcome = (Reply, Vec<u8>);

/// What rooms hold before a call: no two bytes that lie side by side are the same, nor all that lie 4, 6 or 256 apart.
fn untouched(at: usize) -> u8 {
    (at * 167 + at / 256 * 41 + 0xA5) as u8
}

/// One program's call with a room of so many bytes: its reply, and the room with what lies behind it.
fn called(room: usize, call: impl FnOnce(&mut [u8]) -> Reply) -> Outcome {
    let mut lent: Vec<u8> = (0..room + BEHIND).map(untouched).collect();
    let reply = call(&mut lent[..room]);
    (reply, lent)
}

/// The bytes written to a room, of which each record counted has so many; all that lies behind them is as it was.
fn written((reply, mut lent): Outcome, bytes: impl Fn(usize) -> usize, shown: &impl Fn() -> String) -> Outcome {
    let end = if let Reply::Count(count) = reply { bytes(count) } else { 0 };
    let kept = lent[end..].iter().enumerate().all(|(at, byte)| *byte == untouched(end + at));
    assert!(kept, "a byte behind those written was changed: {}", shown());
    lent.truncate(end);
    (reply, lent)
}

/// A call for an error message, as the second program's `calls` takes it; call 1 and the check of content have no number behind their inputs.
fn line(call: u8, inputs: &[&[u8]], number: usize) -> String {
    let inputs: String = inputs.iter().map(|bytes| format!(" {}", to_hex(bytes))).collect();
    match call {
        1 => format!("1{inputs}"),
        PRINTING => format!("print{inputs} {number}"),
        CONTENT => format!("content{inputs}"),
        _ => format!("{call}{inputs} {number}"),
    }
}

/// Both programs on the same inputs, which neither changes.
fn both(
    call: u8,
    inputs: &[&[u8]],
    room: usize,
    bytes: impl Fn(usize) -> usize,
    proved: impl FnOnce(&mut [u8]) -> Reply,
    second: impl FnOnce(&mut [u8]) -> Reply,
) -> Outcome {
    let before: Vec<Vec<u8>> = inputs.iter().map(|input| input.to_vec()).collect();
    let shown = || line(call, inputs, room);
    let (ours, theirs) = (called(room, proved), called(room, second));
    assert!(before == inputs, "an input was changed: {}", shown());
    assert_eq!(ours.0, theirs.0, "{}", shown());
    assert!(ours.1 == theirs.1, "the rooms differ: {}", shown());
    written(ours, bytes, &shown)
}

/// Call 1.
pub fn check_roll(roll: &[u8]) -> Reply {
    both(1, &[roll], 0, |_| 0, |_| crate::check_roll(roll), |_| second::check_roll(roll)).0
}

/// The check of a roll's content.
pub fn check_content(roll: &[u8], rules: &[u8], list: &[u8]) -> Reply {
    let proved = |_: &mut [u8]| crate::check_content(roll, rules, list);
    both(CONTENT, &[roll, rules, list], 0, |_| 0, proved, |_| second::check_content(roll, rules, list)).0
}

/// Call 2.
pub fn read_text(text: &[u8], room: usize) -> Outcome {
    let proved = |room: &mut [u8]| crate::read_text(text, room);
    both(2, &[text], room, |entries| 6 * entries, proved, |room| second::read_text(text, room))
}

/// Call 3.
pub fn answer_on_roll(roll: &[u8], query: &[u8], room: usize) -> Outcome {
    let proved = |room: &mut [u8]| crate::answer_on_roll(roll, query, room);
    let second = |room: &mut [u8]| second::answer_on_roll(roll, query, room);
    both(3, &[roll, query], room, |_| BITMAP_ROOM, proved, second)
}

/// Call 4. What is written is a roll of as many nodes as are counted.
pub fn cut_view(input: &Annotated, room: usize) -> Outcome {
    let Annotated { roll, annotation, filters } = input;
    let proved = |room: &mut [u8]| crate::cut_view(roll, annotation, filters, room);
    let second = |room: &mut [u8]| second::cut_view(roll, annotation, filters, room);
    let outcome = both(4, &[roll, annotation, filters], room, |nodes| 4 * nodes, proved, second);
    if let (Reply::Count(_), view) = &outcome {
        assert_eq!(crate::check_roll(view), outcome.0, "{}", line(4, &[roll, annotation, filters], room));
    }
    outcome
}

/// Call 5: refusals are the same; of what is written the bytes are free, but it is a query for a roll that begins with the filters. Gives
/// the proved library's table.
pub fn rewrite(annotation: &[u8], filters: &[u8], query: &[u8], room: usize) -> Outcome {
    let inputs = [annotation, filters, query];
    let shown = || line(5, &inputs, room);
    let before = inputs.map(<[u8]>::to_vec);
    let ours = called(room, |room| crate::rewrite(annotation, filters, query, room));
    assert!(before == inputs, "an input was changed: {}", shown());
    let theirs = called(room, |room| second::rewrite(annotation, filters, query, room));
    if !matches!((ours.0, theirs.0), (Reply::Count(_), Reply::Count(_))) {
        assert_eq!(ours.0, theirs.0, "{}", shown());
    }
    let [ours, _] = [ours, theirs].map(|outcome| written(outcome, |entries| 6 * entries, &shown));
    if let (Reply::Count(_), table) = &ours {
        assert!(table.starts_with(filters), "{}", shown());
        assert!(read_query(table, QUERY_ON_ROLL).is_ok(), "{}", shown());
    }
    ours
}

/// Call 5's meaning: the table written, and the second program's own, lead from every visible node to the records of what the query
/// reaches on the view. Gives how many nodes are reached in all.
pub fn rewritten_reaches(input: &Annotated, query: &[u8], table: &[u8]) -> usize {
    let mut theirs = [0; REWRITE_ROOM];
    let reply = second::rewrite(&input.annotation, &input.filters, query, &mut theirs);
    let Reply::Count(entries) = reply else { panic!("the second program refuses it: {reply}") };
    let (roll, view) = (Tree::read(&input.roll).expect("the roll is in order"), input.view());
    let on_roll =
        [table, &theirs[..6 * entries]].map(|table| read_query(table, QUERY_ON_ROLL).expect("it is in order"));
    let query_read = read_query(query, CURATORS_QUERY).expect("the query is in order");
    let mut on_view = Meaning::new(&view.tree, &query_read);
    let mut on_roll = on_roll.each_ref().map(|table| Meaning::new(&roll, table));
    let record = |position: Node| view.records[usize::from(position)];
    let shown = || line(6, &[&input.roll, &input.annotation, &input.filters, query], BITMAP_ROOM);
    let mut reached = 0;
    for position in view.tree.nodes() {
        let expected: Nodes = on_view.answer_from(position).into_iter().map(record).collect();
        for meaning in &mut on_roll {
            assert_eq!(meaning.answer_from(record(position)), expected, "from position {position}: {}", shown());
        }
        reached += expected.len();
    }
    reached
}

/// Call 6. Where nothing is refused, call 3 gives the same on what call 4 cuts out.
pub fn curators_answer(input: &Annotated, query: &[u8], room: usize) -> Outcome {
    let Annotated { roll, annotation, filters } = input;
    let proved = |room: &mut [u8]| crate::curators_answer(roll, annotation, filters, query, room);
    let second = |room: &mut [u8]| second::curators_answer(roll, annotation, filters, query, room);
    let outcome = both(6, &[roll, annotation, filters, query], room, |_| BITMAP_ROOM, proved, second);
    if let Reply::Count(_) = outcome.0 {
        let (cut, view) = called(roll.len(), |room| crate::cut_view(roll, annotation, filters, room));
        let Reply::Count(nodes) = cut else { panic!("call 4 refuses what call 6 takes: {cut}") };
        let (reply, mut on_view) = called(room, |room| crate::answer_on_roll(&view[..4 * nodes], query, room));
        on_view.truncate(BITMAP_ROOM);
        let shown = || line(6, &[roll, annotation, filters, query], room);
        assert!((reply, on_view) == outcome, "on the view it is another answer: {}", shown());
    }
    outcome
}

/// Call 7. A part that is not empty is the caller's own; an empty one begins where the roll does.
pub fn run_of_record(roll: &[u8], record: usize) -> &[u8] {
    let before = roll.to_vec();
    let (ours, theirs) = (crate::run_of_record(roll, record), second::run_of_record(roll, record));
    let shown = || line(7, &[roll], record);
    assert!(before == roll, "the roll was changed: {}", shown());
    assert_eq!(ours, theirs, "{}", shown());
    let start = if ours.is_empty() { 0 } else { 4 * record };
    assert_eq!(ours.as_ptr(), roll[start..].as_ptr(), "{}", shown());
    ours
}

/// Printing. What is printed is read, by both programs, as the query's entries written out one by one, and so as the same path; or refused
/// with 16, exactly if these are more than a table may have.
pub fn print_query(query: &[u8], room: usize) -> Outcome {
    let proved = |room: &mut [u8]| crate::print_query(query, room);
    let second = |room: &mut [u8]| second::print_query(query, room);
    let outcome = both(PRINTING, &[query], room, |bytes| bytes, proved, second);
    if let (Reply::Count(_), text) = &outcome {
        let entries = read_query(query, CURATORS_QUERY).expect("what is printed is in order");
        let table = written_out(&entries);
        let many = table.len() / ENTRY_BYTES;
        let expected = match many {
            ..=256 => (Reply::Count(many), table),
            _ => (Reply::Refused { number: 16, place: 0 }, Vec::new()),
        };
        let shown = || line(PRINTING, &[query], room);
        assert!(read_text(text, TEXT_ROOM) == expected, "what was printed is read otherwise: {}", shown());
    }
    outcome
}

/// The table of the last entry in which none is shared, as call 2 writes it: left operand, right operand, then the entry itself.
fn written_out(entries: &[Entry]) -> Vec<u8> {
    let mut table = Vec::new();
    write_out(entries, entries.len() - 1, &mut table);
    table
}

/// Writes an entry behind its operands, and says where it stands.
fn write_out(entries: &[Entry], number: usize, table: &mut Vec<u8>) -> usize {
    let mut record = entries[number].write();
    for (field, operand) in record[2..].chunks_mut(2).zip(entries[number].operands()) {
        let stands = write_out(entries, operand, table) as u16;
        field.copy_from_slice(&stands.to_le_bytes());
    }
    table.extend(record);
    table.len() / ENTRY_BYTES - 1
}

/// The nodes of what call 3 or 6 wrote.
pub fn nodes((reply, bitmap): &Outcome) -> Vec<usize> {
    let nodes = second::calls::nodes_of_bitmap(bitmap);
    assert!(bitmap.is_empty() || *reply == Reply::Count(nodes.len()), "the count is not that of the ones");
    nodes
}

/// Reply and nodes as the files of cases write them.
pub fn shown(outcome: &Outcome) -> String {
    let nodes: Vec<String> = nodes(outcome).iter().map(usize::to_string).collect();
    format!("{} {}", outcome.0, if nodes.is_empty() { "-".to_string() } else { nodes.join(",") })
}
