//! The cases that came with documents 01 and 02, line by line.

mod common;

use common::*;
use second::calls::{nodes_of_bitmap, BITMAP_ROOM, PRINT_ROOM, REWRITE_ROOM, TEXT_ROOM};
use second::Reply;

/// Each file's number of lines, so that a file cut short does not pass.
const LINES: usize = 300;

/// The words of each line of a file.
fn cases(file: &'static str) -> Vec<Vec<&'static str>> {
    let cases: Vec<_> = file.lines().map(|line| line.split(' ').collect()).collect();
    assert_eq!(cases.len(), LINES);
    cases
}

fn list(nodes: &[usize]) -> String {
    let words: Vec<String> = nodes.iter().map(usize::to_string).collect();
    if words.is_empty() {
        "-".to_string()
    } else {
        words.join(",")
    }
}

/// The texts of document 01, of which none has two stars in a row, and those of document 02.
#[test]
fn texts() {
    for case in [include_str!("vectors/texts.txt"), include_str!("vectors/stars.txt")].into_iter().flat_map(cases) {
        let mut room = [UNTOUCHED; TEXT_ROOM];
        let reply = second::read_text(&from_hex(case[0]), &mut room);
        let written = if let Reply::Count(entries) = reply { entries * 6 } else { 0 };
        assert_eq!(format!("{} {reply} {}", case[0], to_hex(&room[..written])), case.join(" "));
        assert!(room[written..].iter().all(|byte| *byte == UNTOUCHED));
    }
}

/// In front of a line's bar stands what was printed while two stars in a row were read.
#[test]
fn prints() {
    for case in cases(include_str!("vectors/prints.txt")) {
        let bar = case.iter().position(|word| *word == "|").expect("a line has its bar");
        let mut room = [UNTOUCHED; PRINT_ROOM];
        let reply = second::print_query(&from_hex(case[0]), &mut room);
        let written = if let Reply::Count(bytes) = reply { bytes } else { 0 };
        assert_eq!(
            format!("{} {reply} {}", case[0], to_hex(&room[..written])),
            [&case[..1], &case[bar + 1..]].concat().join(" ")
        );
        assert!(room[written..].iter().all(|byte| *byte == UNTOUCHED));
    }
}

#[test]
fn rules() {
    for case in cases(include_str!("vectors/rules.txt")) {
        let [roll, rules, list] = [0, 1, 2].map(|word| from_hex(case[word]));
        let reply = second::check_content(&roll, &rules, &list);
        assert_eq!(format!("{} {reply}", case[..3].join(" ")), case.join(" "));
    }
}

#[test]
fn rolls() {
    for case in cases(include_str!("vectors/rolls.txt")) {
        let roll = from_hex(case[0]);
        let [record, start, end] = case[case.len() - 3..] else { panic!("a line is too short") };
        let reply = second::check_roll(&roll);
        assert_eq!(format!("{} {reply} {record} {start} {end}", case[0]), case.join(" "));
        let (start, end): (usize, usize) = (start.parse().unwrap(), end.parse().unwrap());
        let run = second::run_of_record(&roll, record.parse().unwrap());
        assert_eq!(run, &roll[start..end], "{}", case.join(" "));
        assert!(run.is_empty() || run.as_ptr() == roll[start..].as_ptr(), "it is not the caller's own part");
    }
}

#[test]
fn tables() {
    for case in cases(include_str!("vectors/tables.txt")) {
        let mut room = [UNTOUCHED; BITMAP_ROOM];
        let reply = second::answer_on_roll(&roll(&[(1, NO_PARENT)]), &from_hex(case[0]), &mut room);
        assert_eq!(format!("{} {reply}", case[0]), case.join(" "));
        match reply {
            Reply::Count(ones) => assert_eq!(nodes_of_bitmap(&room), (0..ones).collect::<Vec<_>>()),
            _ => assert_eq!(room, [UNTOUCHED; BITMAP_ROOM]),
        }
    }
}

/// Reply and nodes of a call with a bitmap, as the file writes them.
fn shown_answer(call: impl FnOnce(&mut [u8]) -> Reply) -> String {
    let mut room = [0; BITMAP_ROOM];
    let reply = call(&mut room);
    format!("{reply} {}", list(&nodes_of_bitmap(&room)))
}

fn shown_view(roll: &[u8], annotation: &[u8], filters: &[u8]) -> String {
    let mut room = vec![UNTOUCHED; roll.len()];
    let reply = second::cut_view(roll, annotation, filters, &mut room);
    let written = if let Reply::Count(nodes) = reply { nodes * 4 } else { 0 };
    format!("{reply} {}", to_hex(&room[..written]))
}

/// `A` for any count, since the bytes of a rewritten query are free.
fn shown_rewriting(annotation: &[u8], filters: &[u8], query: &[u8]) -> String {
    match second::rewrite(annotation, filters, query, &mut [0; REWRITE_ROOM]) {
        Reply::Count(_) => "A".to_string(),
        refused => refused.to_string(),
    }
}

#[test]
fn draws() {
    for case in cases(include_str!("vectors/draws.txt")) {
        let [roll, annotation, filters, query] = [0, 1, 2, 3].map(|word| from_hex(case[word]));
        let shown = format!(
            "{} | {} | {} | {} | {}",
            case[..4].join(" "),
            shown_answer(|room| second::answer_on_roll(&roll, &query, room)),
            shown_view(&roll, &annotation, &filters),
            shown_rewriting(&annotation, &filters, &query),
            shown_answer(|room| second::curators_answer(&roll, &annotation, &filters, &query, room)),
        );
        assert_eq!(shown, case.join(" "));
    }
}

/// The bytes of a rewritten query are free, but not what it reaches: the curator's positions, as records.
#[test]
fn draws_rewritten() {
    let mut compared = 0;
    for case in cases(include_str!("vectors/draws.txt")) {
        let [roll, annotation, filters, query] = [0, 1, 2, 3].map(|word| from_hex(case[word]));
        let shown = case.join(" ");
        let mut parts = shown.rsplit(" | ");
        let (curators, rewriting) = (parts.next().unwrap(), parts.next().unwrap());
        if rewriting != "A" || !curators.starts_with("A ") {
            continue;
        }
        let rewritten = rewritten(&annotation, &filters, &query);
        let records = nodes_answered(|room| second::answer_on_roll(&roll, &rewritten, room));
        let positions: Vec<usize> =
            records.iter().map(|record| position(&roll, &annotation, &filters, *record)).collect();
        assert_eq!(format!("A {} {}", positions.len(), list(&positions)), curators);
        compared += 1;
    }
    assert!(compared > LINES / 2, "{compared}");
}

/// The position of a record in the view.
fn position(roll: &[u8], annotation: &[u8], filters: &[u8], record: usize) -> usize {
    let filters = second::table::read_filters(filters).unwrap();
    let annotation = second::annotation::Annotation::read(annotation, &filters).unwrap();
    let view = second::view::View::cut(&second::roll::Tree::read(roll).unwrap(), &annotation, &filters);
    usize::from(view.position(record as u16).expect("only visible records are reached"))
}
