//! Every worked case of document 01.

mod common;

use common::*;
use second::Reply;

/// The curator's answer on the roll to work with.
fn curator(text: &str) -> Vec<usize> {
    let (annotation, filters) = working_annotation();
    nodes_answered(|room| second::curators_answer(&working_roll(), &annotation, &filters, &query(text), room))
}

/// The same through the rewritten query: its records, as positions of the view.
fn curator_through_rewriting(text: &str) -> Vec<usize> {
    let visible = [0, 1, 4, 5, 6, 7, 11, 12];
    let (annotation, filters) = working_annotation();
    let rewritten = rewritten(&annotation, &filters, &query(text));
    let records = nodes_answered(|room| second::answer_on_roll(&working_roll(), &rewritten, room));
    records
        .into_iter()
        .map(|record| visible.binary_search(&record).expect("only visible records are reached"))
        .collect()
}

/// The answer on the roll itself.
fn on_roll(text: &str) -> Vec<usize> {
    nodes_answered(|room| second::answer_on_roll(&working_roll(), &query(text), room))
}

fn text_reply(text: &str) -> Reply {
    second::read_text(text.as_bytes(), &mut [0; 1536])
}

fn nested(depth: usize) -> String {
    "(".repeat(depth) + "v" + &")".repeat(depth)
}

#[test]
fn the_working_roll_passes() {
    assert_eq!(second::check_roll(&working_roll()), Reply::Count(13));
}

#[test]
fn the_filter_table_has_twelve_entries_and_names_5_6_and_11() {
    let (table_read, numbers) = filters(&["!v/[#6]", "f", "v/[#8]"]);
    let by_hand = [
        entry(2, 0, 0, 0),
        entry(16, 6, 0, 0),
        entry(6, 0, 1, 0),
        entry(7, 0, 0, 2),
        entry(17, 0, 3, 0),
        entry(20, 0, 4, 0),
        entry(19, 0, 0, 0),
        entry(2, 0, 0, 0),
        entry(16, 8, 0, 0),
        entry(6, 0, 8, 0),
        entry(7, 0, 7, 9),
        entry(17, 0, 10, 0),
    ];
    assert_eq!(by_hand.len(), 12);
    assert_eq!(table_read, table(&by_hand));
    assert_eq!(numbers, [5, 6, 11]);
}

#[test]
fn the_visible_records_are_the_listed_ones() {
    let (annotation, filters) = working_annotation();
    let tree = second::roll::Tree::read(&working_roll()).unwrap();
    let filters = second::table::read_filters(&filters).unwrap();
    let annotation = second::annotation::Annotation::read(&annotation, &filters).unwrap();
    let view = second::view::View::cut(&tree, &annotation, &filters);
    assert_eq!(view.records, [0, 1, 4, 5, 6, 7, 11, 12]);
}

#[test]
fn the_view_is_the_listed_table() {
    let (annotation, filters) = working_annotation();
    let mut room = [UNTOUCHED; 13 * 4];
    assert_eq!(second::cut_view(&working_roll(), &annotation, &filters, &mut room), Reply::Count(8));
    let view = roll(&[(1, NO_PARENT), (2, 0), (5, 1), (8, 2), (7, 1), (5, 4), (5, 0), (8, 6)]);
    assert_eq!(room[..8 * 4], view);
    assert!(room[8 * 4..].iter().all(|byte| *byte == UNTOUCHED));
}

#[test]
fn the_curators_answers_are_the_listed_ones() {
    let listed: [(&str, &[usize]); 13] = [
        (".", &[0]),
        ("^", &[]),
        ("v", &[1, 6]),
        ("v/v", &[2, 4, 7]),
        ("v*/[#5]", &[2, 5, 6]),
        ("v/>", &[6]),
        ("v/v/>", &[4]),
        ("v/v/>/<", &[2]),
        ("v*/^", &[0, 1, 2, 4, 6]),
        ("v/[!v/[#4]]", &[1, 6]),
        ("[f]", &[]),
        ("[t]", &[0]),
        ("(v|v/v)*", &[0, 1, 2, 3, 4, 5, 6, 7]),
    ];
    for (text, positions) in listed {
        assert_eq!(curator(text), positions, "{text}");
        assert_eq!(curator_through_rewriting(text), positions, "{text} rewritten");
    }
}

#[test]
fn the_answers_on_the_roll_are_the_listed_ones() {
    assert_eq!(on_roll("v"), [1, 8]);
    assert_eq!(on_roll("v*/[#5]"), [3, 4, 7, 11]);
    assert_eq!(on_roll("v/[!v/[#4]]"), []);
}

#[test]
fn texts_are_refused_where_listed() {
    assert_eq!(text_reply("v/"), refused(14, 2));
    assert_eq!(text_reply("v//v"), refused(14, 2));
    assert_eq!(text_reply("[#65]"), refused(14, 3));
    assert_eq!(text_reply("v v"), refused(14, 1));
    assert_eq!(text_reply(""), refused(13, 0));
    // Document 02 has made this a refusal.
    assert_eq!(text_reply("v**"), refused(19, 2));
}

#[test]
fn texts_are_read_where_listed() {
    assert_eq!(query("[#64]"), table(&[entry(16, 64, 0, 0), entry(6, 0, 0, 0)]));
}

#[test]
fn thirty_two_steps_are_read_and_one_more_is_not() {
    assert_eq!(text_reply(&["v"; 32].join("/")), Reply::Count(63));
    assert_eq!(text_reply(&["v"; 33].join("/")), refused(16, 0));
}

#[test]
fn thirty_two_brackets_are_read_and_one_more_is_not() {
    assert_eq!(text_reply(&nested(32)), Reply::Count(1));
    assert_eq!(text_reply(&nested(33)), refused(15, 32));
}

#[test]
fn rolls_pass_and_fail_where_listed() {
    let flat = |nodes: usize| [roll(&[(1, NO_PARENT)]), roll(&[(2, 0)]).repeat(nodes - 1)].concat();
    let chain: Vec<(u8, u16)> = (0..4096).map(|node: u16| (3, node.wrapping_sub(1))).collect();
    assert_eq!(second::check_roll(&flat(4096)), Reply::Count(4096));
    assert_eq!(second::check_roll(&roll(&chain)), Reply::Count(4096));
    assert_eq!(flat(4097).len(), 16_388);
    assert_eq!(second::check_roll(&flat(4097)), refused(2, 0));
    assert_eq!(second::check_roll(&roll(&[(1, NO_PARENT)])), Reply::Count(1));
    assert_eq!(second::check_roll(&roll(&[(1, 0)])), refused(5, 0));
}
