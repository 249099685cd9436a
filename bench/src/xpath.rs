//! Queries that XPath 1.0 can say: call 6, call 3 on the view that is cut out, and libxml2 on that view as XML, from the root.

use std::hint::black_box;

use peer::{Expression, View};
use second::Reply;

use crate::court::{shares, Shown};
use crate::tools::{in_turn, table_of};

/// What is asked for, as a query text and as an expression of XPath. A node of label n is an element `ln`.
const QUERIES: [(&str, &str, &str); 7] = [
    ("child", "v", "*"),
    ("child of child", "v/v", "*/*"),
    ("descendant with a label", "v*/[#5]", "descendant-or-self::l5"),
    ("next sibling", "v/>", "*/following-sibling::*[1]"),
    ("not", "v*/[#2&!v/[#7]]", "descendant-or-self::l2[not(l7)]"),
    ("previous sibling of a label", "v*/[#5]/<", "descendant-or-self::l5/preceding-sibling::*[1]"),
    ("parent", "v*/[#8]/^", "descendant-or-self::l8/parent::*"),
];

/// One query on one view: how many nodes answer it, and the microseconds of an answer.
pub struct Answer {
    pub name: &'static str,
    pub text: &'static str,
    pub expression: &'static str,
    pub nodes: usize,
    pub curators: f64,
    pub on_view: f64,
    pub peer: f64,
}

/// The answers on one view, and the microseconds to cut it out and, for libxml2, to read it.
pub struct Share {
    pub hides: &'static str,
    pub hidden: f64,
    pub nodes: usize,
    pub cut: f64,
    pub read: f64,
    pub answers: Vec<Answer>,
}

fn curators(shown: &Shown, query: &[u8], room: &mut [u8]) -> Reply {
    compare::curators_answer(&shown.input.roll, &shown.input.annotation, &shown.input.filters, query, room)
}

/// The positions in an answer; a refusal ends the run.
fn positions(answer: impl FnOnce(&mut [u8]) -> Reply) -> Vec<usize> {
    let mut room = [0; 512];
    let reply = answer(&mut room);
    let positions: Vec<usize> = kepolas::positions(&room).collect();
    assert_eq!(reply.to_string(), Reply::Count(positions.len()).to_string());
    positions
}

/// The view positions that all three, and the second program, answer.
fn agreed(shown: &Shown, view: &View, text: &str, query: &[u8], expression: &Expression) -> usize {
    let theirs = view.positions(expression);
    let input = &shown.input;
    assert_eq!(positions(|room| curators(shown, query, room)), theirs, "{text}: call 6 and libxml2 differ");
    assert_eq!(positions(|room| compare::answer_on_roll(&shown.view, query, room)), theirs, "{text}: call 3");
    let second = |room: &mut [u8]| second::curators_answer(&input.roll, &input.annotation, &input.filters, query, room);
    assert_eq!(positions(second), theirs, "{text}: the second program");
    theirs.len()
}

fn answer(shown: &Shown, view: &View, (name, text, expression): (&'static str, &'static str, &'static str)) -> Answer {
    let (query, compiled) = (table_of(text), Expression::compiled(expression));
    let nodes = agreed(shown, view, text, &query, &compiled);
    let (mut room, mut room_on_view) = ([0; 512], [0; 512]);
    let [curators, on_view, peer] = in_turn([
        &mut || {
            black_box(curators(shown, black_box(&query), &mut room));
        },
        &mut || {
            black_box(compare::answer_on_roll(&shown.view, black_box(&query), &mut room_on_view));
        },
        &mut || {
            black_box(view.count(black_box(&compiled)));
        },
    ]);
    assert_eq!(view.count(&compiled), nodes, "libxml2 answers the same after many runs");
    Answer { name, text, expression, nodes, curators, on_view, peer }
}

fn share(shown: Shown) -> Share {
    let (view, xml) = (View::of(&shown.view), peer::xml(&shown.view));
    let mut room = vec![0; shown.input.roll.len()];
    let [cut, read] = in_turn([
        &mut || {
            black_box(shown.cut(&mut room));
        },
        &mut || drop(black_box(View::read(&xml))),
    ]);
    let answers = QUERIES.into_iter().map(|query| answer(&shown, &view, query)).collect();
    Share { hides: shown.hides, hidden: shown.hidden(), nodes: shown.view.len() / 4, cut, read, answers }
}

pub fn answers() -> Vec<Share> {
    shares().into_iter().map(share).collect()
}
