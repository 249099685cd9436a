//! Printing beside the second program.

use std::hint::black_box;

use second::table::{heights, read_query, CURATORS_QUERY};
use second::Reply;

use crate::queries::{printed, too_long, Query};
use crate::tools::in_turn;

const ROOM: usize = 1024;

/// One table, what came of it, and how many microseconds each program takes for it.
pub struct Print {
    pub name: &'static str,
    pub entries: usize,
    pub height: usize,
    pub reply: Reply,
    pub proved: f64,
    pub second: f64,
}

impl Print {
    /// The bytes that are written before it ends: where the text is too long, those that fit.
    pub fn bytes(&self) -> usize {
        match self.reply {
            Reply::Count(bytes) => bytes,
            Reply::Refused { .. } => ROOM,
        }
    }
}

/// The reply that both programs give; they write the same.
fn agreed(name: &str, table: &[u8]) -> Reply {
    let (mut ours, mut theirs) = ([0; ROOM], [0; ROOM]);
    let reply = compare::print_query(table, &mut ours);
    assert_eq!(reply, second::print_query(table, &mut theirs), "{name}: the two programs differ");
    assert_eq!(ours, theirs, "{name}: the two programs write different bytes");
    reply
}

fn timed(name: &'static str, table: &[u8]) -> Print {
    let reply = agreed(name, table);
    let entries = read_query(table, CURATORS_QUERY).expect("it is a curator's query");
    let height = *heights(&entries).last().expect("it has entries");
    let (mut ours, mut theirs) = ([0; ROOM], [0; ROOM]);
    let [proved, second] = in_turn([
        &mut || {
            black_box(compare::print_query(black_box(table), &mut ours));
        },
        &mut || {
            black_box(second::print_query(black_box(table), &mut theirs));
        },
    ]);
    Print { name, entries: entries.len(), height, reply, proved, second }
}

/// The tables that are printed, and behind them those that are refused with 18.
pub fn prints() -> Vec<Print> {
    let expected = |(name, table): Query, fits: bool| {
        let print = timed(name, &table);
        let refused = print.reply == Reply::Refused { number: 18, place: 0 };
        assert!(refused != fits, "{name}: {}", print.reply);
        print
    };
    let fitting = printed().into_iter().map(|query| expected(query, true));
    fitting.chain(too_long().into_iter().map(|query| expected(query, false))).collect()
}
