//! Rolls with an annotation and its filter table, some nodes being hidden.

use crate::rolls::{shapes, small_rolls, SEED};
use crate::tools::{entry, table_of};

#[derive(Clone)]
pub struct Annotated {
    pub roll: Vec<u8>,
    pub annotation: Vec<u8>,
    pub filters: Vec<u8>,
}

/// The label of nodes that are to be hidden: no shape of roll uses it.
const HIDDEN: u8 = 9;

/// A roll on which the nodes with the hidden label are hidden: records stand only where it changes whether a node is shown.
pub fn marked(roll: Vec<u8>) -> Annotated {
    let shown = 1..HIDDEN;
    let hides = shown.clone().map(|parent| (parent, HIDDEN, 1));
    let shows = shown.map(|child| (HIDDEN, child, 0));
    let record = |(parent, child, filter): (u8, u8, u8)| [parent, child, filter, 0, 0, 0];
    Annotated {
        roll,
        annotation: hides.chain(shows).flat_map(record).collect(),
        filters: [entry(18, 0, 0), entry(19, 0, 0)].concat(),
    }
}

/// Hides the records that are chosen, but for the root.
pub fn hiding(mut roll: Vec<u8>, mut chosen: impl FnMut(usize) -> bool) -> Annotated {
    for (at, record) in roll.chunks_mut(4).enumerate().skip(1) {
        if chosen(at) {
            record[0] = HIDDEN;
        }
    }
    marked(roll)
}

/// Hides so many nodes of a hundred, by chance.
pub fn share(roll: Vec<u8>, percent: u64, seed: u64) -> Annotated {
    let mut chance = seed;
    hiding(roll, |_| {
        chance = chance.wrapping_mul(6_364_136_223_846_793_005).wrapping_add(1_442_695_040_888_963_407);
        (chance >> 33) % 100 < percent
    })
}

/// A filter's table written behind others: an operand's number is raised by theirs.
fn behind(filters: &mut Vec<u8>, text: &str) {
    let first = filters.len() / 6;
    let table = table_of(&format!("[{text}]"));
    for record in table[..table.len() - 6].chunks(6) {
        let operand = |low: usize| u16::from_le_bytes([record[low], record[low + 1]]) as usize;
        let moved = |low: usize, used: &[u8]| if used.contains(&record[0]) { operand(low) + first } else { 0 };
        let (left, right) = (moved(2, &[6, 7, 8, 9, 17, 20, 21, 22]), moved(4, &[7, 8, 21, 22]));
        filters.extend([record[0], record[1]]);
        filters.extend(&entry(0, left, right)[2..]);
    }
}

/// A roll with records for pairs of labels, each with its filter's text.
pub fn annotated(roll: Vec<u8>, records: &[(u8, u8, &str)]) -> Annotated {
    let (mut filters, mut annotation) = (Vec::new(), Vec::new());
    for (parent, child, text) in records {
        behind(&mut filters, text);
        annotation.extend([*parent, *child]);
        annotation.extend(&entry(0, filters.len() / 6 - 1, 0)[2..]);
    }
    Annotated { roll, annotation, filters }
}

/// Drafts are hidden, and so are words of drafts without a tick: document 01's annotation with lines in it.
pub fn drafts(roll: Vec<u8>) -> Annotated {
    annotated(roll, &[(1, 2, "!v/[#9]"), (2, 4, "f"), (3, 5, "v/[#8]")])
}

/// The shape at a place in the list of shapes, with 4,096 nodes and eight times with 512, each with its nodes hidden by chance.
pub fn shares(shape: usize, percent: u64) -> (Annotated, Vec<Annotated>) {
    let small = small_rolls(shape).into_iter().zip(SEED..).map(|(roll, seed)| share(roll, percent, seed));
    (share(shapes(4096, SEED)[shape].1.clone(), percent, SEED), small.collect())
}
