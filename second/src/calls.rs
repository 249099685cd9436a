//! The seven calls of document 01, and those that document 02 adds.
//!
//! A call with a room first works out all it is going to write and only then touches the room, so a refused call
//! changes nothing.

use crate::annotation::Annotation;
use crate::meaning::{Meaning, Nodes};
use crate::print;
use crate::reply::{refusal, Refusal, Reply};
use crate::roll::{Tree, MOST_NODES, NODE_BYTES};
use crate::rules::Rules;
use crate::table::{self, Entry, CURATORS_QUERY, ENTRY_BYTES, QUERY_ON_ROLL};
use crate::text;
use crate::view::View;

pub const TEXT_ROOM: usize = CURATORS_QUERY.entries * ENTRY_BYTES;
pub const BITMAP_ROOM: usize = MOST_NODES / 8;
pub const REWRITE_ROOM: usize = QUERY_ON_ROLL.entries * ENTRY_BYTES;
pub const PRINT_ROOM: usize = text::MOST_BYTES;

/// Call 1: the number of nodes of a roll.
pub fn check_roll(roll: &[u8]) -> Reply {
    Tree::read(roll).map(|tree| tree.len()).into()
}

/// Call 2: writes the table of a query text and gives its number of entries.
pub fn read_text(text: &[u8], room: &mut [u8]) -> Reply {
    settle(room, TEXT_ROOM, || {
        let table = text::read(text)?;
        Ok((table::write(&table), table.len()))
    })
}

/// Call 3: writes the bitmap of the records a query reaches on a roll and gives their number.
pub fn answer_on_roll(roll: &[u8], query: &[u8], room: &mut [u8]) -> Reply {
    settle(room, BITMAP_ROOM, || {
        let tree = Tree::read(roll)?;
        let query = table::read_query(query, QUERY_ON_ROLL)?;
        Ok(counted(bitmap(&Meaning::new(&tree, &query).answer_from(0))))
    })
}

/// Call 4: writes the view's node table and gives its number of nodes.
pub fn cut_view(roll: &[u8], annotation: &[u8], filters: &[u8], room: &mut [u8]) -> Reply {
    settle(room, roll.len(), || {
        let tree = Tree::read(roll)?;
        let (filters, annotation) = read_annotation(annotation, filters)?;
        let view = View::cut(&tree, &annotation, &filters).tree.write();
        let nodes = view.len() / NODE_BYTES;
        Ok((view, nodes))
    })
}

/// Call 5: writes the rewritten query's table and gives its number of entries.
pub fn rewrite(annotation: &[u8], filters: &[u8], query: &[u8], room: &mut [u8]) -> Reply {
    settle(room, REWRITE_ROOM, || {
        let (filters, annotation) = read_annotation(annotation, filters)?;
        let query = table::read_query(query, CURATORS_QUERY)?;
        let table = crate::rewrite::rewrite(&filters, &annotation, &query);
        Ok((table::write(&table), table.len()))
    })
}

/// Call 6: writes the bitmap of the view positions a query reaches on the view and gives their number.
///
/// The view is cut out first and the query is read on it as it stands; the rewriting has no part in this.
pub fn curators_answer(roll: &[u8], annotation: &[u8], filters: &[u8], query: &[u8], room: &mut [u8]) -> Reply {
    settle(room, BITMAP_ROOM, || {
        let tree = Tree::read(roll)?;
        let (filters, annotation) = read_annotation(annotation, filters)?;
        let query = table::read_query(query, CURATORS_QUERY)?;
        let view = View::cut(&tree, &annotation, &filters);
        Ok(counted(bitmap(&Meaning::new(&view.tree, &query).answer_from(0))))
    })
}

/// Call 7: the part of the roll with a record and all its descendants, empty if the roll is bad or has no such record.
pub fn run_of_record(roll: &[u8], record: usize) -> &[u8] {
    match Tree::read(roll) {
        Ok(tree) if record < tree.len() => {
            let start = record * NODE_BYTES;
            &roll[start..start + tree.run_length(record as u16) * NODE_BYTES]
        }
        _ => &[],
    }
}

/// Request Q-1 of document 02: writes the text of a curator's query table and gives its number of bytes.
pub fn print_query(query: &[u8], room: &mut [u8]) -> Reply {
    settle(room, PRINT_ROOM, || {
        let text = print::print(&table::read_query(query, CURATORS_QUERY)?)?;
        let bytes = text.len();
        Ok((text, bytes))
    })
}

/// Document 02, request Q-3: the number of nodes of a roll that follows its content rules.
pub fn check_content(roll: &[u8], rules: &[u8], list: &[u8]) -> Reply {
    let follow = || {
        let tree = Tree::read(roll)?;
        let rules = Rules::read(rules, list)?;
        match rules.first_breach(&tree) {
            Some(node) => Err(refusal(21, usize::from(node))),
            None => Ok(tree.len()),
        }
    };
    follow().into()
}

/// Refuses a room that is too short before anything else; otherwise lets the call work and hands its bytes over.
fn settle(room: &mut [u8], needed: usize, work: impl FnOnce() -> Result<(Vec<u8>, usize), Refusal>) -> Reply {
    if room.len() < needed {
        return Err(refusal(1, 0)).into();
    }
    let outcome = work().map(|(bytes, count)| {
        room[..bytes.len()].copy_from_slice(&bytes);
        count
    });
    outcome.into()
}

/// The filter table is judged before the annotation that names its entries.
fn read_annotation(annotation: &[u8], filters: &[u8]) -> Result<(Vec<Entry>, Annotation), Refusal> {
    let filters = table::read_filters(filters)?;
    let annotation = Annotation::read(annotation, &filters)?;
    Ok((filters, annotation))
}

/// Node k is the bit of weight 2^(k mod 8) in byte k div 8.
fn bitmap(nodes: &Nodes) -> Vec<u8> {
    let mut bitmap = vec![0; BITMAP_ROOM];
    for node in nodes {
        bitmap[usize::from(node / 8)] |= 1 << (node % 8);
    }
    bitmap
}

/// A bitmap with the number of ones in it.
fn counted(bitmap: Vec<u8>) -> (Vec<u8>, usize) {
    let ones = nodes_of_bitmap(&bitmap).len();
    (bitmap, ones)
}

/// The nodes of a bitmap, ascending.
pub fn nodes_of_bitmap(bitmap: &[u8]) -> Vec<usize> {
    (0..bitmap.len() * 8).filter(|node| bitmap[node / 8] >> (node % 8) & 1 == 1).collect()
}
