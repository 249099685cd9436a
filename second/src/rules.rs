//! Content rules (document 02, request Q-3): which labels ask for which children, and whether a roll follows them.

use crate::expression::{read_entries, Expression, RULE_TABLE};
use crate::language;
use crate::reply::{refusal, Refusal};
use crate::roll::{is_label, Node, Tree};
use crate::table::ENTRY_BYTES;

pub const LIST_RECORD_BYTES: usize = 4;
pub const MOST_LIST_RECORDS: usize = 64;

/// Expressions, and the labels that have one of them as their rule, ascending.
#[derive(Clone, Debug, Default, PartialEq, Eq)]
pub struct Rules {
    expressions: Vec<Expression>,
    list: Vec<(u8, usize)>,
}

impl Rules {
    /// The rules that entries and list stand for, or what is wrong with them (20).
    pub fn read(entries: &[u8], list: &[u8]) -> Result<Rules, Refusal> {
        // Both lengths are judged before any entry.
        if !is_length(entries, ENTRY_BYTES, RULE_TABLE.entries)
            || !is_length(list, LIST_RECORD_BYTES, MOST_LIST_RECORDS)
        {
            return Err(refusal(20, 0));
        }
        let expressions = read_entries(entries)?;
        let list = read_list(list, expressions.len())?;
        Ok(Rules { expressions, list })
    }

    /// The lowest node whose children are not allowed, if there is one.
    pub fn first_breach(&self, tree: &Tree) -> Option<Node> {
        tree.nodes().find(|node| !self.allow(tree, *node))
    }

    /// Whether a node's children are what the rule of its label asks for. A label without a rule takes any children.
    fn allow(&self, tree: &Tree, node: Node) -> bool {
        let Some((_, entry)) = self.list.iter().find(|(label, _)| *label == tree.label(node)) else { return true };
        let word: Vec<u8> = tree.children(node).iter().map(|child| tree.label(*child)).collect();
        language::has_word(&self.expressions, *entry, &word)
    }
}

/// Whether bytes are so many whole records and no more than this; none at all are in order.
fn is_length(bytes: &[u8], record_bytes: usize, most_records: usize) -> bool {
    bytes.len().is_multiple_of(record_bytes) && bytes.len() <= most_records * record_bytes
}

/// Each label with the entry that is its rule, or the first record that is malformed or not above the one before.
fn read_list(bytes: &[u8], entries: usize) -> Result<Vec<(u8, usize)>, Refusal> {
    let mut list: Vec<(u8, usize)> = Vec::with_capacity(bytes.len() / LIST_RECORD_BYTES);
    for (number, record) in bytes.chunks(LIST_RECORD_BYTES).enumerate() {
        let (label, entry) = (record[0], usize::from(u16::from_le_bytes([record[2], record[3]])));
        let ascends = list.last().is_none_or(|(before, _)| *before < label);
        if !is_label(label) || record[1] != 0 || entry >= entries || !ascends {
            return Err(refusal(20, number));
        }
        list.push((label, entry));
    }
    Ok(list)
}
