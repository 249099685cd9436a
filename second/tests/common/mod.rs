//! What several tests share: tables written by hand, the roll to work with, and chance with a fixed seed.
#![allow(dead_code)]

use second::calls::{nodes_of_bitmap, BITMAP_ROOM, REWRITE_ROOM, TEXT_ROOM};
use second::reply::Reply;
use second::roll::{Node, Tree};
use second::table::{Entry, Limits};

/// What rooms hold before a call.
pub const UNTOUCHED: u8 = 0xA5;

pub fn refused(number: u8, place: usize) -> Reply {
    Reply::Refused { number, place }
}

pub fn count(reply: Reply) -> usize {
    match reply {
        Reply::Count(count) => count,
        refused => panic!("refused: {refused}"),
    }
}

pub const NO_PARENT: u16 = 65_535;

/// The roll of document 01 as label and parent.
pub const WORKING_ROLL: [(u8, u16); 13] =
    [(1, NO_PARENT), (2, 0), (4, 1), (5, 2), (5, 2), (8, 4), (7, 1), (5, 6), (2, 0), (6, 8), (4, 8), (5, 10), (8, 11)];

pub fn roll(nodes: &[(u8, u16)]) -> Vec<u8> {
    nodes.iter().flat_map(|(label, parent)| [*label, 0, parent.to_le_bytes()[0], parent.to_le_bytes()[1]]).collect()
}

pub fn working_roll() -> Vec<u8> {
    roll(&WORKING_ROLL)
}

pub fn entry(kind: u8, label: u8, left: u16, right: u16) -> [u8; 6] {
    let ([left_low, left_high], [right_low, right_high]) = (left.to_le_bytes(), right.to_le_bytes());
    [kind, label, left_low, left_high, right_low, right_high]
}

pub fn table(entries: &[[u8; 6]]) -> Vec<u8> {
    entries.concat()
}

pub fn annotation(records: &[(u8, u8, u16)]) -> Vec<u8> {
    records.iter().flat_map(|(parent, child, filter)| entry(*parent, *child, *filter, 0)).collect()
}

/// The table of a query text.
pub fn query(text: &str) -> Vec<u8> {
    let mut room = [UNTOUCHED; TEXT_ROOM];
    let entries = count(second::read_text(text.as_bytes(), &mut room));
    room[..entries * 6].to_vec()
}

/// The bytes the grammar knows.
pub const BYTES: &[u8; 30] = b".v^><[]()|/*!tf#{}+&0123456789";

/// All texts of so many bytes over an alphabet.
pub fn all_texts(alphabet: &[u8], length: usize) -> Vec<Vec<u8>> {
    let mut texts = vec![vec![]];
    for _ in 0..length {
        let one_longer =
            |text: &Vec<u8>| alphabet.iter().map(|byte| [&text[..], &[*byte]].concat()).collect::<Vec<_>>();
        texts = texts.iter().flat_map(one_longer).collect();
    }
    texts
}

/// Filters one behind the other as the reader writes them, and the number of each: the last entry of `[filter]` is
/// left out.
pub fn filters(texts: &[&str]) -> (Vec<u8>, Vec<u16>) {
    let (mut table, mut numbers) = (Vec::new(), Vec::new());
    for text in texts {
        let first = (table.len() / 6) as u16;
        let bracketed = query(&format!("[{text}]"));
        for record in bracketed[..bracketed.len() - 6].chunks(6) {
            table.extend(moved(record, first));
        }
        numbers.push((table.len() / 6 - 1) as u16);
    }
    (table, numbers)
}

/// An entry whose table now begins at another number.
fn moved(record: &[u8], by: u16) -> [u8; 6] {
    let left = u16::from_le_bytes([record[2], record[3]]);
    let right = u16::from_le_bytes([record[4], record[5]]);
    match record[0] {
        7 | 8 | 21 | 22 => entry(record[0], record[1], left + by, right + by),
        6 | 9 | 17 | 20 => entry(record[0], record[1], left + by, right),
        _ => entry(record[0], record[1], left, right),
    }
}

/// Annotation and filter table of document 01's roll to work with.
pub fn working_annotation() -> (Vec<u8>, Vec<u8>) {
    let (table, numbers) = filters(&["!v/[#6]", "f", "v/[#8]"]);
    (annotation(&[(1, 2, numbers[0]), (2, 4, numbers[1]), (4, 5, numbers[2])]), table)
}

/// A call with a bitmap: its nodes, if the count agrees with them.
pub fn nodes_answered(call: impl FnOnce(&mut [u8]) -> Reply) -> Vec<usize> {
    let mut room = [UNTOUCHED; BITMAP_ROOM];
    let ones = count(call(&mut room));
    let nodes = nodes_of_bitmap(&room);
    assert_eq!(nodes.len(), ones);
    nodes
}

/// The rewritten table.
pub fn rewritten(annotation: &[u8], filters: &[u8], query: &[u8]) -> Vec<u8> {
    let mut room = [UNTOUCHED; REWRITE_ROOM];
    let entries = count(second::rewrite(annotation, filters, query, &mut room));
    assert!(room[entries * 6..].iter().all(|byte| *byte == UNTOUCHED), "more was written than is counted");
    room[..entries * 6].to_vec()
}

pub fn to_hex(bytes: &[u8]) -> String {
    match bytes {
        [] => "-".to_string(),
        _ => bytes.iter().map(|byte| format!("{byte:02x}")).collect(),
    }
}

pub fn from_hex(word: &str) -> Vec<u8> {
    let digits = if word == "-" { "" } else { word };
    assert!(digits.len() % 2 == 0, "{word} is no hex");
    (0..digits.len()).step_by(2).map(|at| u8::from_str_radix(&digits[at..at + 2], 16).unwrap()).collect()
}

/// Chance with a seed, so that each run draws the same.
pub struct Chance(u64);

impl Chance {
    pub fn new(seed: u64) -> Chance {
        Chance(seed.wrapping_mul(0x9E37_79B9_7F4A_7C15) | 1)
    }

    fn turn(&mut self) -> u64 {
        self.0 ^= self.0 << 13;
        self.0 ^= self.0 >> 7;
        self.0 ^= self.0 << 17;
        self.0
    }

    pub fn below(&mut self, bound: usize) -> usize {
        ((self.turn() >> 16) % bound as u64) as usize
    }

    pub fn one_in(&mut self, bound: usize) -> bool {
        self.below(bound) == 0
    }

    pub fn one_of<T: Copy>(&mut self, things: &[T]) -> T {
        things[self.below(things.len())]
    }
}

/// A roll of up to so many nodes. Each new node hangs from the newest one or from one of its ancestors.
pub fn some_roll(chance: &mut Chance, most_nodes: usize, labels: u8) -> Vec<u8> {
    let mut tree = Tree::default();
    let label = |chance: &mut Chance| 1 + chance.below(usize::from(labels)) as u8;
    let root = label(chance);
    tree.hang(root, None);
    for newest in 0..chance.below(most_nodes) {
        let parents: Vec<Node> = tree.self_and_ancestors(newest as Node).collect();
        let next = label(chance);
        tree.hang(next, Some(chance.one_of(&parents)));
    }
    tree.write()
}

/// A table of some entries that share operands freely, within limits; the last is of the sort asked for.
pub fn some_table(chance: &mut Chance, limits: Limits, labels: u8, ends_in_path: bool) -> Vec<Entry> {
    let size = 1 + chance.below(limits.entries);
    let mut table: Vec<Entry> = Vec::new();
    let mut heights: Vec<usize> = Vec::new();
    while table.len() < size || table.last().is_some_and(|last| last.is_path() != ends_in_path) {
        let Some(entry) = some_entry(chance, &table, labels) else { continue };
        let height = 1 + entry.operands().into_iter().map(|operand| heights[operand]).max().unwrap_or(0);
        let turns_back = table.len() + 1 >= size && entry.is_path() != ends_in_path;
        if height <= limits.height && !turns_back {
            table.push(entry);
            heights.push(height);
        }
    }
    table
}

fn some_entry(chance: &mut Chance, table: &[Entry], labels: u8) -> Option<Entry> {
    let paths: Vec<usize> = (0..table.len()).filter(|number| table[*number].is_path()).collect();
    let filters: Vec<usize> = (0..table.len()).filter(|number| !table[*number].is_path()).collect();
    let path = |chance: &mut Chance| operand(chance, &paths);
    let filter = |chance: &mut Chance| operand(chance, &filters);
    Some(match chance.below(25) {
        0 => Entry::Itself,
        1 | 2 => Entry::Child,
        3 => Entry::Parent,
        4 | 5 => Entry::Next,
        6 | 7 => Entry::Previous,
        8 | 9 => Entry::Stay(filter(chance)?),
        10 | 11 => Entry::Then(path(chance)?, path(chance)?),
        12 | 13 => Entry::Either(path(chance)?, path(chance)?),
        14 | 15 => Entry::Star(path(chance)?),
        16 | 17 => Entry::Label(1 + chance.below(usize::from(labels)) as u8),
        18 | 19 => Entry::Leads(path(chance)?),
        20 => Entry::True,
        21 => Entry::False,
        22 => Entry::Not(filter(chance)?),
        23 => Entry::And(filter(chance)?, filter(chance)?),
        _ => Entry::Or(filter(chance)?, filter(chance)?),
    })
}

/// Mostly one of the newest, so that tables grow high and not only wide.
fn operand(chance: &mut Chance, numbers: &[usize]) -> Option<usize> {
    let newest = &numbers[numbers.len().saturating_sub(3)..];
    let from = if chance.one_in(4) { numbers } else { newest };
    (!from.is_empty()).then(|| chance.one_of(from))
}
