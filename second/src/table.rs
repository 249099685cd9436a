//! Query tables: paths and filters as entries that name earlier entries.

use crate::reply::{refusal, Refusal};
use crate::roll::is_label;

pub const ENTRY_BYTES: usize = 6;

/// How many entries a table may hold, and how high an entry may be.
#[derive(Clone, Copy, Debug)]
pub struct Limits {
    pub entries: usize,
    pub height: usize,
}

pub const CURATORS_QUERY: Limits = Limits { entries: 256, height: 32 };
pub const FILTER_TABLE: Limits = Limits { entries: 256, height: 16 };
pub const QUERY_ON_ROLL: Limits = Limits { entries: 1024, height: 128 };

/// An entry with the numbers of the entries it speaks of.
#[derive(Clone, Copy, Debug, PartialEq, Eq, Hash)]
pub enum Entry {
    Itself,
    Child,
    Parent,
    Next,
    Previous,
    Stay(usize),
    Then(usize, usize),
    Either(usize, usize),
    Star(usize),
    Label(u8),
    Leads(usize),
    True,
    False,
    Not(usize),
    And(usize, usize),
    Or(usize, usize),
}

use Entry::*;

impl Entry {
    /// The entry's kind as document 01 numbers it.
    fn kind(&self) -> u8 {
        match self {
            Itself => 1,
            Child => 2,
            Parent => 3,
            Next => 4,
            Previous => 5,
            Stay(_) => 6,
            Then(..) => 7,
            Either(..) => 8,
            Star(_) => 9,
            Label(_) => 16,
            Leads(_) => 17,
            True => 18,
            False => 19,
            Not(_) => 20,
            And(..) => 21,
            Or(..) => 22,
        }
    }

    /// Whether it is a path; otherwise it is a filter.
    pub fn is_path(&self) -> bool {
        self.kind() < 16
    }

    /// The entries it speaks of, left one first.
    pub fn operands(&self) -> Vec<usize> {
        match *self {
            Stay(left) | Star(left) | Leads(left) | Not(left) => vec![left],
            Then(left, right) | Either(left, right) | And(left, right) | Or(left, right) => vec![left, right],
            Itself | Child | Parent | Next | Previous | Label(_) | True | False => vec![],
        }
    }

    /// The six bytes of the entry; what it does not use is zero.
    pub fn write(&self) -> [u8; ENTRY_BYTES] {
        let label = if let Label(label) = self { *label } else { 0 };
        record(self.kind(), label, &self.operands())
    }

    /// The entry six bytes stand for behind these earlier entries, if they stand for one.
    fn read(record: &[u8], earlier: &[Entry]) -> Option<Entry> {
        let (left, right) = operand_fields(record);
        let of_sort = |number: usize, path: bool| earlier.get(number).is_some_and(|entry| entry.is_path() == path);
        let path = |number| of_sort(number, true).then_some(number);
        let filter = |number| of_sort(number, false).then_some(number);
        let entry = match record[0] {
            1 => Itself,
            2 => Child,
            3 => Parent,
            4 => Next,
            5 => Previous,
            6 => Stay(filter(left)?),
            7 => Then(path(left)?, path(right)?),
            8 => Either(path(left)?, path(right)?),
            9 => Star(path(left)?),
            16 => Label(is_label(record[1]).then_some(record[1])?),
            17 => Leads(path(left)?),
            18 => True,
            19 => False,
            20 => Not(filter(left)?),
            21 => And(filter(left)?, filter(right)?),
            22 => Or(filter(left)?, filter(right)?),
            _ => return None,
        };
        // Writing it again gives zero for all it does not use, so a difference is an unused field that is not zero.
        (entry.write() == record).then_some(entry)
    }
}

/// The six bytes of any entry; an operand it does not have is zero.
pub fn record(kind: u8, label: u8, operands: &[usize]) -> [u8; ENTRY_BYTES] {
    let field = |which: usize| (operands.get(which).copied().unwrap_or(0) as u16).to_le_bytes();
    let ([left_low, left_high], [right_low, right_high]) = (field(0), field(1));
    [kind, label, left_low, left_high, right_low, right_high]
}

/// What stands in the fields for the left and the right operand of an entry's six bytes.
pub fn operand_fields(record: &[u8]) -> (usize, usize) {
    let field = |low: usize| usize::from(u16::from_le_bytes([record[low], record[low + 1]]));
    (field(2), field(4))
}

/// The height of an entry: 1 without operands, otherwise one more than its highest operand.
pub fn height_over(operands: &[usize], heights: &[usize]) -> usize {
    1 + operands.iter().map(|operand| heights[*operand]).max().unwrap_or(0)
}

/// The height of each entry.
pub fn heights(entries: &[Entry]) -> Vec<usize> {
    let mut heights: Vec<usize> = Vec::with_capacity(entries.len());
    for entry in entries {
        heights.push(height_over(&entry.operands(), &heights));
    }
    heights
}

/// The bytes of a table.
pub fn write(entries: &[Entry]) -> Vec<u8> {
    entries.iter().flat_map(Entry::write).collect()
}

/// A filter table, or what is wrong with it (7, 8, 9).
pub fn read_filters(bytes: &[u8]) -> Result<Vec<Entry>, Refusal> {
    if !bytes.len().is_multiple_of(ENTRY_BYTES) || bytes.len() > FILTER_TABLE.entries * ENTRY_BYTES {
        return Err(refusal(7, 0));
    }
    read_entries(bytes, FILTER_TABLE.height)
}

/// A query table within limits, or what is wrong with it (12, 8, 9, 12).
pub fn read_query(bytes: &[u8], limits: Limits) -> Result<Vec<Entry>, Refusal> {
    if bytes.is_empty() || !bytes.len().is_multiple_of(ENTRY_BYTES) || bytes.len() > limits.entries * ENTRY_BYTES {
        return Err(refusal(12, 0));
    }
    let entries = read_entries(bytes, limits.height)?;
    let last = entries.len() - 1;
    if !entries[last].is_path() {
        return Err(refusal(12, last));
    }
    Ok(entries)
}

/// The entries one after the other, or the first that is malformed (8) or too high (9).
fn read_entries(bytes: &[u8], most_height: usize) -> Result<Vec<Entry>, Refusal> {
    let mut entries = Vec::with_capacity(bytes.len() / ENTRY_BYTES);
    let mut heights: Vec<usize> = Vec::with_capacity(bytes.len() / ENTRY_BYTES);
    for (number, record) in bytes.chunks(ENTRY_BYTES).enumerate() {
        let entry = Entry::read(record, &entries).ok_or(refusal(8, number))?;
        let height = height_over(&entry.operands(), &heights);
        if height > most_height {
            return Err(refusal(9, number));
        }
        entries.push(entry);
        heights.push(height);
    }
    Ok(entries)
}
