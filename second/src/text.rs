//! Query texts, read in two passes.
//!
//! The first walks the bytes once with a stack of open brackets and says whether each is in place. The second knows
//! that the text is in the grammar, and takes it apart at its last operator outside brackets, the loosest kind first;
//! that is what grouping to the left means. Both keep their own stacks, so a long text costs no depth.

use std::ops::Range;

use crate::reply::{refusal, Refusal};
use crate::roll::MOST_LABEL;
use crate::table::{heights, Entry, CURATORS_QUERY};

pub const MOST_BYTES: usize = 1024;
const MOST_OPEN: usize = 32;

/// The table of a query text, or what is wrong with the text (13 to 16, and 19).
pub fn read(text: &[u8]) -> Result<Vec<Entry>, Refusal> {
    if text.is_empty() || text.len() > MOST_BYTES {
        return Err(refusal(13, 0));
    }
    walk(text)?;
    let table = Taking::apart(text);
    let too_high = heights(&table).into_iter().any(|height| height > CURATORS_QUERY.height);
    if table.len() > CURATORS_QUERY.entries || too_high {
        return Err(refusal(16, 0));
    }
    Ok(table)
}

/// What a text may go on with, after the bytes walked so far.
#[derive(Clone, Copy, PartialEq, Eq)]
enum Stand {
    /// An atom must come.
    Atom,
    /// A term of a filter must come.
    Term,
    /// An item has ended; stars may still come.
    Item,
    /// The same, and its last byte is a star.
    Starred,
    /// A term that is no path has ended.
    Plain,
    /// The first digit of a label must come.
    Label,
    /// This first digit of a label has come.
    Digit(u8),
}

/// The walk over a text: where it stands, and the brackets that are open.
struct Walk {
    stand: Stand,
    open: Vec<u8>,
}

/// Walks a text: the first byte out of place is 14, the first bracket too many 15, the first star behind a star 19, an end too early 14 at
/// the length.
fn walk(text: &[u8]) -> Result<(), Refusal> {
    let mut walk = Walk { stand: Stand::Atom, open: Vec::new() };
    for (place, byte) in text.iter().enumerate() {
        // The grammar takes any number of stars, so 14 has nothing to say of this one.
        if walk.stand == Stand::Starred && *byte == b'*' {
            return Err(refusal(19, place));
        }
        walk.stand = walk.after(*byte).ok_or(refusal(14, place))?;
        // Only a bracket in its place gets here, so 14 has gone first.
        if walk.open.len() > MOST_OPEN {
            return Err(refusal(15, place));
        }
    }
    let complete = walk.open.is_empty() && matches!(walk.stand, Stand::Item | Stand::Starred);
    complete.then_some(()).ok_or(refusal(14, text.len()))
}

impl Walk {
    /// Where the walk stands after one more byte; nothing if no query text goes on with that byte.
    ///
    /// Every stand can be carried on to the end of some text, since each bracket can be closed and each operator
    /// given an operand: so a byte is in place exactly if there is a stand after it.
    fn after(&mut self, byte: u8) -> Option<Stand> {
        match (self.stand, byte) {
            (Stand::Atom | Stand::Term, b'.' | b'v' | b'^' | b'>' | b'<') => Some(Stand::Item),
            (Stand::Atom | Stand::Term, b'[') => self.opened(byte, Stand::Term),
            (Stand::Atom | Stand::Term, b'(') => self.opened(byte, Stand::Atom),
            (Stand::Term, b'{') => self.opened(byte, Stand::Term),
            (Stand::Term, b'!') => Some(Stand::Term),
            (Stand::Term, b't' | b'f') => Some(Stand::Plain),
            (Stand::Term, b'#') => Some(Stand::Label),
            (Stand::Label, b'1'..=b'9') => Some(Stand::Digit(byte - b'0')),
            (Stand::Digit(tens), b'0'..=b'9') => (tens * 10 + (byte - b'0') <= MOST_LABEL).then_some(Stand::Plain),
            (Stand::Item, b'*') => Some(Stand::Starred),
            (Stand::Item | Stand::Starred, b'/' | b'|') => Some(Stand::Atom),
            (Stand::Item | Stand::Starred | Stand::Plain | Stand::Digit(_), _) => self.operand_ended(byte),
            _ => None,
        }
    }

    fn opened(&mut self, bracket: u8, inside: Stand) -> Option<Stand> {
        self.open.push(bracket);
        Some(inside)
    }

    /// After a whole operand only the innermost bracket says what may come: its closing, or in a filter another term.
    fn operand_ended(&mut self, byte: u8) -> Option<Stand> {
        let outside = match (self.open.last()?, byte) {
            (b'[' | b'{', b'&' | b'+') => return Some(Stand::Term),
            (b'[', b']') | (b'(', b')') => Stand::Item,
            (b'{', b'}') => Stand::Plain,
            _ => return None,
        };
        self.open.pop();
        Some(outside)
    }
}

/// What remains to be done to a part of a text.
enum Task {
    Path(Range<usize>),
    Filter(Range<usize>),
    /// Write an entry over what was written last for its operands.
    Write(Joint),
}

/// What joins operands into an entry.
enum Joint {
    One(fn(usize) -> Entry),
    Two(fn(usize, usize) -> Entry),
}

/// A text in the grammar being taken apart into a table.
struct Taking<'a> {
    text: &'a [u8],
    /// For the place of each closing bracket, the place of its opening.
    opening: Vec<Option<usize>>,
    table: Vec<Entry>,
    /// Entries written that still wait to become an operand.
    waiting: Vec<usize>,
    tasks: Vec<Task>,
}

impl<'a> Taking<'a> {
    /// The whole table: left operand, right operand, then the entry itself.
    fn apart(text: &'a [u8]) -> Vec<Entry> {
        let tasks = vec![Task::Path(0..text.len())];
        let mut taking = Taking { text, opening: openings(text), table: Vec::new(), waiting: Vec::new(), tasks };
        while let Some(task) = taking.tasks.pop() {
            match task {
                Task::Path(part) => taking.take_path(part),
                Task::Filter(part) => taking.take_filter(part),
                Task::Write(joint) => taking.join(joint),
            }
        }
        taking.table
    }

    fn take_path(&mut self, part: Range<usize>) {
        if let Some(at) = self.last_outside(&part, b'|') {
            self.split(part, at, Task::Path, Entry::Either);
        } else if let Some(at) = self.last_outside(&part, b'/') {
            self.split(part, at, Task::Path, Entry::Then);
        } else if self.text[part.end - 1] == b'*' {
            self.wrap(Task::Path(part.start..part.end - 1), Entry::Star);
        } else {
            self.take_atom(part);
        }
    }

    fn take_atom(&mut self, part: Range<usize>) {
        let inside = part.start + 1..part.end - 1;
        match self.text[part.start] {
            b'.' => self.put(Entry::Itself),
            b'v' => self.put(Entry::Child),
            b'^' => self.put(Entry::Parent),
            b'>' => self.put(Entry::Next),
            b'<' => self.put(Entry::Previous),
            b'[' => self.wrap(Task::Filter(inside), Entry::Stay),
            b'(' => self.tasks.push(Task::Path(inside)),
            byte => unreachable!("byte {byte} begins no atom"),
        }
    }

    fn take_filter(&mut self, part: Range<usize>) {
        if let Some(at) = self.last_outside(&part, b'+') {
            self.split(part, at, Task::Filter, Entry::Or);
        } else if let Some(at) = self.last_outside(&part, b'&') {
            self.split(part, at, Task::Filter, Entry::And);
        } else {
            self.take_term(part);
        }
    }

    fn take_term(&mut self, part: Range<usize>) {
        match self.text[part.start] {
            // No `+` or `&` is left outside brackets, so the rest of the part is the term under the `!`.
            b'!' => self.wrap(Task::Filter(part.start + 1..part.end), Entry::Not),
            b't' => self.put(Entry::True),
            b'f' => self.put(Entry::False),
            b'#' => self.put(Entry::Label(number(&self.text[part.start + 1..part.end]))),
            b'{' => self.tasks.push(Task::Filter(part.start + 1..part.end - 1)),
            _ => self.wrap(Task::Path(part), Entry::Leads),
        }
    }

    /// The last place of an operator in a part, outside all brackets of that part.
    fn last_outside(&self, part: &Range<usize>, operator: u8) -> Option<usize> {
        let mut place = part.end;
        while place > part.start {
            place -= 1;
            if self.text[place] == operator {
                return Some(place);
            }
            place = self.opening[place].unwrap_or(place);
        }
        None
    }

    /// Left part, right part, then the entry over both: tasks are taken from the end, so they are pushed the other way.
    fn split(
        &mut self,
        part: Range<usize>,
        at: usize,
        sort: fn(Range<usize>) -> Task,
        entry: fn(usize, usize) -> Entry,
    ) {
        self.tasks.push(Task::Write(Joint::Two(entry)));
        self.tasks.push(sort(at + 1..part.end));
        self.tasks.push(sort(part.start..at));
    }

    /// The task, then the entry over what it writes.
    fn wrap(&mut self, task: Task, entry: fn(usize) -> Entry) {
        self.tasks.push(Task::Write(Joint::One(entry)));
        self.tasks.push(task);
    }

    fn join(&mut self, joint: Joint) {
        let mut operand = || self.waiting.pop().expect("operands are written before their entry");
        let entry = match joint {
            Joint::One(entry) => entry(operand()),
            Joint::Two(entry) => {
                let right = operand();
                entry(operand(), right)
            }
        };
        self.put(entry);
    }

    fn put(&mut self, entry: Entry) {
        self.waiting.push(self.table.len());
        self.table.push(entry);
    }
}

/// For each place of a closing bracket the place of its opening, in a text whose brackets are in order.
fn openings(text: &[u8]) -> Vec<Option<usize>> {
    let mut open = Vec::new();
    let mut openings = vec![None; text.len()];
    for (place, byte) in text.iter().enumerate() {
        match byte {
            b'[' | b'(' | b'{' => open.push(place),
            b']' | b')' | b'}' => openings[place] = open.pop(),
            _ => {}
        }
    }
    openings
}

/// The number that digits write; the walk has seen to it that it is a label.
fn number(digits: &[u8]) -> u8 {
    digits.iter().fold(0, |number, digit| number * 10 + (digit - b'0'))
}
