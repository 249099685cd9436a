//! Query tables printed as text, as request Q-1 of document 02 asks for it.
//!
//! No operator is asked how tightly it holds. The grammar of document 01 is written down line by line, as the ways in
//! which each line lets an entry be written, brackets among them. Of the ways for an entry as a line the one with the
//! fewest brackets is kept with its size, from the front of the table on. Entries may be shared, so a few of them may
//! stand for more text than could ever be written: only a text that fits is written out.

use crate::reply::{refusal, Refusal};
use crate::table::{Entry, Entry::*};
use crate::text::MOST_BYTES;

/// The lines of the grammar.
#[derive(Clone, Copy, Debug)]
enum Line {
    Path,
    Sequence,
    Item,
    Atom,
    Filter,
    Conjunction,
    Term,
}

/// A piece of text: a byte, or an entry written as a line of the grammar.
#[derive(Clone, Copy, Debug)]
enum Piece {
    Byte(u8),
    Part(Line, usize),
}

use Line::*;
use Piece::*;

const LINES: [Line; 7] = [Path, Sequence, Item, Atom, Filter, Conjunction, Term];

/// The text with the fewest brackets for a table's last entry, or 18 if it is longer than a text may be.
pub fn print(table: &[Entry]) -> Result<Vec<u8>, Refusal> {
    let ways = BestWays::of(table);
    let query = Part(Path, table.len() - 1);
    let size = ways.size(&[query]).expect("the last entry is a path, and any path can be written");
    if size.bytes > MOST_BYTES {
        return Err(refusal(18, 0));
    }
    Ok(ways.write(query))
}

/// All ways in which the grammar lets an entry be written as a line.
fn ways(number: usize, entry: Entry, line: Line) -> Vec<Vec<Piece>> {
    // A line may hold a single one of what it joins, or brackets with anything of its sort in them.
    let of_any_entry = match line {
        Path => vec![Part(Sequence, number)],
        Sequence => vec![Part(Item, number)],
        Item => vec![Part(Atom, number)],
        Atom => vec![Byte(b'('), Part(Path, number), Byte(b')')],
        Filter => vec![Part(Conjunction, number)],
        Conjunction => vec![Part(Term, number)],
        Term => vec![Byte(b'{'), Part(Filter, number), Byte(b'}')],
    };
    let of_this_entry = match (line, entry) {
        (Path, Either(left, right)) => vec![Part(Path, left), Byte(b'|'), Part(Sequence, right)],
        (Sequence, Then(left, right)) => vec![Part(Sequence, left), Byte(b'/'), Part(Item, right)],
        // Two stars in a row are not read, so what has a star is an atom.
        (Item, Star(path)) => vec![Part(Atom, path), Byte(b'*')],
        (Atom, Itself) => vec![Byte(b'.')],
        (Atom, Child) => vec![Byte(b'v')],
        (Atom, Parent) => vec![Byte(b'^')],
        (Atom, Next) => vec![Byte(b'>')],
        (Atom, Previous) => vec![Byte(b'<')],
        (Atom, Stay(filter)) => vec![Byte(b'['), Part(Filter, filter), Byte(b']')],
        (Filter, Or(left, right)) => vec![Part(Filter, left), Byte(b'+'), Part(Conjunction, right)],
        (Conjunction, And(left, right)) => vec![Part(Conjunction, left), Byte(b'&'), Part(Term, right)],
        (Term, Not(filter)) => vec![Byte(b'!'), Part(Term, filter)],
        (Term, True) => vec![Byte(b't')],
        (Term, False) => vec![Byte(b'f')],
        (Term, Label(label)) => format!("#{label}").bytes().map(Byte).collect(),
        (Term, Leads(path)) => vec![Part(Path, path)],
        _ => return vec![of_any_entry],
    };
    vec![of_any_entry, of_this_entry]
}

/// How much text a way comes to. Fewer brackets are less, however many bytes there are.
#[derive(Clone, Copy, Debug, Default, PartialEq, Eq, PartialOrd, Ord)]
struct Size {
    brackets: usize,
    bytes: usize,
}

impl Size {
    fn of_byte(byte: u8) -> Size {
        Size { brackets: usize::from(matches!(byte, b'[' | b'(' | b'{')), bytes: 1 }
    }

    /// Both together. What no number can hold stays at the greatest: such a text is too long in any case.
    fn and(self, other: Size) -> Size {
        let brackets = self.brackets.saturating_add(other.brackets);
        Size { brackets, bytes: self.bytes.saturating_add(other.bytes) }
    }
}

/// A way with its size, if one is known.
type Known = Option<(Size, Vec<Piece>)>;

/// The way with the fewest brackets for each entry, line by line.
struct BestWays {
    known: Vec<[Known; LINES.len()]>,
}

impl BestWays {
    /// Entry after entry, as the operands of each stand in front of it.
    fn of(table: &[Entry]) -> BestWays {
        let mut ways = BestWays { known: Vec::with_capacity(table.len()) };
        for (number, entry) in table.iter().enumerate() {
            ways.known.push(Default::default());
            // Through brackets the lines come round to each other, so they are tried until none finds a better way.
            while ways.improve(number, *entry) {}
        }
        ways
    }

    /// Tries all ways for an entry; whether one of them was better than what was known.
    fn improve(&mut self, number: usize, entry: Entry) -> bool {
        let mut improved = false;
        for line in LINES {
            for way in ways(number, entry, line) {
                let Some(size) = self.size(&way) else { continue };
                let known = &mut self.known[number][line as usize];
                if known.as_ref().is_none_or(|(least, _)| size < *least) {
                    *known = Some((size, way));
                    improved = true;
                }
            }
        }
        improved
    }

    fn known(&self, line: Line, number: usize) -> Option<&(Size, Vec<Piece>)> {
        self.known[number][line as usize].as_ref()
    }

    /// What a way comes to, if a way is known for each of its parts.
    fn size(&self, way: &[Piece]) -> Option<Size> {
        way.iter().try_fold(Size::default(), |size, piece| match *piece {
            Byte(byte) => Some(size.and(Size::of_byte(byte))),
            Part(line, number) => Some(size.and(self.known(line, number)?.0)),
        })
    }

    /// The bytes of a piece, each part written in its best way.
    fn write(&self, piece: Piece) -> Vec<u8> {
        let mut text = Vec::new();
        let mut unwritten = vec![piece];
        while let Some(piece) = unwritten.pop() {
            match piece {
                Byte(byte) => text.push(byte),
                Part(line, number) => {
                    let (_, way) = self.known(line, number).expect("a way is kept only if its parts have one");
                    unwritten.extend(way.iter().rev());
                }
            }
        }
        text
    }
}
