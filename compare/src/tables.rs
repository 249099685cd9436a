//! Query tables that grow by chance, within limits.

use second::table::Limits;
use second::Reply;

use crate::chance::Chance;
use crate::records::entry;

/// The table of a text, as the proved reader writes it.
pub fn table_of(text: &str) -> Vec<u8> {
    let mut room = [0; 1536];
    let Reply::Count(entries) = crate::read_text(text.as_bytes(), &mut room) else { panic!("{text}") };
    room[..entries * 6].to_vec()
}

/// A table as it grows, with the paths and the filters in it, and how high each entry is and how many entries it unfolds to: the library
/// walks an entry as often as it is used, so a table of a few dozen entries can take longer than anyone waits.
#[derive(Default)]
pub struct Table {
    pub bytes: Vec<u8>,
    pub filters: Vec<usize>,
    paths: Vec<usize>,
    heights: Vec<usize>,
    unfolds: Vec<usize>,
    highest: usize,
    largest: usize,
}

pub const PATHS: [u8; 9] = [1, 2, 3, 4, 5, 6, 7, 8, 9];
pub const FILTERS: [u8; 7] = [16, 17, 18, 19, 20, 21, 22];

/// In the runs that make a text longer: the bytes of an item with its joint, and those of a run with its own. Such a run is 27 high.
const ITEM: usize = 11;
const LONGEST_RUN: usize = 200;

/// Labels in tables and rolls that belong together are 1, 2 and 3.
pub const LABELS: usize = 3;

impl Table {
    /// An empty table whose entries are to be no higher and to unfold to no more than this.
    pub fn within(highest: usize, largest: usize) -> Table {
        Table { highest, largest, ..Table::default() }
    }

    /// How many entries there are.
    pub fn len(&self) -> usize {
        self.heights.len()
    }

    fn push(&mut self, kind: u8, label: u8, left: usize, right: usize) -> usize {
        let at = self.len();
        let operands: &[usize] = match kind {
            7 | 8 | 21 | 22 => &[left, right],
            6 | 9 | 17 | 20 => &[left],
            _ => &[],
        };
        let below = operands.iter().map(|operand| self.heights[*operand]).max();
        let unfolds = operands.iter().map(|operand| self.unfolds[*operand]).sum::<usize>();
        self.bytes.extend(entry(kind, label, left, right));
        if kind < 16 { &mut self.paths } else { &mut self.filters }.push(at);
        self.heights.push(1 + below.unwrap_or(0));
        self.unfolds.push(1 + unfolds);
        at
    }

    /// An earlier entry of a sort, mostly one of the last, unless it is too high or unfolds to too much.
    fn operand(&self, chance: &mut Chance, path: bool) -> Option<usize> {
        let sort = if path { &self.paths } else { &self.filters };
        let last = if chance.below(3) == 0 { sort.len() } else { sort.len().min(3) };
        let picked = if last == 0 { None } else { sort.get(sort.len() - 1 - chance.below(last)).copied() };
        picked.filter(|entry| self.heights[*entry] < self.highest && self.unfolds[*entry] < self.largest / 2)
    }

    /// One more entry: of this kind, if there are operands for it.
    fn grow(&mut self, chance: &mut Chance, kind: u8) -> Option<usize> {
        let label = 1 + chance.below(LABELS) as u8;
        Some(match kind {
            6 | 20 => self.push(kind, 0, self.operand(chance, false)?, 0),
            9 | 17 => self.push(kind, 0, self.operand(chance, true)?, 0),
            7 | 8 => self.push(kind, 0, self.operand(chance, true)?, self.operand(chance, true)?),
            21 | 22 => self.push(kind, 0, self.operand(chance, false)?, self.operand(chance, false)?),
            16 => self.push(kind, label, 0, 0),
            _ => self.push(kind, 0, 0, 0),
        })
    }

    /// Tries so many more entries.
    pub fn grown(mut self, chance: &mut Chance, tries: usize) -> Table {
        for _ in 0..tries {
            let kind = if chance.below(5) < 3 { chance.pick(&PATHS) } else { chance.pick(&FILTERS) };
            self.grow(chance, kind);
        }
        self
    }

    /// The same with so many entries more, all paths or all filters, each of two among the last three of its sort: what they unfold to soon
    /// passes every bound.
    pub fn doubled(mut self, chance: &mut Chance, storeys: usize) -> Table {
        let (ground, kinds) = chance.pick(&[(2, [7, 8]), (16, [21, 22])]);
        self.push(ground, u8::from(ground == 16), 0, 0);
        for _ in 0..storeys {
            let sort = if ground == 2 { &self.paths } else { &self.filters };
            let last = &sort[sort.len().saturating_sub(3)..];
            let (left, right) = (chance.pick(last), chance.pick(last));
            self.push(chance.pick(&kinds), 0, left, right);
        }
        self
    }

    /// The same with a path as its last entry; half of them start from every node.
    pub fn ended(mut self, chance: &mut Chance) -> Table {
        let mut last = self.len().wrapping_sub(1);
        if !self.paths.contains(&last) {
            last = if self.filters.contains(&last) { self.push(6, 0, last, 0) } else { self.push(2, 0, 0, 0) };
        }
        if chance.below(2) == 0 {
            let child = self.push(2, 0, 0, 0);
            let all = self.push(9, 0, child, 0);
            self.push(7, 0, all, last);
        }
        self
    }

    /// The same with stars upon its last entry, a path, until that is so high.
    pub fn raised(mut self, height: usize) -> Table {
        while self.heights[self.len() - 1] < height {
            self.push(9, 0, self.len() - 1, 0);
        }
        self
    }

    /// The same with steps behind it, until there are so many entries; the last of them is what the last entry was.
    pub fn padded(mut self, chance: &mut Chance, entries: usize) -> Table {
        let last = self.len() - 1;
        if self.len() + 2 <= entries && self.heights[last] < self.highest {
            while self.len() + 2 < entries {
                self.push(chance.pick(&[1, 2, 3, 4, 5]), 0, 0, 0);
            }
            let here = self.push(1, 0, 0, 0);
            self.push(7, 0, here, last);
        }
        self
    }

    /// The same with runs of steps and filters joined to its last entry, a path, until its text, which has so many bytes, has as many as
    /// wanted, which must be more.
    pub fn lengthened(mut self, chance: &mut Chance, bytes: usize, wanted: usize) -> Table {
        let (mut last, mut missing) = (self.len() - 1, wanted - bytes);
        let items = self.items(chance);
        while missing > 0 {
            let more = if missing > LONGEST_RUN { LONGEST_RUN - 1 - chance.below(50) } else { missing };
            let run = self.run(&items, more - 1);
            last = self.push(8, 0, last, run);
            missing -= more;
        }
        self
    }

    /// Paths whose texts have one byte, two and so on up to `ITEM`: a step, the same with a star, and `[t]` with `!` in it.
    fn items(&mut self, chance: &mut Chance) -> Vec<usize> {
        let step = self.push(chance.pick(&[1, 2, 3, 4, 5]), 0, 0, 0);
        let mut items = vec![step, self.push(9, 0, step, 0)];
        let mut filter = self.push(18, 0, 0, 0);
        while items.len() < ITEM {
            items.push(self.push(6, 0, filter, 0));
            filter = self.push(20, 0, filter, 0);
        }
        items
    }

    /// A path whose text has so many bytes: items joined by `/`. All of them but the first have one byte fewer than `ITEM`, so that each
    /// makes the text longer by `ITEM` with its joint.
    fn run(&mut self, items: &[usize], bytes: usize) -> usize {
        let first = items[(bytes - 1) % ITEM];
        (0..(bytes - 1) / ITEM).fold(first, |run, _| self.push(7, 0, run, items[ITEM - 2]))
    }

    /// A query of a few entries.
    pub fn query(chance: &mut Chance) -> Table {
        let tries = 1 + chance.below(16);
        Table::within(30, 300).grown(chance, tries).ended(chance)
    }

    /// A query that comes up to its limits: in the number of entries, in height, or in both.
    pub fn greatest(chance: &mut Chance, limits: Limits, largest: usize) -> Table {
        let tries = chance.below(limits.entries - 8);
        let grown = Table::within(limits.height - 2, largest).grown(chance, tries).ended(chance);
        let height = if chance.one_in(2) { limits.height } else { 0 };
        let entries = limits.entries - chance.below(3);
        if height > 0 && grown.len() + limits.height < limits.entries {
            grown.raised(height)
        } else {
            grown.padded(chance, entries)
        }
    }
}
