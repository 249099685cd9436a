//! Rule entries and their lists that grow by chance, many of them so that a roll follows them.

use crate::chance::Chance;
use crate::records::{entry, node};

/// The greatest height of a rule entry, and the greatest number of entries and of list records.
pub const HEIGHT: usize = 32;
pub const MOST_ENTRIES: usize = 256;
pub const MOST_LISTED: usize = 64;

/// Rules with stars inside stars are made for words of so many labels at most.
const STARRED: usize = 6;

const EMPTY: u8 = 32;
const ONE: u8 = 33;
const THEN: u8 = 34;
const EITHER: u8 = 35;
const STAR: u8 = 36;

/// Rule entries as they grow, and how high each of them is.
#[derive(Default)]
pub struct Rules {
    pub bytes: Vec<u8>,
    heights: Vec<usize>,
}

impl Rules {
    pub fn len(&self) -> usize {
        self.heights.len()
    }

    pub fn is_empty(&self) -> bool {
        self.heights.is_empty()
    }

    /// One more entry; operands that its kind does not take are 0.
    pub fn push(&mut self, kind: u8, label: u8, left: usize, right: usize) -> usize {
        let below = match kind {
            THEN | EITHER => self.heights[left].max(self.heights[right]),
            STAR => self.heights[left],
            _ => 0,
        };
        self.bytes.extend(entry(kind, label, left, right));
        self.heights.push(below + 1);
        self.len() - 1
    }

    /// These entries joined in halves, so that the height stays low.
    fn joined(&mut self, kind: u8, of: &[usize]) -> usize {
        match of {
            [] => self.push(EMPTY, 0, 0, 0),
            [one] => *one,
            _ => {
                let (left, right) = of.split_at(of.len() / 2);
                let (left, right) = (self.joined(kind, left), self.joined(kind, right));
                self.push(kind, 0, left, right)
            }
        }
    }

    /// A word and no other.
    fn word(&mut self, word: &[u8]) -> usize {
        let labels: Vec<usize> = word.iter().map(|label| self.push(ONE, *label, 0, 0)).collect();
        self.joined(THEN, &labels)
    }

    /// Any number of some labels.
    fn any_of(&mut self, labels: &[u8]) -> usize {
        let labels: Vec<usize> = labels.iter().map(|label| self.push(ONE, *label, 0, 0)).collect();
        let one = self.joined(EITHER, &labels);
        self.push(STAR, 0, one, 0)
    }

    /// An entry of any kind upon earlier ones, mostly the newest.
    pub fn grow(&mut self, chance: &mut Chance, labels: usize) {
        let kind =
            if self.is_empty() { ONE } else { chance.pick(&[EMPTY, ONE, ONE, THEN, THEN, EITHER, EITHER, STAR]) };
        let newest = self.len().min(4);
        let mut operand = || if newest == 0 { 0 } else { self.len() - 1 - chance.below(newest) };
        let (left, right) = (operand(), operand());
        let too_high = kind >= THEN && self.heights[left].max(self.heights[right]) >= HEIGHT;
        match kind {
            ONE => self.push(ONE, 1 + chance.below(labels) as u8, 0, 0),
            THEN | EITHER if !too_high => self.push(kind, 0, left, right),
            STAR if !too_high => self.push(STAR, 0, left, 0),
            _ => self.push(EMPTY, 0, 0, 0),
        };
    }

    /// A rule with stars inside stars that the word follows, so many choices deep.
    pub fn starred(&mut self, chance: &mut Chance, word: &[u8], deep: usize) -> usize {
        if deep == 0 || self.len() + 60 > MOST_ENTRIES {
            return self.word(word);
        }
        let (front, back) = word.split_at(chance.below(word.len() + 1));
        match chance.below(6) {
            0 => {
                let (front, back) = (self.starred(chance, front, deep - 1), self.starred(chance, back, deep - 1));
                self.push(THEN, 0, front, back)
            }
            1 => {
                let (front, back) = (self.starred(chance, front, deep - 1), self.starred(chance, back, deep - 1));
                let either = self.push(EITHER, 0, front, back);
                self.push(STAR, 0, either, 0)
            }
            2 => {
                let once = self.starred(chance, word, deep - 1);
                let any = self.push(STAR, 0, once, 0);
                self.push(THEN, 0, any, any)
            }
            3 => {
                let (some, back) = (self.any_of(front), self.starred(chance, back, deep - 1));
                self.push(THEN, 0, some, back)
            }
            4 => {
                let (other, own) = (self.starred(chance, front, deep - 1), self.starred(chance, word, deep - 1));
                self.push(EITHER, 0, other, own)
            }
            _ => {
                let once = self.starred(chance, word, deep - 1);
                self.push(STAR, 0, once, 0)
            }
        }
    }

    /// A rule that these words follow, in one of several ways, or that has nothing to do with them.
    pub fn rule_for(&mut self, chance: &mut Chance, words: &[Vec<u8>], labels: usize) -> usize {
        let all: Vec<u8> = (1..=labels as u8).collect();
        match chance.below(10) {
            0 | 1 => self.any_of(&all),
            2 => self.any_of(&all[..1 + chance.below(labels)]),
            3..=5 => {
                let each: Vec<usize> = words.iter().map(|word| self.word(word)).collect();
                self.joined(EITHER, &each)
            }
            6 if !words.is_empty() => {
                let word = &words[chance.below(words.len())];
                let (front, back) = word.split_at(chance.below(word.len() + 1));
                let (front, back) = (self.word(front), self.any_of(if back.is_empty() { &all } else { back }));
                self.push(THEN, 0, front, back)
            }
            7 | 8 if words.iter().any(|word| word.len() <= STARRED) => {
                let short: Vec<&Vec<u8>> = words.iter().filter(|word| word.len() <= STARRED).collect();
                let word = chance.pick(&short);
                let deep = 1 + chance.below(6);
                let once = self.starred(chance, word, deep);
                let any = self.any_of(&all[..1 + chance.below(labels)]);
                let either = self.push(EITHER, 0, once, any);
                chance.pick(&[once, once, either])
            }
            _ => {
                let tries = 1 + chance.below(12);
                (0..tries).for_each(|_| self.grow(chance, labels));
                self.len() - 1
            }
        }
    }
}

/// The heights of entries that are in order.
pub fn heights_of(rules: &[u8]) -> Vec<usize> {
    let mut read = Rules::default();
    for entry in rules.chunks_exact(6) {
        let number = |at: usize| usize::from(entry[at]) + 256 * usize::from(entry[at + 1]);
        read.push(entry[0], entry[1], number(2), number(4));
    }
    read.heights
}

/// The stars of an entry, counted as often as they are used: all of them, the most in one of them with itself, and the most inside one another.
#[derive(Clone, Copy, Default)]
pub struct Stars {
    pub all: u64,
    pub in_one: u64,
    pub deep: usize,
}

pub fn stars_of(rules: &[u8]) -> Vec<Stars> {
    let mut stars: Vec<Stars> = Vec::new();
    for entry in rules.chunks_exact(6) {
        let of = |at: usize| stars[usize::from(entry[at]) + 256 * usize::from(entry[at + 1])];
        let own = match entry[0] {
            THEN | EITHER => {
                let (left, right) = (of(2), of(4));
                let all = left.all.saturating_add(right.all);
                Stars { all, in_one: left.in_one.max(right.in_one), deep: left.deep.max(right.deep) }
            }
            STAR => {
                let all = of(2).all.saturating_add(1);
                Stars { all, in_one: all, deep: of(2).deep + 1 }
            }
            _ => Stars::default(),
        };
        stars.push(own);
    }
    stars
}

/// The record of a list: the entry that is the rule of a label.
pub fn listed(label: u8, entry: usize) -> [u8; 4] {
    node(label, entry)
}

/// The words of the nodes of a label, each once: the labels of their children, in order.
pub fn words_under(roll: &[u8], label: u8) -> Vec<Vec<u8>> {
    let records: Vec<(u8, usize)> =
        roll.chunks_exact(4).map(|record| (record[0], usize::from(record[2]) + 256 * usize::from(record[3]))).collect();
    let mut words = vec![Vec::new(); records.len()];
    for (child, parent) in &records[1..] {
        words[*parent].push(*child);
    }
    let mut of_label: Vec<Vec<u8>> =
        records.iter().zip(words).filter(|(record, _)| record.0 == label).map(|(_, word)| word).collect();
    of_label.sort();
    of_label.dedup();
    of_label
}

/// Rule entries and a list for some of a roll's labels. A roll that is followed in full is one whose words are few and short.
pub fn some_rules(chance: &mut Chance, roll: &[u8], labels: usize) -> (Vec<u8>, Vec<u8>) {
    let (mut rules, mut list) = (Rules::default(), Vec::new());
    for label in 1..=labels as u8 {
        if chance.one_in(4) {
            continue;
        }
        let words = words_under(roll, label);
        let letters: usize = words.iter().map(Vec::len).sum();
        let known: &[Vec<u8>] = if letters <= 20 { &words } else { &[] };
        if rules.len() + 60 < MOST_ENTRIES {
            let rule = rules.rule_for(chance, known, labels);
            list.extend(listed(label, rule));
        }
    }
    (rules.bytes, list)
}

/// Rules as many and as high as they may be, and a list of all labels; every label takes any children.
pub fn greatest_rules(chance: &mut Chance) -> (Vec<u8>, Vec<u8>) {
    let mut rules = Rules::default();
    let all: Vec<u8> = (1..=64).collect();
    let any = rules.any_of(&all);
    let mut highest = any;
    while rules.heights[highest] < HEIGHT {
        highest = rules.push(STAR, 0, highest, 0);
    }
    while rules.len() < MOST_ENTRIES {
        rules.push(chance.pick(&[EMPTY, ONE]), 0, 0, 0);
        let last = rules.bytes.len() - 6;
        rules.bytes[last + 1] = u8::from(rules.bytes[last] == ONE);
    }
    let list = all.iter().flat_map(|label| listed(*label, chance.pick(&[any, highest]))).collect();
    (rules.bytes, list)
}
