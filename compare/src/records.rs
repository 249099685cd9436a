//! Bytes in hex, records of nodes and entries, and rolls of several shapes.

use crate::chance::Chance;

pub const NO_PARENT: usize = 65_535;

/// The greatest number of nodes of a roll.
pub const MOST_NODES: usize = 4096;

pub fn from_hex(word: &str) -> Vec<u8> {
    if word == "-" {
        return Vec::new();
    }
    (0..word.len()).step_by(2).map(|at| u8::from_str_radix(&word[at..at + 2], 16).expect("hex")).collect()
}

pub fn to_hex(bytes: &[u8]) -> String {
    match bytes {
        [] => "-".to_string(),
        _ => bytes.iter().map(|byte| format!("{byte:02x}")).collect(),
    }
}

/// The words of each line of a file that has 300 of them, so that one cut short does not pass.
pub fn cases(file: &'static str) -> Vec<Vec<&'static str>> {
    let cases: Vec<_> = file.lines().map(|line| line.split(' ').collect()).collect();
    assert_eq!(cases.len(), 300);
    cases
}

/// The record of a node; the root has no parent.
pub fn node(label: u8, parent: usize) -> [u8; 4] {
    [label, 0, (parent % 256) as u8, (parent / 256) as u8]
}

/// The record of a query entry, or of an annotation.
pub fn entry(kind: u8, label: u8, left: usize, right: usize) -> [u8; 6] {
    let low = |number: usize| (number % 256) as u8;
    let high = |number: usize| (number / 256) as u8;
    [kind, label, low(left), high(left), low(right), high(right)]
}

/// A roll that is in order: the parent of a record is the one before it, or above that one by chance.
pub fn grown_roll(chance: &mut Chance, size: usize, labels: usize) -> Vec<u8> {
    let mut parents: Vec<usize> = vec![NO_PARENT];
    while parents.len() < size {
        let mut parent = parents.len() - 1;
        while parent > 0 && chance.one_in(2) {
            parent = parents[parent];
        }
        parents.push(parent);
    }
    labelled(chance, parents.iter().flat_map(|parent| node(1, *parent)).collect(), labels)
}

/// The roll with labels by chance.
pub fn labelled(chance: &mut Chance, mut roll: Vec<u8>, labels: usize) -> Vec<u8> {
    for record in roll.chunks_mut(4) {
        record[0] = 1 + chance.below(labels) as u8;
    }
    roll
}

/// A roll of one shape: each record's parent is given by its number.
pub fn shaped(size: usize, parent: impl Fn(usize) -> usize) -> Vec<u8> {
    (0..size).flat_map(|at| node(1, if at == 0 { NO_PARENT } else { parent(at) })).collect()
}

/// Rolls of one label: one chain, and all under one root.
pub fn chain(size: usize) -> Vec<u8> {
    shaped(size, |at| at - 1)
}

pub fn wide(size: usize) -> Vec<u8> {
    shaped(size, |_| 0)
}
