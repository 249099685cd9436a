//! Damage to inputs: each function breaks one input in one of the ways that document 01 has a refusal for, or anyhow.

use second::table::Limits;

use crate::chance::Chance;
use crate::records::{entry, node, MOST_NODES};
use crate::rules::{HEIGHT, MOST_ENTRIES, MOST_LISTED};

/// Most labels that are none, and bytes that are next to something.
const BYTES: [u8; 11] = [0, 1, 2, 7, 10, 16, 23, 64, 65, 128, 255];

/// A byte changed, struck out or put in, or the end cut off.
pub fn spoil(chance: &mut Chance, bytes: &mut Vec<u8>) {
    if bytes.is_empty() {
        return bytes.push(chance.pick(&BYTES));
    }
    let at = chance.below(bytes.len());
    match chance.below(8) {
        0 => drop(bytes.remove(at)),
        1 => bytes.insert(at, chance.pick(&BYTES)),
        2 => bytes.truncate(at),
        3 => bytes.truncate(at / 6 * 6),
        4 => bytes[at] ^= 1,
        _ => bytes[at] = chance.pick(&BYTES),
    }
}

/// A record's number: any, or one of the last.
fn some_record(chance: &mut Chance, records: usize) -> usize {
    if chance.one_in(2) {
        chance.below(records)
    } else {
        records - 1 - chance.below(records.min(4))
    }
}

/// A length that is none for records of this size: some bytes too many or too few, nothing at all, or one record more than there may be,
/// with nothing else amiss where this record may follow any other.
fn break_length(chance: &mut Chance, bytes: &mut Vec<u8>, record: &[u8], most: usize) {
    match chance.below(4) {
        0 => bytes.extend(&record[..1 + chance.below(record.len() - 1)]),
        1 => bytes.truncate(bytes.len().saturating_sub(1 + chance.below(record.len() - 1))),
        2 => bytes.clear(),
        _ => {
            let there = bytes.len() / record.len();
            bytes.truncate(there * record.len());
            bytes.extend(record.repeat((most + 1).saturating_sub(there)));
        }
    }
}

pub fn break_roll(chance: &mut Chance, roll: &mut Vec<u8>) {
    if roll.len() < 4 || chance.one_in(8) {
        return break_length(chance, roll, &node(1, 0), MOST_NODES);
    }
    let record = some_record(chance, roll.len() / 4);
    let record_bytes = &mut roll[4 * record..4 * record + 4];
    match chance.below(4) {
        0 => record_bytes[0] = chance.pick(&[0, 65, 66, 128, 255]),
        1 => record_bytes[1] = 1 + chance.below(255) as u8,
        2 => {
            let parent = [record, record + 1, chance.below(record + 1), 65_535, chance.below(65_536)];
            record_bytes.copy_from_slice(&node(record_bytes[0], chance.pick(&parent)));
        }
        _ => spoil(chance, roll),
    }
}

/// A table of entries, of which no more than said stand upon one another.
pub fn break_table(chance: &mut Chance, table: &mut Vec<u8>, limits: Limits) {
    if table.len() < 6 || chance.one_in(8) {
        return break_length(chance, table, &entry(1, 0, 0, 0), limits.entries);
    }
    let number = some_record(chance, table.len() / 6);
    let bytes = &mut table[6 * number..6 * number + 6];
    match chance.below(6) {
        0 => bytes[0] = chance.pick(&[0, 10, 15, 23, 24, 128, 255, 1, 6, 18, 20]),
        1 => bytes[1] = chance.pick(&[0, 1, 65, 128, 255]),
        2 => {
            let field = chance.pick(&[2, 4]);
            bytes[field] = chance.pick(&[number as u8, number as u8 ^ 1, 0, 255]);
            bytes[field + 1] = chance.pick(&[(number / 256) as u8, 0, 0, 1, 255]);
        }
        3 => raise_above(chance, table, limits),
        4 => {
            table.truncate(6 * (limits.entries - 1));
            table.extend(entry(chance.pick(&[18, 19]), 0, 0, 0));
        }
        _ => spoil(chance, table),
    }
}

/// A tower one entry higher than it may be behind the entries, of which some go if there is no room for it.
fn raise_above(chance: &mut Chance, table: &mut Vec<u8>, limits: Limits) {
    table.truncate(6 * (limits.entries - limits.height - 1));
    let (ground, upon) = chance.pick(&[(2, 9), (18, 20)]);
    let first = table.len() / 6;
    table.extend(entry(ground, 0, 0, 0));
    for below in first..first + limits.height {
        table.extend(entry(upon, 0, below, 0));
    }
}

pub fn break_annotation(chance: &mut Chance, annotation: &mut Vec<u8>) {
    if annotation.len() < 6 || chance.one_in(8) {
        return break_length(chance, annotation, &entry(1, 1, 0, 0), 32);
    }
    let number = some_record(chance, annotation.len() / 6);
    let bytes = &mut annotation[6 * number..6 * number + 6];
    match chance.below(6) {
        0 => bytes[chance.pick(&[0, 1])] = chance.pick(&[0, 65, 255]),
        1 => bytes[chance.pick(&[4, 5])] = 1 + chance.below(255) as u8,
        2 => bytes[chance.pick(&[2, 3])] = chance.below(256) as u8,
        3 => bytes[chance.pick(&[0, 1])] = 1 + chance.below(64) as u8,
        4 if number > 0 => annotation.copy_within(6 * number - 6..6 * number, 6 * number),
        _ => spoil(chance, annotation),
    }
}

/// Rule entries.
pub fn break_rules(chance: &mut Chance, rules: &mut Vec<u8>) {
    if rules.len() < 6 || chance.one_in(8) {
        return break_length(chance, rules, &entry(32, 0, 0, 0), MOST_ENTRIES);
    }
    let number = some_record(chance, rules.len() / 6);
    let bytes = &mut rules[6 * number..6 * number + 6];
    match chance.below(6) {
        0 => bytes[0] = chance.pick(&[0, 31, 37, 128, 255, 2, 32, 33, 34, 35, 36]),
        1 => bytes[1] = chance.pick(&[0, 1, 64, 65, 128, 255]),
        2 | 3 => {
            let field = chance.pick(&[2, 4]);
            bytes[field] = chance.pick(&[number as u8, number as u8 ^ 1, 0, 1, 255]);
            bytes[field + 1] = chance.pick(&[0, 0, 1, 255]);
        }
        4 => raise_rules(chance, rules),
        _ => spoil(chance, rules),
    }
}

/// An entry more than there may be upon one label, each upon the one before, behind the entries, of which some go if there is no room.
fn raise_rules(chance: &mut Chance, rules: &mut Vec<u8>) {
    rules.truncate(6 * (MOST_ENTRIES - HEIGHT - 1));
    let first = rules.len() / 6;
    rules.extend(entry(33, 1, 0, 0));
    for below in first..first + HEIGHT {
        rules.extend(chance.pick(&[entry(34, 0, below, first), entry(35, 0, first, below), entry(36, 0, below, 0)]));
    }
}

/// The list of rules.
pub fn break_list(chance: &mut Chance, list: &mut Vec<u8>) {
    if list.len() < 4 || chance.one_in(8) {
        return break_length(chance, list, &node(64, 0), MOST_LISTED);
    }
    let number = some_record(chance, list.len() / 4);
    let bytes = &mut list[4 * number..4 * number + 4];
    match chance.below(6) {
        0 => bytes[0] = chance.pick(&[0, 65, 128, 255]),
        1 => bytes[1] = 1 + chance.below(255) as u8,
        2 => bytes[2] = chance.below(256) as u8,
        3 => bytes[3] = chance.pick(&[1, 2, 255]),
        4 if number > 0 => list.copy_within(4 * number - 4..4 * number, 4 * number),
        _ => spoil(chance, list),
    }
}
