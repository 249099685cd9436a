//! The labels of an input that is drawn. It grows with the first few, so that labels meet; then each of these becomes one of the 64.

use crate::annotated::Annotated;
use crate::chance::Chance;

/// As many labels as any input grows with.
const GROWN: usize = 8;
/// The kind of a filter that asks for a label.
const LABELLED: u8 = 16;

/// What the first labels become, in ascending order, so that the pairs of an annotation stay in order.
pub struct Labels([u8; GROWN]);

impl Labels {
    pub fn drawn(chance: &mut Chance) -> Labels {
        let mut taken = [false; 65];
        while taken.iter().filter(|taken| **taken).count() < GROWN {
            taken[1 + chance.below(64)] = true;
        }
        let mut ascending = (1..=64).filter(|label| taken[usize::from(*label)]);
        Labels(std::array::from_fn(|_| ascending.next().expect("as many are taken")))
    }

    fn put(&self, label: &mut u8) {
        if let 1..=8 = *label {
            *label = self.0[usize::from(*label) - 1];
        }
    }

    pub fn on_roll(&self, roll: &mut [u8]) {
        roll.chunks_exact_mut(4).for_each(|node| self.put(&mut node[0]));
    }

    pub fn in_table(&self, table: &mut [u8]) {
        table.chunks_exact_mut(6).filter(|entry| entry[0] == LABELLED).for_each(|entry| self.put(&mut entry[1]));
    }

    /// On a roll, in its annotation and in its filters.
    pub fn on(&self, input: &mut Annotated) {
        self.on_roll(&mut input.roll);
        self.in_table(&mut input.filters);
        for record in input.annotation.chunks_exact_mut(6) {
            record[..2].iter_mut().for_each(|label| self.put(label));
        }
    }
}

/// Gives each filter that asks for a label any of the 64, for itself: in printing no two have to meet.
pub fn any_labels(chance: &mut Chance, table: &mut [u8]) {
    for entry in table.chunks_exact_mut(6).filter(|entry| entry[0] == LABELLED) {
        entry[1] = 1 + chance.below(64) as u8;
    }
}
