//! Rolls with an annotation and its filter table: document 01's, and such that grow by chance.

use second::annotation::Annotation;
use second::roll::Tree;
use second::table::{read_filters, FILTER_TABLE};
use second::view::View;

use crate::chance::Chance;
use crate::records::{entry, grown_roll};
use crate::tables::{Table, LABELS};

#[derive(Clone)]
pub struct Annotated {
    pub roll: Vec<u8>,
    pub annotation: Vec<u8>,
    pub filters: Vec<u8>,
}

impl Annotated {
    /// Document 01's roll to work with.
    pub fn worked() -> Annotated {
        Annotated {
            roll: include_bytes!("../../examples/worked/roll.rec").to_vec(),
            annotation: include_bytes!("../../examples/worked/view.rec").to_vec(),
            filters: include_bytes!("../../examples/worked/filters.rec").to_vec(),
        }
    }

    /// An annotation that hides nodes with label 2 and shows those with label 1 or 3, with no roll yet.
    pub fn hiding_label_2() -> Annotated {
        let shown = |parent: u8| [entry(parent, 1, 0, 0), entry(parent, 2, 1, 0), entry(parent, 3, 0, 0)];
        let annotation = (1..=3).flat_map(shown).flatten().collect();
        Annotated { roll: Vec::new(), annotation, filters: [entry(18, 0, 0, 0), entry(19, 0, 0, 0)].concat() }
    }

    /// A roll of at most so many nodes; most pairs of labels have a record. One in eight has no record.
    pub fn grown(chance: &mut Chance, most: usize) -> Annotated {
        let tries = chance.below(24);
        let filters = Table::within(FILTER_TABLE.height, 60).grown(chance, tries);
        let none = filters.filters.is_empty() || chance.one_in(8);
        let annotation = if none { Vec::new() } else { records(chance, &filters, LABELS) };
        let size = 1 + chance.below(most);
        Annotated { roll: grown_roll(chance, size, LABELS), annotation, filters: filters.bytes }
    }

    /// The same with a filter table and an annotation that come up to their limits, or nearly.
    pub fn greatest(chance: &mut Chance, most: usize) -> Annotated {
        let full = Table::greatest(chance, FILTER_TABLE, 60);
        let annotation = if full.filters.is_empty() { Vec::new() } else { records(chance, &full, 8) };
        let size = 1 + chance.below(most);
        Annotated { roll: grown_roll(chance, size, LABELS), annotation, filters: full.bytes }
    }

    /// The view, as the second program cuts it out of a roll that is in order.
    pub fn view(&self) -> View {
        let filters = read_filters(&self.filters).expect("the filters are in order");
        let annotation = Annotation::read(&self.annotation, &filters).expect("the annotation is in order");
        View::cut(&Tree::read(&self.roll).expect("the roll is in order"), &annotation, &filters)
    }
}

/// Records for two in three pairs of the first labels, as far as an annotation has room for them.
fn records(chance: &mut Chance, filters: &Table, labels: usize) -> Vec<u8> {
    let mut records = Vec::new();
    for pair in 0..labels * labels {
        if chance.below(3) > 0 && records.len() < 32 * 6 {
            let filter = chance.pick(&filters.filters);
            records.extend(entry(1 + (pair / labels) as u8, 1 + (pair % labels) as u8, filter, 0));
        }
    }
    records
}
