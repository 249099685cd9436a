//! Views: what an annotation leaves of a roll.

use crate::annotation::Annotation;
use crate::meaning::Meaning;
use crate::roll::{Node, Tree};
use crate::table::Entry;

/// A view: its tree, and for each position the record that stands there.
pub struct View {
    pub tree: Tree,
    pub records: Vec<Node>,
}

impl View {
    /// Cuts the view out of a roll's tree.
    pub fn cut(roll: &Tree, annotation: &Annotation, filters: &[Entry]) -> View {
        let mut meaning = Meaning::new(roll, filters);
        let visible = |node: &Node| is_visible(roll, annotation, &mut meaning, *node);
        let records: Vec<Node> = roll.nodes().filter(visible).collect();
        let mut tree = Tree::default();
        for record in &records {
            tree.hang(roll.label(*record), nearest_visible(roll, &records, *record));
        }
        View { tree, records }
    }

    /// The position at which a record stands, if it is visible.
    pub fn position(&self, record: Node) -> Option<Node> {
        position(&self.records, record)
    }
}

/// The nearest node, from itself upwards, whose pair has a record decides. If there is none it is as the root is:
/// visible.
fn is_visible(roll: &Tree, annotation: &Annotation, meaning: &mut Meaning, node: Node) -> bool {
    let decided = roll.self_and_ancestors(node).find_map(|above| {
        let parent = roll.parent(above)?;
        let filter = annotation.filter_for(roll.label(parent), roll.label(above))?;
        Some((filter, above))
    });
    decided.is_none_or(|(filter, above)| meaning.holding(filter).contains(&above))
}

/// The position of the nearest visible proper ancestor. Only the root has none.
fn nearest_visible(roll: &Tree, records: &[Node], record: Node) -> Option<Node> {
    roll.self_and_ancestors(record).skip(1).find_map(|above| position(records, above))
}

fn position(records: &[Node], record: Node) -> Option<Node> {
    records.binary_search(&record).ok().map(|position| position as Node)
}
