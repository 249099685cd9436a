//! The court roll of the examples, with its annotation, and with others that hide about 5, 50 and 95 per cent of its nodes.

use crate::hidden::{annotated, Annotated};
use second::Reply;

const ROLL: &[u8] = include_bytes!("../../examples/court/roll.rec");

/// As it stands among the examples.
pub fn example() -> Annotated {
    Annotated {
        roll: ROLL.to_vec(),
        annotation: include_bytes!("../../examples/court/view.rec").to_vec(),
        filters: include_bytes!("../../examples/court/filters.rec").to_vec(),
    }
}

pub fn texts() -> Vec<&'static str> {
    include_str!("../../examples/court/queries").lines().collect()
}

/// A roll with an annotation, the view cut out of it, and which nodes are hidden.
pub struct Shown {
    pub hides: &'static str,
    pub input: Annotated,
    pub view: Vec<u8>,
}

impl Shown {
    fn with(hides: &'static str, records: &[(u8, u8, &str)]) -> Shown {
        let mut shown = Shown { hides, input: annotated(ROLL.to_vec(), records), view: Vec::new() };
        let mut view = vec![0; ROLL.len()];
        let Reply::Count(nodes) = shown.cut(&mut view) else { panic!("the annotation is refused: {hides}") };
        shown.view = view[..4 * nodes].to_vec();
        shown
    }

    pub fn cut(&self, room: &mut [u8]) -> Reply {
        compare::cut_view(&self.input.roll, &self.input.annotation, &self.input.filters, room)
    }

    /// The exact share of hidden nodes, in per cent.
    pub fn hidden(&self) -> f64 {
        100.0 - 100.0 * self.view.len() as f64 / self.input.roll.len() as f64
    }
}

pub fn shares() -> [Shown; 3] {
    [
        Shown::with("drafts hidden, their words shown", &[(2, 4, "f"), (4, 5, "t")]),
        Shown::with("drafts and their words hidden, ticks shown", &[(2, 4, "f"), (4, 5, "f"), (5, 8, "t")]),
        Shown::with(
            "all hidden but cases with a seal, without drafts",
            &[(1, 2, "v/[#6]"), (2, 2, "v/[#6]"), (2, 4, "f")],
        ),
    ]
}
