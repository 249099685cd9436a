//! Rolls: node tables in document order, and the trees they stand for.

use crate::reply::{refusal, Refusal};

/// The number of a node: a record number on a roll, a position on a view.
pub type Node = u16;

pub const NODE_BYTES: usize = 4;
pub const MOST_NODES: usize = 4096;
pub const MOST_LABEL: u8 = 64;

/// What the root has in place of a parent's number.
const NO_PARENT: u16 = 65_535;

/// An ordered labelled tree whose nodes are numbered in document order.
#[derive(Clone, Debug, Default, PartialEq, Eq)]
pub struct Tree {
    labels: Vec<u8>,
    parents: Vec<Option<Node>>,
    children: Vec<Vec<Node>>,
    next: Vec<Option<Node>>,
    previous: Vec<Option<Node>>,
}

impl Tree {
    /// The tree a roll stands for, or what is wrong with the roll (2 to 5).
    pub fn read(roll: &[u8]) -> Result<Tree, Refusal> {
        if roll.is_empty() || !roll.len().is_multiple_of(NODE_BYTES) || roll.len() > MOST_NODES * NODE_BYTES {
            return Err(refusal(2, 0));
        }
        let mut tree = Tree::default();
        for (number, record) in roll.chunks(NODE_BYTES).enumerate() {
            if !is_label(record[0]) {
                return Err(refusal(3, number));
            }
            if record[1] != 0 {
                return Err(refusal(4, number));
            }
            let field = u16::from_le_bytes([record[2], record[3]]);
            if !tree.may_hang_from(field) {
                return Err(refusal(5, number));
            }
            tree.hang(record[0], (number > 0).then_some(field));
        }
        Ok(tree)
    }

    /// The node table of this tree.
    pub fn write(&self) -> Vec<u8> {
        let mut roll = Vec::with_capacity(self.len() * NODE_BYTES);
        for (label, parent) in self.labels.iter().zip(&self.parents) {
            roll.extend([*label, 0]);
            roll.extend(parent.unwrap_or(NO_PARENT).to_le_bytes());
        }
        roll
    }

    /// Whether the next record may name this parent: the newest node or one of its ancestors, nothing at all for a
    /// root.
    fn may_hang_from(&self, field: u16) -> bool {
        match self.len() {
            0 => field == NO_PARENT,
            len => self.self_and_ancestors((len - 1) as Node).any(|node| node == field),
        }
    }

    /// Adds the next node in document order.
    pub fn hang(&mut self, label: u8, parent: Option<Node>) {
        let node = self.len() as Node;
        let elder = parent.and_then(|parent| self.children[usize::from(parent)].last().copied());
        if let Some(elder) = elder {
            self.next[usize::from(elder)] = Some(node);
        }
        if let Some(parent) = parent {
            self.children[usize::from(parent)].push(node);
        }
        self.labels.push(label);
        self.parents.push(parent);
        self.children.push(Vec::new());
        self.next.push(None);
        self.previous.push(elder);
    }

    /// How many nodes there are.
    pub fn len(&self) -> usize {
        self.labels.len()
    }

    /// Whether there is no node yet; no roll that is accepted gives such a tree.
    pub fn is_empty(&self) -> bool {
        self.labels.is_empty()
    }

    /// All nodes in document order.
    pub fn nodes(&self) -> impl Iterator<Item = Node> {
        0..self.len() as Node
    }

    pub fn label(&self, node: Node) -> u8 {
        self.labels[usize::from(node)]
    }

    pub fn parent(&self, node: Node) -> Option<Node> {
        self.parents[usize::from(node)]
    }

    pub fn children(&self, node: Node) -> &[Node] {
        &self.children[usize::from(node)]
    }

    pub fn next(&self, node: Node) -> Option<Node> {
        self.next[usize::from(node)]
    }

    pub fn previous(&self, node: Node) -> Option<Node> {
        self.previous[usize::from(node)]
    }

    /// The node itself, its parent, and so on up to the root.
    pub fn self_and_ancestors(&self, node: Node) -> impl Iterator<Item = Node> + '_ {
        std::iter::successors(Some(node), |node| self.parent(*node))
    }

    /// How many records hold the node and its descendants; document order puts them next to each other.
    pub fn run_length(&self, node: Node) -> usize {
        let stands_within = |below: &Node| self.self_and_ancestors(*below).any(|above| above == node);
        (node..self.len() as Node).take_while(stands_within).count()
    }
}

/// Whether a byte is a label.
pub fn is_label(byte: u8) -> bool {
    (1..=MOST_LABEL).contains(&byte)
}
