//! The meaning of queries: a path takes a set of nodes to the nodes it leads to, a filter is the set of nodes where it holds.

use std::collections::{BTreeSet, HashMap};
use std::rc::Rc;

use crate::roll::{Node, Tree};
use crate::table::Entry;

/// A set of nodes.
pub type Nodes = BTreeSet<Node>;

/// Which way a path is walked: from where it starts to where it leads, or back.
#[derive(Clone, Copy, PartialEq, Eq, Hash)]
enum Way {
    Onwards,
    Back,
}

/// A query table read on one tree.
///
/// What was found for an entry is kept: entries are shared, and a table of a few dozen entries may unfold to more paths
/// than could ever be walked.
pub struct Meaning<'a> {
    tree: &'a Tree,
    table: &'a [Entry],
    walked: HashMap<(usize, Way, Nodes), Rc<Nodes>>,
    held: HashMap<usize, Rc<Nodes>>,
}

impl<'a> Meaning<'a> {
    pub fn new(tree: &'a Tree, table: &'a [Entry]) -> Meaning<'a> {
        Meaning { tree, table, walked: HashMap::new(), held: HashMap::new() }
    }

    /// What the query, the table's last entry, reaches from a node.
    pub fn answer_from(&mut self, node: Node) -> Nodes {
        self.image(self.table.len() - 1, &Nodes::from([node]))
    }

    /// The nodes that a path leads to from any node of a set.
    pub fn image(&mut self, path: usize, nodes: &Nodes) -> Nodes {
        self.walk(path, Way::Onwards, nodes).as_ref().clone()
    }

    /// The nodes from which a path leads to any node of a set.
    pub fn preimage(&mut self, path: usize, nodes: &Nodes) -> Nodes {
        self.walk(path, Way::Back, nodes).as_ref().clone()
    }

    /// The nodes at which a filter holds.
    pub fn holding(&mut self, filter: usize) -> Rc<Nodes> {
        if let Some(nodes) = self.held.get(&filter) {
            return Rc::clone(nodes);
        }
        let nodes = Rc::new(self.judge(filter));
        self.held.insert(filter, Rc::clone(&nodes));
        nodes
    }

    fn judge(&mut self, filter: usize) -> Nodes {
        let all = || self.tree.nodes();
        match self.table[filter] {
            Entry::Label(label) => all().filter(|node| self.tree.label(*node) == label).collect(),
            // It leads somewhere from the nodes from which it leads to any node at all.
            Entry::Leads(path) => self.preimage(path, &all().collect()),
            Entry::True => all().collect(),
            Entry::False => Nodes::new(),
            Entry::Not(filter) => &all().collect::<Nodes>() - &*self.holding(filter),
            Entry::And(one, other) => &*self.holding(one) & &*self.holding(other),
            Entry::Or(one, other) => &*self.holding(one) | &*self.holding(other),
            path => unreachable!("{path:?} is no filter"),
        }
    }

    fn walk(&mut self, path: usize, way: Way, nodes: &Nodes) -> Rc<Nodes> {
        match self.table[path] {
            Entry::Then(..) | Entry::Either(..) | Entry::Star(_) => self.walk_once(path, way, nodes),
            _ => Rc::new(self.step(path, way, nodes)),
        }
    }

    /// The walk of a path over others, which is made once from each set.
    fn walk_once(&mut self, path: usize, way: Way, nodes: &Nodes) -> Rc<Nodes> {
        let asked = (path, way, nodes.clone());
        if let Some(led) = self.walked.get(&asked) {
            return Rc::clone(led);
        }
        let led = Rc::new(match self.table[path] {
            Entry::Then(first, second) => {
                let (sooner, later) = if way == Way::Onwards { (first, second) } else { (second, first) };
                let halfway = self.walk(sooner, way, nodes);
                self.walk(later, way, &halfway).as_ref().clone()
            }
            Entry::Either(one, other) => &*self.walk(one, way, nodes) | &*self.walk(other, way, nodes),
            Entry::Star(step) => self.closure(step, way, nodes),
            other => unreachable!("{other:?} has no paths below it"),
        });
        self.walked.insert(asked, Rc::clone(&led));
        led
    }

    /// What a path leads to in any number of goes: each node found is tried once.
    fn closure(&mut self, step: usize, way: Way, nodes: &Nodes) -> Nodes {
        let mut found = nodes.clone();
        let mut untried = Rc::new(nodes.clone());
        while !untried.is_empty() {
            untried = Rc::new(&*self.walk(step, way, &untried) - &found);
            found.extend(untried.iter());
        }
        found
    }

    /// A path that has no other below it, from each node of a set.
    fn step(&mut self, path: usize, way: Way, nodes: &Nodes) -> Nodes {
        let tree = self.tree;
        let each = nodes.iter().copied();
        match (self.table[path], way) {
            (Entry::Itself, _) => nodes.clone(),
            (Entry::Child, Way::Onwards) | (Entry::Parent, Way::Back) => {
                each.flat_map(|node| tree.children(node).iter().copied()).collect()
            }
            (Entry::Parent, Way::Onwards) | (Entry::Child, Way::Back) => {
                each.filter_map(|node| tree.parent(node)).collect()
            }
            (Entry::Next, Way::Onwards) | (Entry::Previous, Way::Back) => {
                each.filter_map(|node| tree.next(node)).collect()
            }
            (Entry::Previous, Way::Onwards) | (Entry::Next, Way::Back) => {
                each.filter_map(|node| tree.previous(node)).collect()
            }
            (Entry::Stay(filter), _) => nodes & &*self.holding(filter),
            (other, _) => unreachable!("{other:?} is no step"),
        }
    }
}
