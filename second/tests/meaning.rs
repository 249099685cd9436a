//! The meaning of queries against boolean matrices, which hold whole relations and know nothing of walking.

mod common;

use common::*;
use second::meaning::{Meaning, Nodes};
use second::roll::{Node, Tree};
use second::table::{self, Entry, CURATORS_QUERY};

type Relation = Vec<Vec<bool>>;

fn relation(size: usize, related: impl Fn(usize, usize) -> bool) -> Relation {
    (0..size).map(|from| (0..size).map(|to| related(from, to)).collect()).collect()
}

/// Path by path as a relation, and filters as the diagonal they hold on.
fn relations(tree: &Tree, table: &[Entry]) -> Vec<Relation> {
    let mut known: Vec<Relation> = Vec::new();
    for entry in table {
        let relation = relation_of(tree, *entry, &known);
        known.push(relation);
    }
    known
}

fn relation_of(tree: &Tree, entry: Entry, known: &[Relation]) -> Relation {
    let size = tree.len();
    let parent = |node: usize| tree.parent(node as u16).map(usize::from);
    let follows = |elder: usize, younger: usize| {
        let between = (elder + 1..younger).any(|node| parent(node) == parent(elder));
        elder < younger && parent(elder).is_some() && parent(elder) == parent(younger) && !between
    };
    match entry {
        Entry::Itself | Entry::True => relation(size, |from, to| from == to),
        Entry::False => relation(size, |_, _| false),
        Entry::Child => relation(size, |from, to| parent(to) == Some(from)),
        Entry::Parent => relation(size, |from, to| parent(from) == Some(to)),
        Entry::Next => relation(size, follows),
        Entry::Previous => relation(size, |from, to| follows(to, from)),
        Entry::Label(label) => relation(size, |from, to| from == to && tree.label(from as u16) == label),
        Entry::Stay(filter) => known[filter].clone(),
        Entry::Then(left, right) => composed(&known[left], &known[right]),
        Entry::Either(left, right) | Entry::Or(left, right) => {
            relation(size, |from, to| known[left][from][to] || known[right][from][to])
        }
        Entry::And(left, right) => relation(size, |from, to| known[left][from][to] && known[right][from][to]),
        Entry::Not(filter) => relation(size, |from, to| from == to && !known[filter][from][to]),
        Entry::Leads(path) => relation(size, |from, to| from == to && known[path][from].contains(&true)),
        Entry::Star(path) => closed(&known[path]),
    }
}

fn composed(left: &Relation, right: &Relation) -> Relation {
    let size = left.len();
    relation(size, |from, to| (0..size).any(|halfway| left[from][halfway] && right[halfway][to]))
}

/// The closure, by opening one node after the other for passing through.
fn closed(step: &Relation) -> Relation {
    let size = step.len();
    let mut closure = relation(size, |from, to| from == to || step[from][to]);
    for through in 0..size {
        closure = relation(size, |from, to| closure[from][to] || closure[from][through] && closure[through][to]);
    }
    closure
}

#[test]
fn every_entry_means_its_relation_at_every_node() {
    let mut chance = Chance::new(1);
    let limits = table::Limits { entries: 40, ..CURATORS_QUERY };
    let (mut reaching, mut holding) = (0, 0);
    for _ in 0..600 {
        let tree = Tree::read(&some_roll(&mut chance, 10, 3)).unwrap();
        let table = some_table(&mut chance, limits, 3, true);
        let mut meaning = Meaning::new(&tree, &table);
        for (number, relation) in relations(&tree, &table).iter().enumerate() {
            let related = |from: Node, to: Node| relation[usize::from(from)][usize::from(to)];
            for node in tree.nodes() {
                let led: Nodes = tree.nodes().filter(|to| related(node, *to)).collect();
                if table[number].is_path() {
                    let came: Nodes = tree.nodes().filter(|from| related(*from, node)).collect();
                    assert_eq!(meaning.image(number, &Nodes::from([node])), led);
                    assert_eq!(meaning.preimage(number, &Nodes::from([node])), came);
                    reaching += usize::from(led.len() > 1);
                } else {
                    assert_eq!(meaning.holding(number).contains(&node), !led.is_empty());
                    holding += led.len();
                }
            }
        }
    }
    assert!(reaching > 1000 && holding > 1000, "the draws are too plain: {reaching} {holding}");
}

#[test]
fn an_image_is_what_is_reached_from_any_node_of_the_set() {
    let tree = Tree::read(&working_roll()).unwrap();
    let table = [Entry::Child];
    let mut meaning = Meaning::new(&tree, &table);
    assert_eq!(meaning.image(0, &Nodes::from([1, 8, 12])), Nodes::from([2, 6, 9, 10]));
    assert_eq!(meaning.image(0, &Nodes::new()), Nodes::new());
    assert_eq!(meaning.preimage(0, &Nodes::from([2, 6, 9])), Nodes::from([1, 8]));
}

#[test]
fn sets_are_walked_as_their_nodes_are_one_by_one() {
    let mut chance = Chance::new(5);
    let limits = table::Limits { entries: 40, ..CURATORS_QUERY };
    let mut joined = 0;
    for _ in 0..2000 {
        let tree = Tree::read(&some_roll(&mut chance, 20, 3)).unwrap();
        let table = some_table(&mut chance, limits, 3, true);
        let (mut of_sets, mut of_nodes) = (Meaning::new(&tree, &table), Meaning::new(&tree, &table));
        let nodes: Nodes = tree.nodes().filter(|_| chance.one_in(2)).collect();
        let last = table.len() - 1;
        let images: Vec<Nodes> = nodes.iter().map(|node| of_nodes.answer_from(*node)).collect();
        assert_eq!(of_sets.image(last, &nodes), images.iter().flatten().copied().collect());
        let preimages: Vec<Nodes> = nodes.iter().map(|node| of_nodes.preimage(last, &Nodes::from([*node]))).collect();
        assert_eq!(of_sets.preimage(last, &nodes), preimages.iter().flatten().copied().collect());
        joined += usize::from(images.iter().any(|image| image.len() > 1));
    }
    assert!(joined > 500, "the draws are too plain: {joined}");
}

#[test]
fn stars_on_the_greatest_rolls_are_answered() {
    let chain = roll(&(0..4096).map(|node: u16| (1, node.wrapping_sub(1))).collect::<Vec<_>>());
    let wide = [roll(&[(1, NO_PARENT)]), roll(&[(1, 0)]).repeat(4095)].concat();
    let stars = table(&[vec![entry(2, 0, 0, 0)], (0..127).map(|below| entry(9, 0, below, 0)).collect()].concat());
    let back_and_forth = query("v*/^*/v*/>*/<*/v*/^*/v*/[!v]");
    for (roll, leaves) in [(chain, 1), (wide, 4095)] {
        for (query, reached) in [(&query(&["v*"; 8].join("/")), 4096), (&stars, 4096), (&back_and_forth, leaves)] {
            assert_eq!(nodes_answered(|room| second::answer_on_roll(&roll, query, room)).len(), reached);
        }
    }
}

#[test]
fn entries_that_double_again_and_again_are_answered() {
    // 127 doublings: a walk that unfolds the table would never end.
    let chain: Vec<(u8, u16)> = (0..40).map(|node: u16| (1, node.wrapping_sub(1))).collect();
    let doublings = |first: u8, joint: u8| -> Vec<u8> {
        let double = |number: u16| entry(joint, 0, number, number);
        table(&[vec![entry(first, 0, 0, 0)], (0..127).map(double).collect()].concat())
    };
    let answer = |query: &[u8]| nodes_answered(|room| second::answer_on_roll(&roll(&chain), query, room));
    assert_eq!(answer(&doublings(2, 8)), [1]);
    assert_eq!(answer(&doublings(2, 7)), []);
    assert_eq!(answer(&doublings(1, 7)), [0]);
}

#[test]
fn the_last_of_4096_nodes_has_the_last_bit() {
    let flat = [roll(&[(1, NO_PARENT)]), roll(&[(2, 0)]).repeat(4095)].concat();
    let mut room = [UNTOUCHED; 512];
    assert_eq!(second::answer_on_roll(&flat, &query("v/[!>]"), &mut room), second::Reply::Count(1));
    assert_eq!(room[..511], [0; 511]);
    assert_eq!(room[511], 128);
}
