//! The check of a roll's content beside the second program, and beside call 1 on the same roll: how it grows with the nodes.

use std::hint::black_box;

use compare::records::{chain, node, wide, NO_PARENT};
use compare::rules::{listed, Rules};

use crate::tools::in_turn;

/// One roll and its rules, and how many microseconds the check of its content takes, the check of the roll alone, and the second program.
pub struct Content {
    pub name: &'static str,
    pub rule: &'static str,
    pub nodes: usize,
    pub proved: f64,
    pub roll_alone: f64,
    pub second: f64,
}

/// A roll, its rule entries and their list.
type Input = (Vec<u8>, Vec<u8>, Vec<u8>);

/// The numbers of nodes between which the time must grow in proportion.
const SIZES: [usize; 2] = [512, 4096];

/// `(2|3|4)*` for these labels.
fn any_of_three(labels: &[u8]) -> (Vec<u8>, Vec<u8>) {
    let mut rules = Rules::default();
    let [two, three, four] = [2, 3, 4].map(|label| rules.push(33, label, 0, 0));
    let either = rules.push(35, 0, two, three);
    let one = rules.push(35, 0, either, four);
    let any = rules.push(36, 0, one, 0);
    (rules.bytes, labels.iter().flat_map(|label| listed(*label, any)).collect())
}

/// The roll with the root's label 1 and the labels 2, 3 and 4 in turn.
fn in_three_labels(mut roll: Vec<u8>) -> Vec<u8> {
    for (at, record) in roll.chunks_mut(4).enumerate().skip(1) {
        record[0] = 2 + (at % 3) as u8;
    }
    roll
}

/// All under one root, whose label has the rule.
fn one_root(size: usize) -> Input {
    let (rules, list) = any_of_three(&[1]);
    (in_three_labels(wide(size)), rules, list)
}

/// All of one label under one root, whose rule `(a*b|a)*` has a star in a star that comes to the same places from each of them.
fn star_in_star(size: usize) -> Input {
    let mut rules = Rules::default();
    let [a, b] = [2, 3].map(|label| rules.push(33, label, 0, 0));
    let some = rules.push(36, 0, a, 0);
    let before = rules.push(34, 0, some, b);
    let either = rules.push(35, 0, before, a);
    let any = rules.push(36, 0, either, 0);
    let mut roll = wide(size);
    roll.chunks_mut(4).skip(1).for_each(|record| record[0] = 2);
    (roll, rules.bytes, listed(1, any).to_vec())
}

/// One chain, all of whose labels have the rule.
fn one_chain(size: usize) -> Input {
    let (rules, list) = any_of_three(&[1, 2, 3, 4]);
    (in_three_labels(chain(size)), rules, list)
}

/// Nodes of two children, the first of them a leaf: label 2, then 1 or 2.
fn of_two_children(size: usize) -> Input {
    let parent = |at: usize| if at == 0 { NO_PARENT } else { (at - 1) / 2 * 2 };
    let records = (0..size - 1 + size % 2)
        .map(|at| node(if at % 2 == 0 && at + 1 < size - 1 + size % 2 { 1 } else { 2 }, parent(at)));
    let mut rules = Rules::default();
    let [one, two] = [1, 2].map(|label| rules.push(33, label, 0, 0));
    let either = rules.push(35, 0, one, two);
    let both = rules.push(34, 0, two, either);
    let none = rules.push(32, 0, 0, 0);
    (records.flatten().collect(), rules.bytes, [listed(1, both), listed(2, none)].concat())
}

/// A roll for which nothing is asked.
fn no_rule(size: usize) -> Input {
    (in_three_labels(wide(size)), Vec::new(), Vec::new())
}

fn timed(name: &'static str, rule: &'static str, (roll, rules, list): Input) -> Content {
    let nodes = roll.len() / 4;
    let reply = compare::check_content(&roll, &rules, &list);
    assert_eq!(reply, second::check_content(&roll, &rules, &list), "{name}: the two programs differ");
    assert_eq!(reply, second::Reply::Count(nodes), "{name}: the roll does not follow the rules");
    let [proved, roll_alone, second] = in_turn([
        &mut || {
            black_box(compare::check_content(black_box(&roll), &rules, &list));
        },
        &mut || {
            black_box(compare::check_roll(black_box(&roll)));
        },
        &mut || {
            black_box(second::check_content(black_box(&roll), &rules, &list));
        },
    ]);
    Content { name, rule, nodes, proved, roll_alone, second }
}

pub fn contents() -> Vec<Content> {
    let shapes: [(&str, &str, fn(usize) -> Input); 5] = [
        ("one root", "`(a\\|b\\|c)*` for the root", one_root),
        ("one root", "`(a*b\\|a)*` for the root", star_in_star),
        ("nodes of two children", "`b(a\\|b)`, and nothing under a leaf", of_two_children),
        ("one chain", "`(a\\|b\\|c)*` for every node", one_chain),
        ("one root", "none", no_rule),
    ];
    shapes.into_iter().flat_map(|(name, rule, input)| SIZES.map(|size| timed(name, rule, input(size)))).collect()
}
