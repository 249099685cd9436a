//! Rewritten queries on rolls against the queries themselves on views.

mod common;

use common::*;
use second::annotation::Annotation;
use second::meaning::{Meaning, Nodes};
use second::roll::{Node, Tree};
use second::table::{self, Entry, CURATORS_QUERY, FILTER_TABLE, QUERY_ON_ROLL};
use second::view::View;
use second::Reply;

/// Everything one draw is made of, in bytes.
struct Draw {
    roll: Vec<u8>,
    annotation: Vec<u8>,
    filters: Vec<u8>,
    query: Vec<u8>,
}

const LABELS: u8 = 3;

impl Draw {
    fn some(chance: &mut Chance) -> Draw {
        let mut filters = some_table(chance, table::Limits { entries: 24, ..FILTER_TABLE }, LABELS, false);
        filters.extend([Entry::True, Entry::False]);
        let named: Vec<usize> = (0..filters.len()).filter(|number| !filters[*number].is_path()).collect();
        let mut records = Vec::new();
        for pair in 0..LABELS * LABELS {
            if !chance.one_in(4) {
                records.push((1 + pair / LABELS, 1 + pair % LABELS, chance.one_of(&named) as u16));
            }
        }
        let mut query = some_table(chance, table::Limits { entries: 30, height: 28 }, LABELS, true);
        if chance.one_in(2) {
            begin_anywhere(&mut query);
        }
        Draw {
            roll: some_roll(chance, 18, LABELS),
            annotation: annotation(&records),
            filters: table::write(&filters),
            query: table::write(&query),
        }
    }

    fn view(&self) -> View {
        let filters = table::read_filters(&self.filters).unwrap();
        let annotation = Annotation::read(&self.annotation, &filters).unwrap();
        View::cut(&Tree::read(&self.roll).unwrap(), &annotation, &filters)
    }

    fn rewritten(&self) -> Vec<u8> {
        rewritten(&self.annotation, &self.filters, &self.query)
    }

    fn curators_answer(&self) -> Vec<usize> {
        nodes_answered(|room| second::curators_answer(&self.roll, &self.annotation, &self.filters, &self.query, room))
    }
}

/// Most paths lead nowhere from a root; behind `v*` they begin at all nodes.
fn begin_anywhere(query: &mut Vec<Entry>) {
    let last = query.len() - 1;
    query.extend([Entry::Child, Entry::Star(last + 1), Entry::Then(last + 2, last)]);
}

/// Checks the bounds of a rewritten table and that it begins with the filter table.
fn check_bounds(annotation: &[u8], filters: &[u8], query: &[u8], rewritten: &[u8]) {
    assert_eq!(rewritten[..filters.len()], *filters);
    table::read_query(rewritten, QUERY_ON_ROLL).expect("the rewritten query is a query for a roll");
    let most = filters.len() / 6 + query.len() / 6 + 9 * (annotation.len() / 6) + 100;
    assert!(rewritten.len() / 6 <= most, "{} entries, not {most}", rewritten.len() / 6);
}

/// Checks from every visible node that the rewritten query reaches the records of what the query reaches on the view.
/// Gives the number of nodes reached.
fn check_from_visible_nodes(roll: &Tree, view: &View, query: &[Entry], rewritten: &[Entry]) -> usize {
    let mut on_view = Meaning::new(&view.tree, query);
    let mut on_roll = Meaning::new(roll, rewritten);
    let mut reached = 0;
    for position in view.tree.nodes() {
        let record = |position: Node| view.records[usize::from(position)];
        let expected: Nodes = on_view.answer_from(position).into_iter().map(record).collect();
        assert_eq!(on_roll.answer_from(record(position)), expected, "from record {}", record(position));
        reached += expected.len();
    }
    reached
}

#[test]
fn rewritten_queries_reach_what_queries_reach_on_the_view() {
    let mut chance = Chance::new(2);
    let (mut with_hidden, mut below_hidden, mut reached, mut away_from_root) = (0, 0, 0, 0);
    for _ in 0..6000 {
        let draw = Draw::some(&mut chance);
        let (roll, view) = (Tree::read(&draw.roll).unwrap(), draw.view());
        let rewritten = draw.rewritten();
        check_bounds(&draw.annotation, &draw.filters, &draw.query, &rewritten);

        let answer = draw.curators_answer();
        let records = nodes_answered(|room| second::answer_on_roll(&draw.roll, &rewritten, room));
        let position = |record: usize| view.position(record as Node).expect("only visible records are reached");
        let positions: Vec<usize> = records.into_iter().map(|record| usize::from(position(record))).collect();
        assert_eq!(positions, answer);

        let query = table::read_query(&draw.query, CURATORS_QUERY).unwrap();
        let rewritten = table::read_query(&rewritten, QUERY_ON_ROLL).unwrap();
        reached += check_from_visible_nodes(&roll, &view, &query, &rewritten);
        with_hidden += usize::from(view.tree.len() < roll.len());
        below_hidden += usize::from(has_visible_below_hidden(&roll, &view));
        away_from_root += usize::from(answer.iter().any(|position| *position > 0));
    }
    let seen = [with_hidden, below_hidden, reached, away_from_root];
    assert!(seen.iter().all(|times| *times > 1000), "the draws are too plain: {seen:?}");
}

fn has_visible_below_hidden(roll: &Tree, view: &View) -> bool {
    let hidden = |node: Node| view.position(node).is_none();
    view.records.iter().any(|record| roll.parent(*record).is_some_and(hidden))
}

#[test]
fn cut_views_are_rolls_of_visible_nodes() {
    let mut chance = Chance::new(3);
    let mut shorter = 0;
    for _ in 0..4000 {
        let draw = Draw::some(&mut chance);
        let mut room = vec![UNTOUCHED; draw.roll.len()];
        let nodes = count(second::cut_view(&draw.roll, &draw.annotation, &draw.filters, &mut room));
        assert_eq!(second::check_roll(&room[..nodes * 4]), Reply::Count(nodes));
        assert!(room[nodes * 4..].iter().all(|byte| *byte == UNTOUCHED));
        assert_eq!(room[..nodes * 4], draw.view().tree.write());
        // With no records all is visible.
        assert_eq!(second::cut_view(&draw.roll, &[], &draw.filters, &mut room), Reply::Count(draw.roll.len() / 4));
        assert_eq!(room, draw.roll);
        shorter += usize::from(nodes * 4 < draw.roll.len());
    }
    assert!(shorter > 1000, "{shorter}");
}

/// All trees of so many nodes, as the parents of nodes 1, 2, and so on.
fn shapes(nodes: usize) -> Vec<Vec<u16>> {
    let mut shapes: Vec<Vec<u16>> = vec![vec![]];
    for newest in 0..nodes as u16 - 1 {
        shapes = shapes.iter().flat_map(|shape| grown(shape, newest)).collect();
    }
    shapes
}

/// A shape with one node more, in all ways: below the newest node or below one of its ancestors.
fn grown(shape: &[u16], newest: u16) -> Vec<Vec<u16>> {
    let up = |node: &u16| node.checked_sub(1).map(|child| shape[usize::from(child)]);
    let parents = std::iter::successors(Some(newest), up);
    parents.map(|parent| [shape, &[parent]].concat()).collect()
}

/// The roll of a shape in which label 1 is shown and label 2 hidden: bit k of `hidden` is for node k + 1.
fn marked_roll(shape: &[u16], hidden: usize) -> Vec<u8> {
    let mark = |(child, parent): (usize, &u16)| (1 + (hidden >> child & 1) as u8, *parent);
    let nodes = [(1, NO_PARENT)].into_iter().chain(shape.iter().enumerate().map(mark));
    roll(&nodes.collect::<Vec<_>>())
}

#[test]
fn every_step_is_right_on_every_small_roll_with_every_choice_of_hidden_nodes() {
    let (filter_table, numbers) = filters(&["t", "f"]);
    let (shown, hidden) = (numbers[0], numbers[1]);
    let marks = annotation(&[(1, 1, shown), (1, 2, hidden), (2, 1, shown), (2, 2, hidden)]);
    let entries = table::read_filters(&filter_table).unwrap();
    let annotation = Annotation::read(&marks, &entries).unwrap();
    let steps = [Entry::Child, Entry::Parent, Entry::Next, Entry::Previous];
    let queries = steps.map(|step| (step, second::rewrite::rewrite(&entries, &annotation, &[step])));
    let (mut rolls, mut reached) = (0, [0; 4]);
    for nodes in 1..=7 {
        for shape in shapes(nodes) {
            for hidden in 0..1 << (nodes - 1) {
                let tree = Tree::read(&marked_roll(&shape, hidden)).unwrap();
                let view = View::cut(&tree, &annotation, &entries);
                assert_eq!(view.tree.len(), nodes - hidden.count_ones() as usize);
                for (times, (step, rewritten)) in reached.iter_mut().zip(&queries) {
                    *times += check_from_visible_nodes(&tree, &view, &[*step], rewritten);
                }
                rolls += 1;
            }
        }
    }
    // 1, 1, 2, 5, 14, 42 and 132 shapes.
    assert_eq!(rolls, 1 + 2 + 2 * 4 + 5 * 8 + 14 * 16 + 42 * 32 + 132 * 64);
    // Steps come in pairs that undo each other, and each leads somewhere.
    assert!(reached[0] == reached[1] && reached[2] == reached[3] && reached[2] > 1000, "{reached:?}");
}

/// The nearest cases of 01's warnings, by hand.
#[test]
fn steps_go_into_hidden_siblings_and_out_of_hidden_parents() {
    let (filters, numbers) = filters(&["t", "f"]);
    let annotation = annotation(&[(1, 2, numbers[1]), (2, 1, numbers[0]), (2, 2, numbers[1])]);
    // 0 shown; 1 hidden with 2 shown below it; 3 hidden with 4 hidden with 5 shown; 6 shown.
    let roll = roll(&[(1, NO_PARENT), (2, 0), (1, 1), (2, 0), (2, 3), (1, 4), (1, 0)]);
    let records = |text: &str| {
        let rewritten = rewritten(&annotation, &filters, &query(text));
        nodes_answered(|room| second::answer_on_roll(&roll, &rewritten, room))
    };
    assert_eq!(records("v"), [2, 5, 6]);
    assert_eq!(records("v/[!<]"), [2]);
    assert_eq!(records("v/[!<]/>"), [5]);
    assert_eq!(records("v/[!<]/>/>"), [6]);
    assert_eq!(records("v/[!>]/<"), [5]);
    assert_eq!(records("v/[!>]/</</<"), []);
    assert_eq!(records("v/^"), [0]);
}

/// A table as long and as high as its limits allow, in which hardly two entries are equal.
fn fullest(limits: table::Limits, last_kind: u8) -> Vec<u8> {
    let top = limits.height as u16 - 2;
    // Built upon sideways steps, which become the highest paths.
    let mut entries = vec![entry(4, 0, 0, 0), entry(17, 0, 0, 0)];
    entries.extend((1..top).map(|below| entry(20, 0, below, 0)));
    let pairs = (1..top).flat_map(|left| (1..top).map(move |right| (left, right)));
    entries.extend(pairs.flat_map(|(left, right)| [entry(21, 0, left, right), entry(22, 0, left, right)]));
    entries.truncate(limits.entries - 1);
    entries.push(entry(last_kind, 0, top, 0));
    table(&entries)
}

#[test]
fn the_largest_inputs_are_rewritten_within_the_bounds() {
    let (filters, query) = (fullest(FILTER_TABLE, 20), fullest(CURATORS_QUERY, 6));
    assert_eq!((filters.len(), query.len()), (256 * 6, 256 * 6));
    let highest = |entries: Vec<Entry>| table::heights(&entries).into_iter().max();
    assert_eq!(highest(table::read_filters(&filters).unwrap()), Some(16));
    assert_eq!(highest(table::read_query(&query, CURATORS_QUERY).unwrap()), Some(32));
    // All labels differ, so hardly anything can be shared between records.
    let records: Vec<(u8, u8, u16)> = (1..=32).map(|label| (label, label + 32, 255)).collect();
    let annotation = annotation(&records);
    let rewritten = rewritten(&annotation, &filters, &query);
    check_bounds(&annotation, &filters, &query, &rewritten);
    assert!(rewritten.len() / 6 > 256 + 256 + 8 * 32, "the inputs are not large enough: {}", rewritten.len() / 6);
    assert_eq!(second::answer_on_roll(&roll(&[(1, NO_PARENT)]), &rewritten, &mut [0; 512]), Reply::Count(1));
}

#[test]
fn the_smallest_inputs_are_rewritten() {
    let query = query("v");
    let rewritten = rewritten(&[], &[], &query);
    check_bounds(&[], &[], &query, &rewritten);
    let answer = |table: &[u8]| nodes_answered(|room| second::answer_on_roll(&working_roll(), table, room));
    assert_eq!(answer(&rewritten), answer(&query));
}
