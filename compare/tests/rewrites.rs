//! Call 5: its bytes are free, so what the proved library writes is held to what it has to be: within the limits, the filter table in
//! front, and from every visible node of a roll an answer that is the query's on the view.

use compare::annotated::Annotated;
use compare::chance::Chance;
use compare::records::{cases, entry, from_hex, grown_roll, node, MOST_NODES, NO_PARENT};
use compare::same::{self, rewritten_reaches, REWRITE_ROOM};
use compare::tables::table_of;
use second::roll::Tree;
use second::table::{heights, read_filters, read_query, CURATORS_QUERY, FILTER_TABLE, QUERY_ON_ROLL};
use second::Reply;

/// The table written, or the refusal.
fn rewritten(annotation: &[u8], filters: &[u8], query: &[u8], room: usize) -> Result<Vec<u8>, Reply> {
    let (reply, table) = same::rewrite(annotation, filters, query, room);
    if let Reply::Count(_) = reply {
        Ok(table)
    } else {
        Err(reply)
    }
}

#[test]
fn the_worked_roll() {
    let worked = Annotated::worked();
    for text in
        [".", "^", "v", "v/v", "v*/[#5]", "v/>", "v/v/>", "v/v/>/<", "v*/^", "v/[!v/[#4]]", "[f]", "[t]", "(v|v/v)*"]
    {
        let query = table_of(text);
        for room in [REWRITE_ROOM, REWRITE_ROOM + 1, REWRITE_ROOM + 100] {
            let table = rewritten(&worked.annotation, &worked.filters, &query, room).expect("it is not refused");
            rewritten_reaches(&worked, &query, &table);
        }
        for room in [0, REWRITE_ROOM - 1] {
            let refused = rewritten(&worked.annotation, &worked.filters, &query, room);
            assert_eq!(refused, Err(Reply::Refused { number: 1, place: 0 }));
        }
    }
}

/// Annotation, filters and query of each line, with `A` or the refusal; the roll serves where it is in order.
#[test]
fn the_listed_draws() {
    let mut compared = 0;
    for case in cases(include_str!("../../second/tests/vectors/draws.txt")) {
        let [roll, annotation, filters, query] = [0, 1, 2, 3].map(|word| from_hex(case[word]));
        let listed = case.split(|word| *word == "|").nth(3).expect("it is the fourth part").join(" ");
        match rewritten(&annotation, &filters, &query, REWRITE_ROOM) {
            Err(refused) => assert_eq!(refused.to_string(), listed),
            Ok(table) => {
                assert_eq!(listed, "A");
                if Tree::read(&roll).is_ok() {
                    rewritten_reaches(&Annotated { roll, annotation, filters }, &query, &table);
                    compared += 1;
                }
            }
        }
    }
    assert!(compared > 150, "{compared}");
}

/// All rolls of up to six nodes, with every choice of hidden ones: a step along each axis from every visible node.
#[test]
fn every_step_on_every_small_roll() {
    let filters = [entry(18, 0, 0, 0), entry(19, 0, 0, 0)].concat();
    let annotation = [entry(1, 1, 0, 0), entry(1, 2, 1, 0), entry(2, 1, 0, 0), entry(2, 2, 1, 0)].concat();
    let steps = [2, 3, 4, 5].map(|kind| entry(kind, 0, 0, 0));
    let tables = steps.map(|step| rewritten(&annotation, &filters, &step, REWRITE_ROOM).expect("it is not refused"));
    let mut seen = [0; 4];
    let mut shapes: Vec<Vec<usize>> = vec![vec![NO_PARENT]];
    for nodes in 1..=6 {
        for shape in &shapes {
            for hidden in 0..1usize << (nodes - 1) {
                let label = |at: usize| if at > 0 { 1 + (hidden >> (at - 1) & 1) as u8 } else { 1 };
                let roll = shape.iter().enumerate().flat_map(|(at, parent)| node(label(at), *parent)).collect();
                let input = Annotated { roll, annotation: annotation.clone(), filters: filters.clone() };
                for at in 0..4 {
                    seen[at] += rewritten_reaches(&input, &steps[at], &tables[at]);
                }
            }
        }
        shapes = shapes.iter().flat_map(|shape| longer(shape)).collect();
    }
    // Steps come in pairs that undo each other, and each leads somewhere.
    assert!(seen[0] == seen[1] && seen[2] == seen[3] && seen[2] > 1000, "{seen:?}");
}

/// A shape with one node more, in all ways: below the last node or below one of its ancestors.
fn longer(shape: &[usize]) -> Vec<Vec<usize>> {
    let last = shape.len() - 1;
    let parents = std::iter::successors(Some(last), |at| (shape[*at] != NO_PARENT).then_some(shape[*at]));
    parents.map(|parent| [shape, &[parent]].concat()).collect()
}

/// A table of 256 entries, as high as it may be: whether `v/>/(^|<)/[#1]` leads somewhere, under filters that are nested and joined. Its
/// last entry is of the kind given, and stands on the highest filter.
fn fullest(height: usize, last_kind: u8) -> Vec<u8> {
    let step = |kind: u8| entry(kind, 0, 0, 0);
    let mut entries = vec![step(2), step(3), step(4), step(5), entry(16, 1, 0, 0), entry(6, 0, 4, 0)];
    entries.extend([entry(7, 0, 0, 2), entry(8, 0, 1, 3), entry(7, 0, 6, 7), entry(7, 0, 8, 5), entry(17, 0, 9, 0)]);
    let (leads, top) = (10, height + 4);
    entries.extend((leads..top).map(|below| entry(20, 0, below, 0)));
    let pairs = (leads..top).flat_map(|left| (leads..top).map(move |right| (left, right)));
    let joints = pairs.flat_map(|(left, right)| [entry(21, 0, left, right), entry(22, 0, left, right)]);
    entries.extend(joints.cycle().take(255 - entries.len()));
    entries.push(entry(last_kind, 0, top, 0));
    entries.concat()
}

#[test]
fn the_largest_inputs() {
    let (filters, query) = (fullest(FILTER_TABLE.height, 20), fullest(CURATORS_QUERY.height, 6));
    assert_eq!([filters.len(), query.len()], [256 * 6; 2]);
    assert_eq!(heights(&read_filters(&filters).expect("it is in order"))[255], 16);
    assert_eq!(heights(&read_query(&query, CURATORS_QUERY).expect("it is in order"))[255], 32);
    // Labels 1 to 3 are the roll's; the pairs of the last records belong to no node of it.
    let record = |at: usize| entry(1 + (at / 4) as u8, 1 + (at % 4) as u8, 255, 0);
    let annotation: Vec<u8> = (0..32).flat_map(record).collect();
    let table = rewritten(&annotation, &filters, &query, REWRITE_ROOM).expect("it is not refused");
    let height = heights(&read_query(&table, QUERY_ON_ROLL).expect("it is in order")).into_iter().max();
    assert_eq!((table.len() / 6, height), (859, Some(96)));
    let mut chance = Chance::new(11);
    for size in [1, 2, 10, 100, 1000] {
        let roll = grown_roll(&mut chance, size, 3);
        let input = Annotated { roll, annotation: annotation.clone(), filters: filters.clone() };
        let (shown, reached) = (input.view().tree.len(), rewritten_reaches(&input, &query, &table));
        assert!(size < 100 || (1 < reached && reached < shown && shown < size), "{reached} of {shown} of {size}");
    }
    for (filters, query, number) in [
        (&[&filters[..], &entry(18, 0, 0, 0)].concat(), &query, 7),
        (&filters, &[&query[..], &entry(1, 0, 0, 0)].concat(), 12),
    ] {
        assert_eq!(rewritten(&annotation, filters, query, REWRITE_ROOM), Err(Reply::Refused { number, place: 0 }));
    }
}

#[test]
fn the_smallest_inputs() {
    let input = Annotated { annotation: Vec::new(), filters: Vec::new(), ..Annotated::worked() };
    for kind in [1, 2, 3, 4, 5] {
        let query = entry(kind, 0, 0, 0);
        let table = rewritten(&[], &[], &query, REWRITE_ROOM).expect("it is not refused");
        assert_eq!(table.len() / 6, 60);
        rewritten_reaches(&input, &query, &table);
    }
    assert_eq!(rewritten(&[], &[], &[], REWRITE_ROOM), Err(Reply::Refused { number: 12, place: 0 }));
}

/// Rolls of 4,096 nodes whose nodes with label 2 are hidden: from every visible node a step along each axis, and a few queries besides.
#[test]
fn the_greatest_rolls() {
    let mut chance = Chance::new(12);
    let hiding = Annotated::hiding_label_2();
    let below_root = |at: usize| node(1 + (at % 2) as u8, if at == 0 { NO_PARENT } else { 0 });
    let wide: Vec<u8> = (0..MOST_NODES).flat_map(below_root).collect();
    for roll in [wide, grown_roll(&mut chance, MOST_NODES, 2), grown_roll(&mut chance, MOST_NODES, 3)] {
        let input = Annotated { roll, ..hiding.clone() };
        for text in ["v", "^", ">", "<", "v/v|^/^", ">/>", "[!>]/<", "^/[!v/[#3]]/v"] {
            let query = table_of(text);
            let table = rewritten(&input.annotation, &input.filters, &query, REWRITE_ROOM).expect("it is not refused");
            assert!(rewritten_reaches(&input, &query, &table) > 0 || text == "v/v|^/^");
        }
    }
}
