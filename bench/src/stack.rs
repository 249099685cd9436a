//! How much stack calls 3, 4 and 6, printing and the check of content take on the highest tables that are accepted.

use std::hint::black_box;

use second::table::{read_query, CURATORS_QUERY};
use second::Reply;

use crate::hidden::Annotated;

const PAINT: u8 = 0xC5;
const DEEP: usize = 4 << 20;
/// What lies right below the frame that paints is left alone: the calls that paint use it.
const NEAR: usize = 4096;

/// The bytes of stack that the work changes below the frame of its caller, on a thread whose stack is painted first.
fn taken(work: impl FnOnce() + Send) -> usize {
    let measured = move || {
        let here = 0u8;
        let here = black_box(&raw const here).addr();
        let below = (here - DEEP)..(here - NEAR);
        // SAFETY: the thread's stack is twice as deep as what is painted, and nothing lives below this frame yet.
        below.clone().for_each(|at| unsafe { (at as *mut u8).write_volatile(PAINT) });
        work();
        // SAFETY: the same bytes are read.
        let lowest = below.clone().find(|at| unsafe { (*at as *const u8).read_volatile() } != PAINT);
        here - lowest.unwrap_or(here - NEAR)
    };
    std::thread::scope(|scope| {
        let thread = std::thread::Builder::new().stack_size(2 * DEEP).spawn_scoped(scope, measured);
        thread.expect("a thread starts").join().expect("it ends")
    })
}

fn entry(kind: u8, left: usize, right: usize) -> [u8; 6] {
    [kind, 0, left as u8, 0, right as u8, 0]
}

/// A composition with entry 0 upon entry 0 at first, then upon the star before it, and stars of these in turn.
fn star_or_then(at: usize) -> [u8; 6] {
    let below = if at == 2 { 0 } else { at - 1 };
    if at % 2 == 0 {
        entry(7, below, 0)
    } else {
        entry(9, below, 0)
    }
}

/// Tables of one entry more than their height: entry 0 is a path, entry 1 a filter, and each of those above has the one before it as an
/// operand. The last entry is a path.
fn towers(path: [u8; 6], filter: [u8; 6], height: usize) -> [(&'static str, Vec<u8>); 10] {
    let tower = |next: &dyn Fn(usize) -> [u8; 6]| {
        [path, filter].into_iter().chain((2..height + 1).map(next)).flatten().collect()
    };
    let paths = |next: &dyn Fn(usize) -> [u8; 6]| tower(&|at| next(if at == 2 { 0 } else { at - 1 }));
    let filters = |next: &dyn Fn(usize) -> [u8; 6]| {
        tower(&|at| if at == height { entry(6, height - 1, 0) } else { next(at - 1) })
    };
    [
        ("stars", paths(&|below| entry(9, below, 0))),
        ("stars of left, then right", tower(&star_or_then)),
        ("left, then right: left", paths(&|below| entry(7, below, 0))),
        ("left, then right: right", paths(&|below| entry(7, 0, below))),
        ("left or right: left", paths(&|below| entry(8, below, 0))),
        ("left or right: right", paths(&|below| entry(8, 0, below))),
        ("not", filters(&|below| entry(20, below, 0))),
        ("and: right", filters(&|below| entry(21, 1, below))),
        ("or: left", filters(&|below| entry(22, below, 1))),
        ("stay and lead in turn", tower(&|at| entry(if at % 2 == 0 { 6 } else { 17 }, at - 1, 0))),
    ]
}

/// Stars of a step and a filter, in this order or the other, so many inside one another: each filter asks whether the star before it leads
/// somewhere. The step leads down or along another axis. The last entry is such a filter, and the one before it a star.
fn filtered_stars(many: usize, axis: u8, filter_first: bool) -> Vec<u8> {
    let mut table = vec![entry(2, 0, 0), entry(axis, 0, 0), entry(8, 0, 1), entry(18, 0, 0)];
    for filter in (0..many).map(|star| 3 + 4 * star) {
        let stay = filter + 1;
        let (left, right) = if filter_first { (stay, 2) } else { (2, stay) };
        table.extend([entry(6, filter, 0), entry(7, left, right), entry(9, filter + 2, 0), entry(17, filter + 3, 0)]);
    }
    table.concat()
}

fn stack_line(name: &str, work: impl FnOnce() -> Reply + Send) {
    let mut reply = Reply::Count(0);
    let bytes = taken(|| reply = work());
    println!("{name:<38}{bytes:>12}{:>8}", reply.to_string());
}

fn answer_line(name: &str, roll: &[u8], table: &[u8]) {
    stack_line(name, || compare::answer_on_roll(roll, table, &mut [0; 512]));
}

pub fn stack() {
    println!("{:<38}{:>12}{:>8}", "stack, on tables 128 high", "bytes", "reply");
    let alone = ("one entry alone", vec![1, 0, 0, 0, 0, 0]);
    for (name, table) in [alone].into_iter().chain(towers(entry(1, 0, 0), entry(18, 0, 0), 128)) {
        answer_line(name, &[1, 0, 255, 255], &table);
    }
    let two = [1, 0, 255, 255, 1, 0, 0, 0];
    for (name, filter_first) in [("stars of a step and a filter", false), ("stars of a filter and a step", true)] {
        let table = filtered_stars(31, 3, filter_first);
        answer_line(name, &two, &table[..table.len() - 6]);
    }
}

/// Rules 32 high: each entry upon the one before it, in one way or in two by turns, and a root with one child whose label has the last of them.
/// Rule entries so high, of two kinds in turn, each upon the one before and entry 0, which is a label.
fn rule_tower(kinds: [u8; 2], height: usize) -> Vec<[u8; 6]> {
    let above = (0..height - 1).map(|below| entry(kinds[below % 2], below, 0));
    [[33, 2, 0, 0, 0, 0]].into_iter().chain(above).collect()
}

/// The same behind 32 stars, all in one star, which leave no set for those of the tower.
fn behind_stars(kinds: [u8; 2]) -> Vec<[u8; 6]> {
    let mut rules = rule_tower(kinds, 30);
    rules.push(entry(36, 0, 0));
    (30..35).for_each(|half| rules.push(entry(34, half, half)));
    rules.extend([entry(34, 35, 29), entry(36, 36, 0)]);
    rules
}

pub fn content_stack() {
    println!("{:<38}{:>12}{:>8}", "stack of the check of content", "bytes", "reply");
    let roll = [1, 0, 255, 255, 2, 0, 0, 0];
    let rules = [
        ("in turn", rule_tower([34, 34], 32)),
        ("either", rule_tower([35, 35], 32)),
        ("stars", rule_tower([36, 36], 32)),
        ("stars of either", rule_tower([35, 36], 32)),
        ("stars behind 32 stars", behind_stars([36, 36])),
        ("stars of either behind 32 stars", behind_stars([35, 36])),
    ];
    for (name, rules) in rules {
        let list = [1, 0, (rules.len() - 1) as u8, 0];
        stack_line(name, || compare::check_content(&roll, &rules.concat(), &list));
    }
}

pub fn printing_stack() {
    println!("{:<38}{:>12}{:>8}", "stack of printing, on tables 32 high", "bytes", "reply");
    let mut room = [0; 1024];
    for (name, table) in towers(entry(1, 0, 0), entry(18, 0, 0), 32) {
        stack_line(name, || compare::print_query(&table, &mut room));
    }
}

/// A root with three children, each with one of its own. The root's children have the pair of the last of 32 records, so that all records
/// are gone through and the filter of the last one, which is 16 high, is asked.
fn annotated(tower: Vec<u8>) -> Annotated {
    let last = tower.len() / 6 - 1;
    Annotated {
        roll: [
            [1, 0, 255, 255],
            [32, 0, 0, 0],
            [33, 0, 1, 0],
            [32, 0, 0, 0],
            [33, 0, 3, 0],
            [32, 0, 0, 0],
            [33, 0, 5, 0],
        ]
        .concat(),
        annotation: (1..33).flat_map(|child| [1, child, last as u8, 0, 0, 0]).collect(),
        filters: tower,
    }
}

/// Filters 16 high, of each sort, that hold at the children.
fn filters() -> Vec<Annotated> {
    let towers = towers(entry(1, 0, 0), entry(18, 0, 0), 14).into_iter();
    let ending = [entry(17, 14, 0), entry(22, 15, 1)].concat();
    towers.map(|(_, tower)| annotated([tower, ending.clone()].concat())).collect()
}

/// Queries 32 high, of each sort, upon a step that is taken from the root's children.
fn queries(step: u8) -> Vec<(&'static str, Vec<u8>)> {
    let towers = towers(entry(step, 0, 0), entry(17, 0, 0), 30).into_iter();
    // Those of paths have one more star, since they are not raised by the filter at the bottom.
    let endings =
        [[entry(2, 0, 0), entry(9, 30, 0), entry(7, 31, 32)], [entry(1, 0, 0), entry(2, 0, 0), entry(7, 32, 30)]];
    let ended = |tower: Vec<u8>| endings.map(|ending| [tower.clone(), ending.concat()].concat());
    let accepted = |table: &Vec<u8>| read_query(table, CURATORS_QUERY).is_ok();
    towers.map(|(name, tower)| (name, ended(tower).into_iter().find(accepted).expect("one is accepted"))).collect()
}

/// Stars of a step and a filter inside one another, 29 high.
fn filtered_query(axis: u8) -> (&'static str, Vec<u8>) {
    let table = filtered_stars(7, axis, false);
    ("stars of a step and a filter", table[..table.len() - 6].to_vec())
}

/// What call 6 takes with a filter.
fn curators(input: &Annotated, query: &[u8]) -> usize {
    let Annotated { roll, annotation, filters } = input;
    let answer = || compare::curators_answer(roll, annotation, filters, query, &mut [0; 512]);
    taken(|| assert!(matches!(answer(), Reply::Count(_))))
}

/// What call 4 takes with a filter.
fn cutting(input: &Annotated) -> usize {
    let Annotated { roll, annotation, filters } = input;
    let mut room = vec![0; roll.len()];
    taken(|| assert!(matches!(compare::cut_view(roll, annotation, filters, &mut room), Reply::Count(_))))
}

/// For each axis the query that takes most, with the filter with which it does.
pub fn curators_stack() {
    println!("{:<38}{:>12}", "stack of calls 4 and 6, on tables 32 high", "bytes");
    let mut inputs = filters();
    inputs.push(annotated(filtered_stars(3, 3, false)));
    println!("{:<38}{:>12}", "call 4, filters 16 high", inputs.iter().map(cutting).max().expect("there are filters"));
    for (axis, step) in [("child", 2), ("parent", 3), ("next", 4), ("previous", 5)] {
        let most = |query: &[u8]| inputs.iter().map(|input| curators(input, query)).max();
        let taken = queries(step).into_iter().chain([filtered_query(step)]).map(|(name, query)| (most(&query), name));
        let (Some(bytes), name) = taken.max().expect("there are queries") else { panic!("there are filters") };
        println!("{:<38}{bytes:>12}", format!("upon {axis}: {name}"));
    }
}
