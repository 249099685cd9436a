//! The checks of rolls and tables and the reading of texts, for each byte or entry.

use std::hint::black_box;
use std::time::Instant;

use second::Reply;

/// The shortest of several rounds of each, in turn, in nanoseconds for each unit of the input.
fn for_each_unit<A, B>(units: usize, mut proved: impl FnMut() -> A, mut second: impl FnMut() -> B) -> (f64, f64) {
    let mut least = (f64::INFINITY, f64::INFINITY);
    for _ in 0..40 {
        least = (least.0.min(round(units, &mut proved)), least.1.min(round(units, &mut second)));
    }
    least
}

fn round<A>(units: usize, work: &mut impl FnMut() -> A) -> f64 {
    let start = Instant::now();
    for _ in 0..100 {
        black_box(work());
    }
    start.elapsed().as_nanos() as f64 / 100.0 / units as f64
}

fn head(work: &str, size: &str) {
    println!("{work:<38}{size:>8}{:>10}{:>12}{:>12}{:>8}", "reply", "proved", "second", "ratio");
}

fn line(name: &str, size: usize, reply: Reply, (proved, second): (f64, f64)) {
    let reply = reply.to_string();
    println!("{name:<38}{size:>8}{reply:>10}{proved:>10.2}ns{second:>10.2}ns{:>8.2}", proved / second);
}

pub fn checking_rolls() {
    let node = |i: usize, parent: usize| {
        let parent = if i == 0 { 65_535 } else { parent };
        [1u8, 0, (parent % 256) as u8, (parent / 256) as u8]
    };
    let chain: Vec<u8> = (0..4096).flat_map(|i| node(i, i.wrapping_sub(1))).collect();
    let wide: Vec<u8> = (0..4096).flat_map(|i| node(i, 0)).collect();
    let comb: Vec<u8> = (0..4096).flat_map(|i| node(i, if i % 2 == 0 { i.saturating_sub(2) } else { i - 1 })).collect();
    head("checking a roll, for each byte", "bytes");
    for (name, roll) in [("one chain", chain), ("all under one root", wide), ("a comb", comb)] {
        let proved = || compare::check_roll(black_box(&roll));
        let second = || second::check_roll(black_box(&roll));
        line(name, roll.len(), compare::check_roll(&roll), for_each_unit(roll.len(), proved, second));
    }
}

fn read(text: &[u8]) -> Reply {
    compare::read_text(text, &mut [0; 1536])
}

fn accepted(text: &[u8]) -> bool {
    matches!(read(text), Reply::Count(_))
}

/// The longest text of these units, joined, that has at most so many bytes and is read.
fn longest(unit: &str, joint: &str, bytes: usize) -> Vec<u8> {
    let mut text = unit.as_bytes().to_vec();
    loop {
        let longer = [&text, joint.as_bytes(), unit.as_bytes()].concat();
        if longer.len() > bytes || !accepted(&longer) {
            return text;
        }
        text = longer;
    }
}

/// Texts that are read, of several shapes: as long as their tables' limits, or so many bytes, allow.
fn shapes(bytes: usize) -> Vec<(&'static str, Vec<u8>)> {
    let nested = |open: &str, close: &str, times: usize| format!("{}v{}", open.repeat(times), close.repeat(times));
    vec![
        ("sequences", longest(&["v"; 16].join("/"), "|", bytes)),
        ("labels", longest(&["[#64&#10+#7]"; 4].join("/"), "|", bytes)),
        ("stars, 15 upon one another", longest(&format!("{}*", nested("(", "*)", 14)), "|", bytes)),
        ("round brackets, 32 deep", longest(&nested("(", ")", 32), "|", bytes)),
        ("square brackets, 7 deep", longest(&nested("[", "]", 7), "|", bytes)),
        ("curly brackets, 32 deep", longest(&format!("[{}]", nested("{", "}", 31)), "|", bytes)),
        ("nots, 15 in a row", longest(&format!("[{}t]", "!".repeat(15)), "|", bytes)),
        ("v/[!v/[#4]]", longest("v/[!v/[#4]]", "|", bytes)),
    ]
}

fn time_reading(text: &[u8]) -> (f64, f64) {
    let (mut ours, mut theirs) = ([0u8; 1536], [0u8; 1536]);
    let proved = || compare::read_text(black_box(text), &mut ours);
    let second = || second::read_text(black_box(text), &mut theirs);
    for_each_unit(text.len(), proved, second)
}

pub fn reading_texts() {
    head("reading a text, for each byte", "bytes");
    let short = ["v", "v/v", "v*/[#5]"].map(|text| (text, text.as_bytes().to_vec())).to_vec();
    let mut seen = Vec::new();
    let mut slowest = 0.0f64;
    for (name, text) in short.into_iter().chain(shapes(64)).chain(shapes(256)).chain(shapes(1024)) {
        if seen.contains(&text) {
            continue;
        }
        let times = time_reading(&text);
        slowest = slowest.max(times.0 / times.1);
        line(name, text.len(), read(&text), times);
        seen.push(text);
    }
    println!("the slowest of these: {slowest:.2} of the second program's time");
    head("reading a text that is refused", "bytes");
    let starred = format!("v{}", "*".repeat(1023));
    let refused = [["v"; 512].join("/"), "(".repeat(1024), format!("{}/", ["v"; 512].join("|")), starred];
    for text in refused {
        line(&format!("{}..", &text[..8]), text.len(), read(text.as_bytes()), time_reading(text.as_bytes()));
    }
}

/// A table of stars upon stars, or of steps that are joined one by one, as high as it may be and begun anew.
fn tall(entries: usize, joined: bool) -> Vec<u8> {
    let child = [2, 0, 0, 0, 0, 0];
    let over = |kind: u8, left: usize, right: usize| {
        [kind, 0, (left % 256) as u8, (left / 256) as u8, (right % 256) as u8, (right / 256) as u8]
    };
    let entry = |i: usize| match (i % if joined { 255 } else { 128 }, joined) {
        (0, _) => child,
        (_, false) => over(9, i - 1, 0),
        (place, true) if place % 2 == 1 => child,
        (_, true) => over(7, i - 2, i - 1),
    };
    (0..entries).flat_map(entry).collect()
}

/// The table with a filter behind it or, where it is full, for its last entry. Call 3 refuses it when it has checked all of it, so that on
/// a roll of one record the time is that of the check.
fn refused_at_its_end(mut table: Vec<u8>) -> Vec<u8> {
    table.truncate(6 * 1023);
    table.extend([18, 0, 0, 0, 0, 0]);
    table
}

pub fn checking_tables() {
    let (root, mut room) = ([1, 0, 255, 255], [0; 512]);
    head("checking a query table, for each entry", "entries");
    let of_texts = shapes(256).into_iter().filter_map(|(name, text)| {
        let mut room = vec![0; 1536];
        let Reply::Count(entries) = compare::read_text(&text, &mut room) else { return None };
        room.truncate(6 * entries);
        (entries > 16).then_some((name, room))
    });
    let greatest = [("stars, 128 high", tall(1024, false)), ("sequences, 128 high", tall(1020, true))];
    let mut slowest = 0.0f64;
    for (name, table) in of_texts.chain(greatest) {
        let table = refused_at_its_end(table);
        let proved = || compare::answer_on_roll(&root, black_box(&table), &mut [0; 512]);
        let second = || second::answer_on_roll(&root, black_box(&table), &mut [0; 512]);
        let times = for_each_unit(table.len() / 6, proved, second);
        slowest = slowest.max(times.0);
        line(name, table.len() / 6, compare::answer_on_roll(&root, &table, &mut room), times);
    }
    println!("the slowest of these: {slowest:.2} ns for each entry");
}
