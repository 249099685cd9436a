//! Call 6 on rolls of 4,096 nodes, beside call 4 and then call 3 on the view, and beside the second program.

use std::hint::black_box;

use second::Reply;

use crate::hidden::{drafts, hiding, shares, Annotated};
use crate::rolls::{shapes, small_rolls, SEED};
use crate::tools::{least, table_of};

const QUERIES: [&str; 6] = ["v", "v/v", "v*/[#5]", "v/>", "v*/^", "v/[!v/[#4]]"];

fn head(work: &str) {
    let [reply, call, cut, second] = ["reply", "call 6", "4, then 3", "second"];
    println!(
        "{work:<38}{:>12}{reply:>8}{call:>14}{cut:>12}{:>10}{second:>12}{:>10}{:>8}",
        "roll", "ratio", "ratio", "growth"
    );
}

fn proved(input: &Annotated, query: &[u8]) -> Reply {
    compare::curators_answer(black_box(&input.roll), &input.annotation, &input.filters, query, &mut [0; 512])
}

/// The same answer through the view that is cut out.
fn through_view(input: &Annotated, query: &[u8]) -> Reply {
    let mut view = [0; 4 * 4096];
    match compare::cut_view(black_box(&input.roll), &input.annotation, &input.filters, &mut view) {
        Reply::Count(nodes) => compare::answer_on_roll(&view[..4 * nodes], query, &mut [0; 512]),
        refused => refused,
    }
}

fn second(input: &Annotated, query: &[u8]) -> Reply {
    second::curators_answer(black_box(&input.roll), &input.annotation, &input.filters, query, &mut [0; 512])
}

/// Where the times on a small roll say that the large one could take more than twenty seconds, or the second program more than four, it
/// is left out.
fn line(name: &str, shape: &str, small: &[Annotated], large: &Annotated, text: &str) {
    let query = table_of(text);
    print!("{name:<38}{shape:>12}");
    let alone = least(|| proved(&small[0], &query));
    if alone * 64.0 > 2e7 {
        return println!("{:>8}{:>14}: {alone:.0}µs on 512 nodes", "-", "too long");
    }
    let in_turn = least(|| small.iter().map(|roll| proved(roll, &query)).last().expect("there are rolls"));
    let mut reply = Reply::Count(0);
    let ours = least(|| {
        reply = proved(large, &query);
        reply
    });
    let cut = least(|| through_view(large, &query));
    print!("{:>8}{ours:>12.1}µs{cut:>10.1}µs{:>10.2}", reply.to_string(), ours / cut);
    let square = (large.roll.len() / small[0].roll.len()).pow(2) as f64;
    if least(|| second(&small[0], &query)) * square < 4e6 {
        let theirs = least(|| second(large, &query));
        print!("{theirs:>10.0}µs{:>10.3}", ours / theirs);
    } else {
        print!("{:>12}{:>10}", "too long", "-");
    }
    println!("{:>8.1}", ours / in_turn * small.len() as f64);
}

pub fn answering() {
    head("curator's answer on 4,096; growth: of 512");
    for percent in [0, 5, 50, 95] {
        for (at, (shape, _)) in shapes(1, SEED).into_iter().enumerate() {
            let (large, small) = shares(at, percent);
            for text in QUERIES {
                line(&format!("{text}, {percent} per cent hidden"), shape, &small, &large, text);
            }
        }
    }
}

/// Document 01's annotation on the court roll.
pub fn on_court() {
    head("curator's answer, drafts hidden");
    let large = drafts(shapes(4096, SEED)[2].1.clone());
    let small: Vec<Annotated> = small_rolls(2).into_iter().map(drafts).collect();
    for text in QUERIES.into_iter().chain(["v/v/v/v", "v*/>", "v*/<", "v*/[!v/[#4]]", "v*/[!<]/>*"]) {
        line(text, "court", &small, &large, text);
    }
}

/// A step sideways over a run of hidden nodes: on the large roll 2,000 of them, on the small one 250.
pub fn over_hidden_runs() {
    head("a step over 2,000 hidden nodes");
    let middle = |roll: Vec<u8>| {
        let run = roll.len() / 4 * 2000 / 4096;
        let first = roll.len() / 8 - run / 2;
        hiding(roll, |at| (first..first + run).contains(&at))
    };
    for (at, (shape, large)) in shapes(4096, SEED).into_iter().enumerate() {
        let small: Vec<Annotated> = small_rolls(at).into_iter().map(middle).collect();
        for text in ["v/>", "v/<", "v*/>", "v*/<", "v*/v", "v*/^"] {
            line(text, shape, &small, &middle(large.clone()), text);
        }
    }
}
