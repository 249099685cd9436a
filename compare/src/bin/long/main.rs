//! The draws of the tests, from any seed and in any number: `long SEED COUNT [CALL ..]` draws so many inputs of each call, or of those
//! named, among which 8 is printing and 9 the check of content; for COUNT there may stand the numbers of the inputs, FIRST..END. It ends with an error at the first
//! difference between the two programs, which it shows.

use std::ops::Range;
use std::process::ExitCode;
use std::time::Instant;

use compare::draws::{Call, CALLS, INPUTS, LEAST};
use compare::same::PRINTING;
use compare::seen::Seen;

/// Inputs between two lines of progress.
const STRETCH: u64 = 10_000;

/// Draws inputs of one call, says how far it has come, and shows what it has seen. Says whether all is as it should be.
fn run(call: &Call, seed: u64, inputs: &Range<u64>) -> bool {
    let (start, mut seen) = (Instant::now(), Seen::default());
    for first in inputs.clone().step_by(STRETCH as usize) {
        let end = inputs.end.min(first + STRETCH);
        call.draw(seed, first..end, &mut seen);
        println!("call {}: {end} of {} inputs, {:.1} s", call.number, inputs.end, start.elapsed().as_secs_f64());
    }
    // A run shorter than the tests' cannot be asked for every outcome, but for none that is strange.
    let least = if inputs.end - inputs.start < INPUTS { 0 } else { LEAST };
    let amiss = call.amiss(&seen, least);
    print!("{seen}");
    for line in &amiss {
        println!("call {}: {line}", call.number);
    }
    amiss.is_empty()
}

/// The numbers of the inputs: from 0 to a count, or those that are given.
fn numbers(word: &str) -> Option<Range<u64>> {
    match word.split_once("..") {
        Some((first, end)) => Some(first.parse().ok()?..end.parse().ok()?).filter(|range| range.start <= range.end),
        None => Some(0..word.parse().ok()?),
    }
}

/// Seed, inputs and the numbers of calls, none for all.
fn asked(words: &[String]) -> Option<(u64, Range<u64>, Vec<u8>)> {
    let [seed, inputs, calls @ ..] = words else { return None };
    let calls: Option<Vec<u8>> = calls.iter().map(|word| word.parse().ok()).collect();
    let calls = calls.filter(|calls| calls.iter().all(|number| CALLS.iter().any(|call| call.number == *number)))?;
    Some((seed.parse().ok()?, numbers(inputs)?, calls))
}

fn main() -> ExitCode {
    let words: Vec<String> = std::env::args().skip(1).collect();
    let Some((seed, inputs, named)) = asked(&words) else {
        eprintln!("usage: long SEED COUNT|FIRST..END [CALL ..]\ncalls are 1 to 7, and {PRINTING} for printing");
        return ExitCode::from(2);
    };
    let wanted = |call: &&Call| named.is_empty() || named.contains(&call.number);
    let amiss = CALLS.iter().filter(wanted).filter(|call| !run(call, seed, &inputs)).count();
    if amiss == 0 {
        ExitCode::SUCCESS
    } else {
        ExitCode::FAILURE
    }
}
