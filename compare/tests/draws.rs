//! Inputs drawn by chance, at least 50,000 a call, with a fixed seed: both programs agree in all of them, and every refusal that a call can
//! give is among them, of each input that it can speak of, at early places and at late ones.

use compare::draws::{CALLS, INPUTS, LEAST};
use compare::same::{CONTENT, PRINTING};
use compare::seen::Seen;

const SEED: u64 = 1;

fn drawn(call: usize) {
    let call = &CALLS[call - 1];
    let mut seen = Seen::default();
    call.draw(SEED, 0..INPUTS, &mut seen);
    let amiss = call.amiss(&seen, LEAST);
    assert!(amiss.is_empty(), "call {}: {}\n{seen}", call.number, amiss.join("; "));
}

#[test]
fn call_1() {
    drawn(1);
}

#[test]
fn call_2() {
    drawn(2);
}

#[test]
fn call_3() {
    drawn(3);
}

#[test]
fn call_4() {
    drawn(4);
}

#[test]
fn call_5() {
    drawn(5);
}

#[test]
fn call_6() {
    drawn(6);
}

#[test]
fn call_7() {
    drawn(7);
}

#[test]
fn printing() {
    drawn(usize::from(PRINTING));
}

#[test]
fn content() {
    drawn(usize::from(CONTENT));
}
