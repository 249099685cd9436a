//! What a run of draws has seen: how often each outcome came, so that a draw that no longer reaches one of them shows.

use std::collections::BTreeMap;
use std::fmt;

use second::Reply;

/// An outcome of a call: a refusal's number, or 0 for none, and which input it speaks of or what the answer is like.
pub type Kind = (u8, &'static str);

/// How often each outcome came.
#[derive(Default)]
pub struct Seen(BTreeMap<Kind, usize>);

impl Seen {
    pub fn note(&mut self, number: u8, of: &'static str) {
        *self.0.entry((number, of)).or_default() += 1;
    }

    /// An outcome at a place that is early or, from this one on, late.
    pub fn note_place(&mut self, number: u8, place: usize, from: usize, [early, late]: [&'static str; 2]) {
        self.note(number, if place < from { early } else { late });
    }

    /// The outcomes that came less often than they should, and those that should not come at all.
    pub fn amiss(&self, expected: &[Kind], least: usize) -> Vec<String> {
        let times = |kind: &Kind| self.0.get(kind).copied().unwrap_or(0);
        let rare = expected.iter().filter(|kind| times(kind) < least);
        let rare = rare.map(|kind| format!("{} {}: only {} times", kind.0, kind.1, times(kind)));
        let strange = self.0.keys().filter(|kind| !expected.contains(kind));
        rare.chain(strange.map(|kind| format!("{} {}: not expected", kind.0, kind.1))).collect()
    }
}

impl fmt::Display for Seen {
    fn fmt(&self, out: &mut fmt::Formatter) -> fmt::Result {
        for ((number, of), times) in &self.0 {
            writeln!(out, "{number:>6} {of:<40}{times:>10}")?;
        }
        Ok(())
    }
}

/// The count, or the number and place of a refusal.
pub fn outcome(reply: Reply) -> Result<usize, (u8, usize)> {
    match reply {
        Reply::Count(count) => Ok(count),
        Reply::Refused { number, place } => Err((number, place)),
    }
}
