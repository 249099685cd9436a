//! Times, and tables.

use std::hint::black_box;
use std::time::{Duration, Instant};

use second::Reply;

/// The shortest of several runs, in microseconds: many where they are short, one where they are long.
pub fn least(mut work: impl FnMut() -> Reply) -> f64 {
    let began = Instant::now();
    let mut least = f64::INFINITY;
    let mut runs = 0;
    while runs == 0 || (runs < 200 && began.elapsed() < Duration::from_millis(40)) {
        let start = Instant::now();
        black_box(work());
        least = least.min(start.elapsed().as_nanos() as f64 / 1000.0);
        runs += 1;
    }
    least
}

/// What a batch of runs takes at least, and all batches of one line together at most.
const BATCH: Duration = Duration::from_micros(50);
const LINE: Duration = Duration::from_secs(1);

fn batch(work: &mut dyn FnMut(), runs: u32) -> Duration {
    let start = Instant::now();
    (0..runs).for_each(|_| work());
    start.elapsed()
}

/// The shortest time of a run of each work, in microseconds: in batches that are long enough for the clock, all works in turn.
pub fn in_turn<const N: usize>(mut works: [&mut dyn FnMut(); N]) -> [f64; N] {
    let enough = |work: &mut dyn FnMut()| (0..20).map(|power| 1 << power).find(|runs| batch(work, *runs) >= BATCH);
    let runs = works.each_mut().map(|work| enough(*work).expect("a million runs are enough"));
    let mut least = [f64::INFINITY; N];
    let began = Instant::now();
    while least[0].is_infinite() || began.elapsed() < LINE {
        for (at, work) in works.iter_mut().enumerate() {
            let one = batch(*work, runs[at]).as_nanos() as f64 / 1000.0 / f64::from(runs[at]);
            least[at] = least[at].min(one);
        }
    }
    least
}

pub fn table_of(text: &str) -> Vec<u8> {
    let mut room = vec![0; 1536];
    let Reply::Count(entries) = compare::read_text(text.as_bytes(), &mut room) else { panic!("{text}") };
    room.truncate(6 * entries);
    room
}

pub fn entry(kind: u8, left: usize, right: usize) -> [u8; 6] {
    [kind, 0, (left % 256) as u8, (left / 256) as u8, (right % 256) as u8, (right / 256) as u8]
}
