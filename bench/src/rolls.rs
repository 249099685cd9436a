//! Rolls of four shapes.

/// A roll from each record's parent; inner nodes have label 1, leaves 5.
fn roll(parents: &[usize]) -> Vec<u8> {
    let leaf = |i: usize| parents.get(i + 1) != Some(&i);
    let label = |i: usize| if leaf(i) { 5 } else { 1 };
    bytes(parents.iter().enumerate().map(|(i, parent)| (label(i), *parent)))
}

fn bytes(nodes: impl Iterator<Item = (u8, usize)>) -> Vec<u8> {
    nodes.flat_map(|(label, parent)| [label, 0, (parent % 256) as u8, (parent / 256) as u8]).collect()
}

const NO_PARENT: usize = 65_535;

fn chain(size: usize) -> Vec<u8> {
    roll(&(0..size).map(|i| i.checked_sub(1).unwrap_or(NO_PARENT)).collect::<Vec<_>>())
}

fn wide(size: usize) -> Vec<u8> {
    roll(&(0..size).map(|i| if i == 0 { NO_PARENT } else { 0 }).collect::<Vec<_>>())
}

/// The parent of a record is the one before it, or above that one by chance.
fn random(size: usize, seed: u64) -> Vec<u8> {
    let mut parents = vec![NO_PARENT];
    let mut chance = seed;
    while parents.len() < size {
        let mut parent = parents.len() - 1;
        loop {
            chance = chance.wrapping_mul(6_364_136_223_846_793_005).wrapping_add(1_442_695_040_888_963_407);
            if parent == 0 || chance >> 63 == 0 {
                break;
            }
            parent = parents[parent];
        }
        parents.push(parent);
    }
    roll(&parents)
}

/// Labels as document 01 has them, and 3 for lines: cases, in each a seal, a draft and a checked reading, in these lines of words, every
/// third word with a tick. That is six levels.
fn court(size: usize) -> Vec<u8> {
    let mut nodes = vec![(1, NO_PARENT)];
    let mut put = |label: u8, parent: usize| {
        nodes.push((label, parent));
        nodes.len() - 1
    };
    let mut last = 0;
    while last < size {
        let case = put(2, 0);
        put(6, case);
        for reading in [4, 7] {
            let reading = put(reading, case);
            for _ in 0..3 {
                let line = put(3, reading);
                for word in 0..9 {
                    last = put(5, line);
                    if word % 3 == 0 {
                        put(8, last);
                    }
                }
            }
        }
    }
    bytes(nodes.into_iter().take(size))
}

/// Each shape with as many nodes; the seed tells random rolls apart.
pub fn shapes(size: usize, seed: u64) -> [(&'static str, Vec<u8>); 4] {
    [("one chain", chain(size)), ("one root", wide(size)), ("court", court(size)), ("random", random(size, seed))]
}

pub const SEED: u64 = 0x5eed;

/// Eight rolls of 512 nodes, of the shape at a place in the list of shapes.
pub fn small_rolls(shape: usize) -> Vec<Vec<u8>> {
    (0..8).map(|roll| shapes(512, SEED + roll)[shape].1.clone()).collect()
}
