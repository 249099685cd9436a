//! Query texts that grow by the grammar, but for a label now and then: short, long, deep, and spoilt.

use crate::chance::Chance;

/// Every byte that stands in some query text.
pub const BYTES: &[u8] = b".v^><[]()|/*+&!tf#{}0123456789";

const MOST_BYTES: usize = 1024;

/// All byte strings of this length that consist of such bytes.
pub fn all_of_length(length: u32) -> impl Iterator<Item = Vec<u8>> {
    let text = move |number: usize| (0..length).map(|at| BYTES[number / BYTES.len().pow(at) % BYTES.len()]).collect();
    (0..BYTES.len().pow(length)).map(text)
}

/// A text of any sort; two in three are spoilt.
pub fn some_text(chance: &mut Chance) -> Vec<u8> {
    let mut text = match chance.below(16) {
        0..=7 => short(chance),
        8..=9 => long(chance),
        10..=11 => broad(chance),
        12..=13 => deep(chance),
        14 => [long(chance), b"|".to_vec(), deep(chance)].concat(),
        _ => anything(chance),
    };
    for _ in 0..chance.below(3) {
        spoil(chance, &mut text);
    }
    text
}

fn short(chance: &mut Chance) -> Vec<u8> {
    let mut text = Vec::new();
    path(chance, 6, &mut text);
    text
}

/// Bytes of texts in any order.
fn anything(chance: &mut Chance) -> Vec<u8> {
    let length = chance.below(MOST_BYTES + 80);
    (0..length).map(|_| chance.pick(BYTES)).collect()
}

/// Short texts joined, and in brackets that write no entry, so that many of the long ones are read and some are just too long.
fn long(chance: &mut Chance) -> Vec<u8> {
    let length = chance.pick(&[200, 600, 1000, MOST_BYTES, MOST_BYTES + 1]);
    let brackets = chance.below(31);
    let joint = chance.pick(b"|/");
    let mut text = b"v".to_vec();
    loop {
        let inside = if chance.one_in(4) { short(chance) } else { b"v".to_vec() };
        let unit = nested(brackets, &inside);
        if text.len() + 1 + unit.len() > length {
            break;
        }
        text.push(joint);
        text.extend(unit);
    }
    let stars = (length - text.len()).min(chance.pick(&[0, 1, 3, 1000]));
    text.extend(b"*".repeat(stars));
    text
}

/// Items joined in groups, so that the table has about as many entries as it may have and no great height.
fn broad(chance: &mut Chance) -> Vec<u8> {
    let (items, group) = (100 + chance.below(33), 8 + chance.below(12));
    let mut text = Vec::new();
    for item in 0..items {
        if item > 0 {
            text.push(if item % group == 0 { b'|' } else { b'/' });
        }
        let item: &[u8] = chance.pick(&[b".", b"v", b"^", b">", b"<", b"(v)", b"((v))", b"[t]", b"v*"]);
        text.extend(item);
    }
    text
}

/// As many brackets as may be open, one more or less, or a few more, with a short text inside.
fn deep(chance: &mut Chance) -> Vec<u8> {
    let inside = if chance.one_in(2) { short(chance) } else { b"v".to_vec() };
    if chance.one_in(3) {
        return mixed(chance, &inside);
    }
    let brackets = chance.pick(&[20, 31, 32, 32, 33, 33, 40]);
    nested(brackets, &inside)
}

/// A text in so many round brackets.
fn nested(brackets: usize, inside: &[u8]) -> Vec<u8> {
    [&b"(".repeat(brackets), inside, &b")".repeat(brackets)].concat()
}

/// A text in brackets of all sorts, opened and closed in turn.
fn mixed(chance: &mut Chance, inside: &[u8]) -> Vec<u8> {
    let (mut open, mut close, mut in_filter) = (Vec::new(), Vec::new(), false);
    for _ in 0..chance.pick(&[10, 31, 32, 33, 36]) {
        let sorts: &[(u8, u8)] =
            if in_filter { &[(b'{', b'}'), (b'{', b'}'), (b'(', b')')] } else { &[(b'(', b')'), (b'[', b']')] };
        let (opening, closing) = chance.pick(sorts);
        in_filter = opening != b'(';
        open.push(opening);
        close.insert(0, closing);
    }
    [&open, inside, &close].concat()
}

/// A byte changed, struck out or put in; half of the time among the last.
fn spoil(chance: &mut Chance, text: &mut Vec<u8>) {
    if text.is_empty() || chance.one_in(40) {
        return text.clear();
    }
    let late = if chance.one_in(2) { text.len() } else { text.len().min(12) };
    let at = text.len() - 1 - chance.below(late);
    let byte = if chance.one_in(8) { chance.below(256) as u8 } else { chance.pick(BYTES) };
    match chance.below(4) {
        0 => text[at] = byte,
        1 => drop(text.remove(at)),
        2 => text.insert(at, byte),
        _ => text.truncate(at),
    }
}

fn path(chance: &mut Chance, depth: usize, out: &mut Vec<u8>) {
    for more in 0..=chance.below(3) {
        if more > 0 {
            out.push(chance.pick(b"|/"));
        }
        match chance.below(if depth == 0 { 5 } else { 7 }) {
            plain @ 0..=4 => out.push(b".v^><"[plain]),
            5 => bracketed(chance, depth, b'[', b']', filter, out),
            _ => bracketed(chance, depth, b'(', b')', path, out),
        }
        // Two in a row are refused, so they are rare.
        let stars = if chance.one_in(64) { 2 } else { chance.below(2) };
        out.extend(b"*".repeat(stars));
    }
}

fn filter(chance: &mut Chance, depth: usize, out: &mut Vec<u8>) {
    for more in 0..=chance.below(2) {
        if more > 0 {
            out.push(chance.pick(b"+&"));
        }
        out.extend(b"!".repeat(chance.below(2)));
        match chance.below(if depth == 0 { 4 } else { 5 }) {
            0 => out.push(b't'),
            1 => out.push(b'f'),
            2 => out.extend(format!("#{}", label(chance)).bytes()),
            3 => path(chance, depth.saturating_sub(1), out),
            _ => bracketed(chance, depth, b'{', b'}', filter, out),
        }
    }
}

/// A label; one in sixteen is none, or has a digit too many.
fn label(chance: &mut Chance) -> String {
    if chance.one_in(16) {
        chance.pick(&["", "0", "01", "064", "65", "66", "70", "99", "100", "640"]).to_string()
    } else {
        (1 + chance.below(64)).to_string()
    }
}

type Grow = fn(&mut Chance, usize, &mut Vec<u8>);

fn bracketed(chance: &mut Chance, depth: usize, open: u8, close: u8, grow: Grow, out: &mut Vec<u8>) {
    out.push(open);
    grow(chance, depth - 1, out);
    out.push(close);
}
