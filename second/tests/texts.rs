//! Query texts against the grammar of document 01, tried out split by split, and document 02's rule on stars.

mod common;

use std::collections::HashMap;

use common::*;
use second::calls::TEXT_ROOM;
use second::Reply;

/// The grammar's definitions.
#[derive(Clone, Copy, PartialEq, Eq, Hash)]
enum Sort {
    Path,
    Sequence,
    Item,
    Atom,
    Filter,
    Conjunction,
    Term,
    Label,
}

/// Whether a part is a word of its sort to the end, or only begins one.
#[derive(Clone, Copy, PartialEq, Eq, Hash)]
enum Extent {
    Whole,
    Beginning,
}

use Extent::*;
use Sort::*;

/// Document 01's definitions word by word. "Begins" follows from them: a word of two parts begins with the beginning
/// of its first part, or with its whole first part and the beginning of its second.
#[derive(Default)]
struct Grammar {
    known: HashMap<(Sort, Extent, Vec<u8>), bool>,
}

impl Grammar {
    fn is(&mut self, sort: Sort, extent: Extent, text: &[u8]) -> bool {
        if text.is_empty() {
            return extent == Beginning;
        }
        let question = (sort, extent, text.to_vec());
        if let Some(known) = self.known.get(&question) {
            return *known;
        }
        let answer = match sort {
            Path => self.joined(Path, b'|', Sequence, extent, text),
            Sequence => self.joined(Sequence, b'/', Item, extent, text),
            Item => {
                self.is(Atom, extent, text) || text.ends_with(b"*") && self.is(Item, Whole, &text[..text.len() - 1])
            }
            Atom => self.is_atom(extent, text),
            Filter => self.joined(Filter, b'+', Conjunction, extent, text),
            Conjunction => self.joined(Conjunction, b'&', Term, extent, text),
            Term => self.is_term(extent, text),
            Label => (1..=64).map(|label: u8| label.to_string()).any(|label| agrees(extent, text, label.as_bytes())),
        };
        self.known.insert(question, answer);
        answer
    }

    /// Parts of one sort joined by an operator: one part alone, or some already joined and one more.
    fn joined(&mut self, joined: Sort, operator: u8, part: Sort, extent: Extent, text: &[u8]) -> bool {
        self.is(part, extent, text)
            || (0..text.len()).any(|at| {
                text[at] == operator && self.is(joined, Whole, &text[..at]) && self.is(part, extent, &text[at + 1..])
            })
    }

    fn is_atom(&mut self, extent: Extent, text: &[u8]) -> bool {
        matches!(text, b"." | b"v" | b"^" | b">" | b"<")
            || self.is_bracketed(b'[', Filter, b']', extent, text)
            || self.is_bracketed(b'(', Path, b')', extent, text)
    }

    fn is_term(&mut self, extent: Extent, text: &[u8]) -> bool {
        matches!(text, b"t" | b"f")
            || text[0] == b'!' && self.is(Term, extent, &text[1..])
            || text[0] == b'#' && self.is(Label, extent, &text[1..])
            || self.is_bracketed(b'{', Filter, b'}', extent, text)
            || self.is(Path, extent, text)
    }

    fn is_bracketed(&mut self, open: u8, inside: Sort, close: u8, extent: Extent, text: &[u8]) -> bool {
        let unclosed = |grammar: &mut Grammar| extent == Beginning && grammar.is(inside, Beginning, &text[1..]);
        let closed = |grammar: &mut Grammar| {
            text.len() > 1 && text[text.len() - 1] == close && grammar.is(inside, Whole, &text[1..text.len() - 1])
        };
        text[0] == open && (unclosed(self) || closed(self))
    }

    /// The place of 14; nothing if the text is in the grammar.
    fn place_of_14(&mut self, text: &[u8]) -> Option<usize> {
        let out_of_place = (0..text.len()).find(|place| !self.is(Path, Beginning, &text[..=*place]));
        out_of_place.or_else(|| (!self.is(Path, Whole, text)).then_some(text.len()))
    }
}

fn agrees(extent: Extent, text: &[u8], word: &[u8]) -> bool {
    match extent {
        Whole => text == word,
        Beginning => word.starts_with(text),
    }
}

fn reply(text: &[u8]) -> Reply {
    second::read_text(text, &mut [0; TEXT_ROOM])
}

/// The place of 19: the first star right behind a star, whatever else the text is.
fn place_of_19(text: &[u8]) -> Option<usize> {
    text.windows(2).position(|pair| pair == b"**").map(|first| first + 1)
}

/// Checks that a text is refused with 14 at this place or with 19, whichever is lower, or is read if there is neither. Gives the number.
fn check_reply(text: &[u8], place_of_14: Option<usize>) -> Option<u8> {
    let places = [(14, place_of_14), (19, place_of_19(text))];
    let lowest = places.into_iter().filter_map(|(number, place)| Some((place?, number))).min();
    match lowest {
        Some((place, number)) => assert_eq!(reply(text), refused(number, place), "{}", String::from_utf8_lossy(text)),
        None => assert!(matches!(reply(text), Reply::Count(_)), "{}", String::from_utf8_lossy(text)),
    }
    lowest.map(|(_, number)| number)
}

#[test]
fn every_text_of_up_to_three_bytes_is_judged_as_the_grammar_says() {
    let mut grammar = Grammar::default();
    let mut accepted = [0; 3];
    for text in (1..=3).flat_map(|length| all_texts(BYTES, length)) {
        let number = check_reply(&text, grammar.place_of_14(&text));
        accepted[text.len() - 1] += usize::from(number.is_none());
    }
    // Atoms; an atom and `*`; two atoms and an operator, and `(a)`, `[a]`, `[t]`, `[f]`.
    assert_eq!(accepted, [5, 5, 5 * 5 * 2 + 5 + 5 + 2]);
}

#[test]
fn every_text_of_four_bytes_is_judged_as_the_grammar_says() {
    let mut grammar = Grammar::default();
    let mut beginnings = 0;
    for begun in all_texts(BYTES, 3) {
        // Once a byte is out of place, all that begins so is refused there.
        let out_of_place = grammar.place_of_14(&begun).filter(|place| *place < begun.len());
        beginnings += usize::from(out_of_place.is_none());
        for byte in BYTES {
            let text = [&begun[..], &[*byte]].concat();
            check_reply(&text, out_of_place.or_else(|| grammar.place_of_14(&text)));
        }
    }
    // Counted by hand: what may follow each of the 34 beginnings of two bytes.
    assert_eq!(beginnings, 212);
}

/// Longer texts, but only those whose bytes before the last are in place: all others are refused further to the left.
#[test]
fn every_text_of_up_to_seven_bytes_in_a_small_alphabet_is_judged_as_the_grammar_says() {
    let mut grammar = Grammar::default();
    let mut beginnings: Vec<Vec<u8>> = vec![vec![]];
    let (mut accepted, mut starred) = (0, 0);
    for _ in 0..7 {
        let mut longer = Vec::new();
        for text in beginnings.iter().flat_map(|begun| b"v[]()/*!t{}&".map(|byte| [&begun[..], &[byte]].concat())) {
            let place = grammar.place_of_14(&text);
            let number = check_reply(&text, place);
            accepted += usize::from(number.is_none());
            starred += usize::from(number == Some(19));
            if place.is_none_or(|place| place == text.len()) {
                longer.push(text);
            }
        }
        beginnings = longer;
    }
    assert!(accepted > 100 && starred > 100 && beginnings.len() > 5000, "{accepted} {starred} {}", beginnings.len());
}

/// The place of 14 by its own words: a text goes on or it does not, tried out on the reader alone.
#[test]
fn a_byte_is_in_place_exactly_if_some_text_goes_on_from_it() {
    // Two bytes open two brackets at most, so three more bytes of these complete whatever can be completed.
    let short: Vec<Vec<u8>> = (0..=3).flat_map(|length| all_texts(b".t1])}", length)).collect();
    let any: Vec<Vec<u8>> = (0..=2).flat_map(|length| all_texts(BYTES, length)).collect();
    let accepts = |text: &[u8], rest: &Vec<u8>| matches!(reply(&[text, rest].concat()), Reply::Count(_));
    let (mut carried_on, mut cut_off) = (0, 0);
    for text in (1..=2).flat_map(|length| all_texts(BYTES, length)) {
        match reply(&text) {
            Reply::Refused { number: 14, place } if place < text.len() => {
                assert!(!any.iter().chain(&short).any(|rest| accepts(&text[..=place], rest)), "{text:?}");
                assert!(short.iter().any(|rest| accepts(&text[..place], rest)), "{text:?}");
                cut_off += 1;
            }
            _ => {
                assert!(short.iter().any(|rest| accepts(&text, rest)), "{text:?}");
                carried_on += 1;
            }
        }
    }
    // One byte: five steps, `[` and `(`. Two: `*`, `/` or `|` behind a step; an atom behind `(`; a term or atom
    // behind `[`.
    assert_eq!(carried_on, 7 + 5 * 3 + 7 + 12);
    assert_eq!(cut_off, 30 + 30 * 30 - carried_on);
}

/// How tightly a text holds together; what is looser than its place asks for goes into brackets.
mod hold {
    pub const LOOSE: u8 = 0;
    pub const JOINED: u8 = 1;
    pub const ITEM: u8 = 2;
    pub const ATOM: u8 = 3;
}

/// Writes tables and texts side by side, the table as document 01 orders its entries.
struct Author<'a> {
    chance: &'a mut Chance,
    table: Vec<[u8; 6]>,
}

impl Author<'_> {
    fn put(&mut self, kind: u8, label: u8, left: usize, right: usize) {
        self.table.push(entry(kind, label, left as u16, right as u16));
    }

    fn last(&self) -> usize {
        self.table.len() - 1
    }

    /// A path that holds together at least so tightly.
    fn path(&mut self, depth: usize, tightness: u8) -> String {
        let (text, hold) = self.loose_path(depth);
        let bare = hold >= tightness && !self.chance.one_in(8);
        if bare {
            text
        } else {
            format!("({text})")
        }
    }

    fn loose_path(&mut self, depth: usize) -> (String, u8) {
        match if depth == 0 { 0 } else { self.chance.below(8) } {
            0 | 1 => {
                let step = self.chance.below(5);
                self.put(step as u8 + 1, 0, 0, 0);
                ([".", "v", "^", ">", "<"][step].to_string(), hold::ATOM)
            }
            2 | 3 => {
                let filter = self.filter(depth - 1, hold::LOOSE);
                self.put(6, 0, self.last(), 0);
                (format!("[{filter}]"), hold::ATOM)
            }
            4 => {
                let path = self.path(depth - 1, hold::ATOM);
                self.put(9, 0, self.last(), 0);
                (format!("{path}*"), hold::ITEM)
            }
            5 => (self.two_paths(depth, 8, "|", hold::LOOSE), hold::LOOSE),
            _ => (self.two_paths(depth, 7, "/", hold::JOINED), hold::JOINED),
        }
    }

    /// Grouping is to the left: the right operand must hold together more tightly than the left one.
    fn two_paths(&mut self, depth: usize, kind: u8, operator: &str, tightness: u8) -> String {
        let left_text = self.path(depth - 1, tightness);
        let left = self.last();
        let right_text = self.path(depth - 1, tightness + 1);
        self.put(kind, 0, left, self.last());
        left_text + operator + &right_text
    }

    fn filter(&mut self, depth: usize, tightness: u8) -> String {
        let (text, hold) = self.loose_filter(depth);
        let bare = hold >= tightness && !self.chance.one_in(8);
        if bare {
            text
        } else {
            format!("{{{text}}}")
        }
    }

    fn loose_filter(&mut self, depth: usize) -> (String, u8) {
        match if depth == 0 { 0 } else { self.chance.below(7) } {
            0 => {
                let label = 1 + self.chance.below(64) as u8;
                self.put(16, label, 0, 0);
                (format!("#{label}"), hold::ITEM)
            }
            1 => {
                let truth = self.chance.below(2);
                self.put(18 + truth as u8, 0, 0, 0);
                (["t", "f"][truth].to_string(), hold::ITEM)
            }
            2 | 3 => {
                // Any path is a term as it stands, even one joined by `|`.
                let path = self.path(depth - 1, hold::LOOSE);
                self.put(17, 0, self.last(), 0);
                (path, hold::ITEM)
            }
            4 => {
                let filter = self.filter(depth - 1, hold::ITEM);
                self.put(20, 0, self.last(), 0);
                (format!("!{filter}"), hold::ITEM)
            }
            5 => (self.two_filters(depth, 22, "+", hold::LOOSE), hold::LOOSE),
            _ => (self.two_filters(depth, 21, "&", hold::JOINED), hold::JOINED),
        }
    }

    fn two_filters(&mut self, depth: usize, kind: u8, operator: &str, tightness: u8) -> String {
        let left_text = self.filter(depth - 1, tightness);
        let left = self.last();
        let right_text = self.filter(depth - 1, tightness + 1);
        self.put(kind, 0, left, self.last());
        left_text + operator + &right_text
    }
}

/// A text and its table, neither of them above a limit.
fn some_text(chance: &mut Chance, depth: usize) -> (String, Vec<u8>) {
    loop {
        let mut author = Author { chance: &mut *chance, table: Vec::new() };
        let text = author.path(depth, hold::LOOSE);
        if text.len() <= 1024 && author.table.len() <= 256 {
            return (text, table(&author.table));
        }
    }
}

#[test]
fn texts_are_read_into_the_tables_they_were_written_from() {
    let mut chance = Chance::new(4);
    let mut long = 0;
    for _ in 0..4000 {
        let depth = 1 + chance.below(9);
        let (text, table) = some_text(&mut chance, depth);
        assert_eq!(query(&text), table, "{text}");
        long += usize::from(table.len() > 30 * 6);
    }
    assert!(long > 100, "{long}");
}

#[test]
fn accepted_texts_are_queries_for_a_roll_and_for_a_curator() {
    let mut chance = Chance::new(5);
    let one_node = roll(&[(1, NO_PARENT)]);
    let mut accepted = 0;
    for _ in 0..4000 {
        let (text, _) = some_text(&mut chance, 4);
        let spoilt = spoil(&mut chance, text.into_bytes());
        let mut room = [0; TEXT_ROOM];
        let Reply::Count(entries) = second::read_text(&spoilt, &mut room) else { continue };
        let query = &room[..entries * 6];
        let on_roll = nodes_answered(|room| second::answer_on_roll(&one_node, query, room));
        let curators = nodes_answered(|room| second::curators_answer(&one_node, &[], &[], query, room));
        assert_eq!(on_roll, curators);
        assert!(on_roll.is_empty() || on_roll == [0]);
        accepted += 1;
    }
    assert!(accepted > 1000, "{accepted}");
}

/// Changes, adds, doubles or takes away a byte, or cuts the end off, or does nothing.
fn spoil(chance: &mut Chance, mut text: Vec<u8>) -> Vec<u8> {
    let (place, byte) = (chance.below(text.len()), chance.one_of(BYTES));
    match chance.below(6) {
        0 => text[place] = byte,
        1 => text.insert(place, byte),
        4 => text.insert(place, text[place]),
        2 if text.len() > 1 => drop(text.remove(place)),
        3 if place > 0 => text.truncate(place),
        _ => {}
    }
    text
}

#[test]
fn spoilt_texts_are_judged_as_the_grammar_says() {
    let mut chance = Chance::new(6);
    let (mut read, mut within, mut starred) = (0, 0, 0);
    for _ in 0..3000 {
        let (text, _) = some_text(&mut chance, 4);
        let spoilt = spoil(&mut chance, text.into_bytes());
        if spoilt.len() > 40 {
            continue;
        }
        let place = Grammar::default().place_of_14(&spoilt);
        let number = check_reply(&spoilt, place);
        read += usize::from(number.is_none());
        starred += usize::from(number == Some(19));
        within += usize::from(place.is_some_and(|place| place > 2 && place < spoilt.len()));
    }
    assert!(read > 500 && within > 200 && starred > 5, "{read} {within} {starred}");
}

#[test]
fn bytes_outside_the_grammar_are_refused_where_they_stand() {
    for byte in (0..=255).filter(|byte| !BYTES.contains(byte)) {
        assert_eq!(reply(&[byte]), refused(14, 0));
        assert_eq!(reply(&[b'v', byte]), refused(14, 1));
        assert_eq!(reply(&[b'[', b'#', b'1', byte]), refused(14, 3));
    }
}

#[test]
fn labels_run_from_1_to_64_without_leading_zero() {
    for number in 0..=700 {
        let text = format!("[#{number}]");
        let expected = match number {
            0 => refused(14, 2),
            1..=64 => Reply::Count(2),
            65..=99 => refused(14, 3),
            // 100 to 649 begin with two digits of a label, 650 and more with two that are none.
            100..=649 => refused(14, 4),
            _ => refused(14, 3),
        };
        assert_eq!(reply(text.as_bytes()), expected, "{text}");
    }
    assert_eq!(reply(b"[#01]"), refused(14, 2));
    assert_eq!(reply(b"[#]"), refused(14, 2));
}

#[test]
fn paths_in_filters_reach_as_far_as_they_can() {
    let union = [entry(2, 0, 0, 0), entry(2, 0, 0, 0), entry(8, 0, 0, 1), entry(17, 0, 2, 0)];
    let and_true = [entry(18, 0, 0, 0), entry(21, 0, 3, 4), entry(6, 0, 5, 0)];
    assert_eq!(query("[v|v&t]"), table(&[&union[..], &and_true].concat()));
    let negated = [entry(20, 0, 3, 0), entry(6, 0, 4, 0)];
    assert_eq!(query("[!v|v]"), table(&[&union[..], &negated].concat()));
    assert_eq!(query("[(v)]"), table(&[entry(2, 0, 0, 0), entry(17, 0, 0, 0), entry(6, 0, 1, 0)]));
    assert_eq!(query("[{v}]"), query("[(v)]"));
    assert_eq!(query("[v*|^]"), query("[(v*|^)]"));
    assert_eq!(reply(b"[{v}*]"), refused(14, 4));
    assert_eq!(reply(b"[t/v]"), refused(14, 2));
    assert_eq!(reply(b"[v/t]"), refused(14, 3));
    assert_eq!(reply(b"[(t)]"), refused(14, 2));
    assert_eq!(reply(b"({v})"), refused(14, 1));
}

#[test]
fn operators_group_to_the_left() {
    for (operator, kind) in [("|", 8), ("/", 7)] {
        let grouped =
            [entry(2, 0, 0, 0), entry(3, 0, 0, 0), entry(kind, 0, 0, 1), entry(4, 0, 0, 0), entry(kind, 0, 2, 3)];
        assert_eq!(query(&["v", "^", ">"].join(operator)), table(&grouped));
    }
    for (operator, kind) in [("+", 22), ("&", 21)] {
        let grouped = [
            entry(18, 0, 0, 0),
            entry(19, 0, 0, 0),
            entry(kind, 0, 0, 1),
            entry(16, 7, 0, 0),
            entry(kind, 0, 2, 3),
            entry(6, 0, 4, 0),
        ];
        assert_eq!(query(&format!("[{}]", ["t", "f", "#7"].join(operator))), table(&grouped));
    }
}

#[test]
fn a_bracket_too_many_is_15_only_where_a_bracket_may_stand() {
    let paths = "(".repeat(32);
    let filters = "[".repeat(32);
    assert_eq!(reply(format!("{paths}(").as_bytes()), refused(15, 32));
    assert_eq!(reply(format!("{paths}[").as_bytes()), refused(15, 32));
    assert_eq!(reply(format!("{paths}{{").as_bytes()), refused(14, 32));
    assert_eq!(reply(format!("{paths}]").as_bytes()), refused(14, 32));
    assert_eq!(reply(format!("{filters}{{").as_bytes()), refused(15, 32));
    assert_eq!(reply(format!("{filters}(").as_bytes()), refused(15, 32));
    assert_eq!(reply(filters.as_bytes()), refused(14, 32));
    assert_eq!(reply(format!("{paths}v)(").as_bytes()), refused(14, 34));
    // A bracket that is closed makes room for another.
    assert_eq!(reply(format!("{paths}v)/({}", "v".to_owned() + &")".repeat(32)).as_bytes()), Reply::Count(3));
    assert_eq!(reply(format!("{paths}v)/((").as_bytes()), refused(15, 36));
    // The lower place counts, whatever comes behind it or stands before it.
    assert_eq!(reply(format!("{paths}(x").as_bytes()), refused(15, 32));
    assert_eq!(reply(format!("x{paths}(").as_bytes()), refused(14, 0));
}

/// So many steps joined in halves, so that the height stays low.
fn halved(steps: usize) -> String {
    match steps {
        1 => "v".to_string(),
        _ => format!("({}|{})", halved(steps / 2), halved(steps - steps / 2)),
    }
}

/// A step under so many stars, each but the last in brackets.
fn starred(stars: usize) -> String {
    "(".repeat(stars - 1) + "v" + &"*)".repeat(stars - 1) + "*"
}

#[test]
fn tables_may_have_256_entries_and_height_32() {
    assert_eq!(reply(halved(128).as_bytes()), Reply::Count(255));
    assert_eq!(reply(format!("{}*", halved(128)).as_bytes()), Reply::Count(256));
    assert_eq!(reply(format!("({}*)*", halved(128)).as_bytes()), refused(16, 0));
    assert_eq!(reply(halved(129).as_bytes()), refused(16, 0));
    assert_eq!(reply(starred(31).as_bytes()), Reply::Count(32));
    assert_eq!(reply(starred(32).as_bytes()), refused(16, 0));
    assert_eq!(reply(format!("[{}t]", "!".repeat(30)).as_bytes()), Reply::Count(32));
    assert_eq!(reply(format!("[{}t]", "!".repeat(31)).as_bytes()), refused(16, 0));
    // 16 is only for texts in the grammar.
    assert_eq!(reply(format!("{})", starred(32)).as_bytes()), refused(14, starred(32).len()));
}

#[test]
fn two_stars_in_a_row_are_refused_at_the_second() {
    assert_eq!(reply(b"v**"), refused(19, 2));
    assert_eq!(reply(b"v***"), refused(19, 2));
    assert_eq!(reply(b"v*/v**"), refused(19, 5));
    assert_eq!(reply(b"[v**]"), refused(19, 3));
    assert_eq!(query("(v*)*"), table(&[entry(2, 0, 0, 0), entry(9, 0, 0, 0), entry(9, 0, 1, 0)]));
    assert_eq!(query("((v*))*"), query("(v*)*"));
    // Where the first of the two is out of place, 14 is given there.
    assert_eq!(reply(b"**"), refused(14, 0));
    assert_eq!(reply(b"(v)/**"), refused(14, 4));
    assert_eq!(reply(b"[t**]"), refused(14, 2));
}

#[test]
fn of_14_15_and_19_the_lowest_place_counts_and_16_comes_behind() {
    let open = "(".repeat(33);
    assert_eq!(reply(b"v**)"), refused(19, 2));
    assert_eq!(reply(b"v)**"), refused(14, 1));
    assert_eq!(reply(b"(v**"), refused(19, 3));
    assert_eq!(reply(format!("v**/{open}v").as_bytes()), refused(19, 2));
    assert_eq!(reply(format!("{open}v**").as_bytes()), refused(15, 32));
    assert_eq!(reply(format!("{}**", halved(128)).as_bytes()), refused(19, halved(128).len() + 1));
    assert_eq!(reply(format!("v{}", "*".repeat(32)).as_bytes()), refused(19, 2));
}

#[test]
fn texts_may_have_1024_bytes() {
    let wrapped = |depth: usize| "(".repeat(depth) + "v" + &")".repeat(depth);
    let full = [&vec![wrapped(32); 15].join("/"), "/", &wrapped(16), "*"].concat();
    assert_eq!(full.len(), 1024);
    assert_eq!(reply(full.as_bytes()), Reply::Count(32));
    assert_eq!(reply(format!("{full}*").as_bytes()), refused(13, 0));
    assert_eq!(reply(&[b'x'; 1025]), refused(13, 0));
    assert_eq!(reply(&[b'x'; 1024]), refused(14, 0));
    // Deep and long ones cost no depth of the reader.
    assert_eq!(reply(format!("[{}", "!".repeat(1023)).as_bytes()), refused(14, 1024));
    assert_eq!(reply(format!("[{}t]", "!".repeat(1021)).as_bytes()), refused(16, 0));
    assert_eq!(reply(format!(".{}", "*".repeat(1023)).as_bytes()), refused(19, 2));
    assert_eq!(reply(vec!["v"; 512].join("|").as_bytes()), refused(16, 0));
}
