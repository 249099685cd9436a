//! Content rules: words beside every split of them, rolls beside their nodes one by one, refusals in their order.

mod common;

use std::collections::HashMap;

use common::*;
use second::{check_content, Reply};

const EMPTY: [u8; 6] = [32, 0, 0, 0, 0, 0];

fn one(label: u8) -> [u8; 6] {
    entry(33, label, 0, 0)
}

fn then(left: u16, right: u16) -> [u8; 6] {
    entry(34, 0, left, right)
}

fn either(left: u16, right: u16) -> [u8; 6] {
    entry(35, 0, left, right)
}

fn star(left: u16) -> [u8; 6] {
    entry(36, 0, left, 0)
}

/// A list record has its fields where a node has its own: label, zero, number.
fn list(records: &[(u8, u16)]) -> Vec<u8> {
    roll(records)
}

/// A root with these children and no other nodes.
fn family(root: u8, children: &[u8]) -> Vec<u8> {
    let children: Vec<(u8, u16)> = children.iter().map(|label| (*label, 0)).collect();
    roll(&[&[(root, NO_PARENT)], &children[..]].concat())
}

fn one_node() -> Vec<u8> {
    family(1, &[])
}

/// Whether the last entry, as the rule of label 9, lets a node have these children.
fn allows(entries: &[[u8; 6]], children: &[u8]) -> bool {
    let rule = entries.len() as u16 - 1;
    let reply = check_content(&family(9, children), &table(entries), &list(&[(9, rule)]));
    assert!(reply == Reply::Count(1 + children.len()) || reply == refused(21, 0), "{reply}");
    reply != refused(21, 0)
}

/// The language by its definition: a part of the word is cut in two in every way.
struct Splits<'a> {
    entries: &'a [[u8; 6]],
    word: &'a [u8],
    known: HashMap<(usize, usize, usize), bool>,
}

impl<'a> Splits<'a> {
    fn have(entries: &'a [[u8; 6]], number: usize, word: &'a [u8]) -> bool {
        Splits { entries, word, known: HashMap::new() }.part(number, 0, word.len())
    }

    fn part(&mut self, number: usize, start: usize, end: usize) -> bool {
        if let Some(known) = self.known.get(&(number, start, end)) {
            return *known;
        }
        let [kind, label, left, _, right, _] = self.entries[number];
        let (left, right) = (usize::from(left), usize::from(right));
        let answer = match kind {
            32 => start == end,
            33 => self.word[start..end] == [label],
            34 => (start..=end).any(|cut| self.part(left, start, cut) && self.part(right, cut, end)),
            35 => self.part(left, start, end) || self.part(right, start, end),
            // A first piece with no labels brings the word no further.
            _ => {
                start == end || (start + 1..=end).any(|cut| self.part(left, start, cut) && self.part(number, cut, end))
            }
        };
        self.known.insert((number, start, end), answer);
        answer
    }
}

/// Up to so many entries, mostly over the newest ones.
fn some_rules(chance: &mut Chance, most_entries: usize, labels: usize) -> Vec<[u8; 6]> {
    let mut entries = vec![one(1 + chance.below(labels) as u8)];
    for number in 1..1 + chance.below(most_entries) {
        let operand = |chance: &mut Chance| {
            let among = if chance.one_in(4) { number } else { number.min(3) };
            (number - 1 - chance.below(among)) as u16
        };
        entries.push(match chance.below(10) {
            0 => EMPTY,
            1 | 2 => one(1 + chance.below(labels) as u8),
            3 | 4 => then(operand(chance), operand(chance)),
            5..=7 => either(operand(chance), operand(chance)),
            _ => star(operand(chance)),
        });
    }
    entries
}

#[test]
fn every_table_of_up_to_four_entries_has_the_words_that_splits_make() {
    let all_entries = |count: u16| {
        let pairs = (0..count).flat_map(|left| (0..count).map(move |right| (left, right)));
        let joined = pairs.flat_map(|(left, right)| [then(left, right), either(left, right)]);
        [EMPTY, one(1), one(2)].into_iter().chain((0..count).map(star)).chain(joined).collect::<Vec<_>>()
    };
    let words: Vec<Vec<u8>> = (0..=4).flat_map(|length| all_texts(&[1, 2], length)).collect();
    let mut tables: Vec<Vec<[u8; 6]>> = vec![vec![]];
    for count in 0..4 {
        let one_longer = |table: &Vec<[u8; 6]>| {
            all_entries(count).into_iter().map(|entry| [&table[..], &[entry]].concat()).collect::<Vec<_>>()
        };
        tables = tables.iter().flat_map(one_longer).collect();
        for (table, word) in tables.iter().flat_map(|table| words.iter().map(move |word| (table, word))) {
            assert_eq!(allows(table, word), Splits::have(table, table.len() - 1, word), "{table:?} {word:?}");
        }
    }
    assert_eq!(tables.len(), 3 * (3 + 1 + 2) * (3 + 2 + 8) * (3 + 3 + 18));
}

#[test]
fn drawn_expressions_have_the_words_that_splits_make() {
    let mut chance = Chance::new(11);
    let words: Vec<Vec<u8>> = (0..=6).flat_map(|length| all_texts(&[1, 2], length)).collect();
    let (mut some, mut in_and_out) = (0, 0);
    for _ in 0..3000 {
        let entries = some_rules(&mut chance, 16, 2);
        let mut inside = 0;
        for word in &words {
            let allowed = allows(&entries, word);
            assert_eq!(allowed, Splits::have(&entries, entries.len() - 1, word), "{entries:?} {word:?}");
            inside += usize::from(allowed);
        }
        some += inside;
        in_and_out += usize::from(inside > 3 && inside < words.len());
    }
    assert!(some > 10_000 && in_and_out > 500, "the draws are too plain: {some} {in_and_out}");
}

/// Some word of the last entry, or what so many steps write of it.
fn some_word(chance: &mut Chance, entries: &[[u8; 6]], steps: usize) -> Vec<u8> {
    let (mut word, mut unwritten) = (Vec::new(), vec![entries.len() - 1]);
    for _ in 0..steps {
        let Some(number) = unwritten.pop() else { break };
        let [kind, label, left, _, right, _] = entries[number];
        let (left, right) = (usize::from(left), usize::from(right));
        match kind {
            32 => {}
            33 => word.push(label),
            34 => unwritten.extend([right, left]),
            35 => unwritten.push(chance.one_of(&[left, right])),
            _ => unwritten.extend(vec![left; chance.below(60)]),
        }
    }
    word
}

#[test]
fn long_words_are_judged_as_splits_judge_them() {
    let mut chance = Chance::new(12);
    let (mut long_inside, mut long_outside) = (0, 0);
    for _ in 0..1500 {
        let entries = some_rules(&mut chance, 12, 2);
        let word = some_word(&mut chance, &entries, 200);
        let mut spoilt = word.clone();
        let place = chance.below(word.len().max(1));
        match chance.below(4) {
            0 => spoilt.insert(place, 1),
            1 => spoilt.truncate(word.len().saturating_sub(1)),
            2 => spoilt.rotate_left(place),
            _ => spoilt.iter_mut().skip(place).take(1).for_each(|label| *label = 3 - *label),
        }
        for word in [word, spoilt] {
            let allowed = allows(&entries, &word);
            assert_eq!(allowed, Splits::have(&entries, entries.len() - 1, &word), "{entries:?} {word:?}");
            long_inside += usize::from(allowed && word.len() > 70);
            long_outside += usize::from(!allowed && word.len() > 70);
        }
    }
    assert!(long_inside > 150 && long_outside > 50, "the draws are too plain: {long_inside} {long_outside}");
}

/// Of all words of labels 1 and 2 up to a length, a table allows the listed ones and no others.
fn check_language(entries: &[[u8; 6]], most_labels: usize, listed: &[&[u8]]) {
    for word in (0..=most_labels).flat_map(|length| all_texts(&[1, 2], length)) {
        assert_eq!(allows(entries, &word), listed.contains(&&word[..]), "{entries:?} {word:?}");
    }
}

#[test]
fn languages_are_as_written_out_by_hand() {
    check_language(&[EMPTY], 4, &[&[]]);
    check_language(&[one(2)], 4, &[&[2]]);
    check_language(&[one(3)], 4, &[]);
    check_language(&[one(1), one(2), then(0, 1)], 4, &[&[1, 2]]);
    check_language(&[one(1), one(2), then(1, 0)], 4, &[&[2, 1]]);
    check_language(&[one(1), one(2), either(0, 1)], 4, &[&[1], &[2]]);
    check_language(&[one(1), star(0)], 4, &[&[], &[1], &[1, 1], &[1, 1, 1], &[1, 1, 1, 1]]);
    check_language(&[EMPTY, star(0)], 4, &[&[]]);
    check_language(&[one(3), star(0)], 4, &[&[]]);
    check_language(&[EMPTY, one(1), then(0, 1)], 4, &[&[1]]);
    check_language(&[EMPTY, one(1), either(0, 1), then(2, 2)], 4, &[&[], &[1], &[1, 1]]);
    // 1, then any number of 2; any number of 1 2; no 2 in front of a 1.
    check_language(&[one(1), one(2), star(1), then(0, 2)], 4, &[&[1], &[1, 2], &[1, 2, 2], &[1, 2, 2, 2]]);
    check_language(&[one(1), one(2), then(0, 1), star(2)], 5, &[&[], &[1, 2], &[1, 2, 1, 2]]);
    let sorted: [&[u8]; 10] =
        [&[], &[1], &[2], &[1, 1], &[1, 2], &[2, 2], &[1, 1, 1], &[1, 1, 2], &[1, 2, 2], &[2, 2, 2]];
    check_language(&[one(1), one(2), star(0), star(1), then(2, 3)], 3, &sorted);
    // Two or three of 1, again and again; one more star changes nothing.
    let pieces = [one(1), then(0, 0), then(0, 1), either(1, 2), star(3), star(4)];
    let all_but_one: [&[u8]; 5] = [&[], &[1; 2], &[1; 3], &[1; 4], &[1; 5]];
    check_language(&pieces[..5], 5, &all_but_one);
    check_language(&pieces, 5, &all_but_one);
}

/// The children's labels of every node, from the records alone.
fn words(roll: &[u8]) -> Vec<Vec<u8>> {
    let children_of = |parent: usize| {
        let hangs = |record: &&[u8]| usize::from(u16::from_le_bytes([record[2], record[3]])) == parent;
        roll.chunks(4).filter(hangs).map(|record| record[0]).collect()
    };
    (0..roll.len() / 4).map(children_of).collect()
}

#[test]
fn drawn_rolls_are_refused_at_the_lowest_node_that_breaks_its_rule() {
    let mut chance = Chance::new(13);
    let (mut followed, mut broken) = (0, 0);
    for _ in 0..20_000 {
        let roll = some_roll(&mut chance, 8, 3);
        let entries = some_rules(&mut chance, 12, 3);
        let labels: Vec<u8> = (1..=3).filter(|_| chance.one_in(2)).collect();
        let rules: Vec<(u8, u16)> = labels.iter().map(|label| (*label, chance.below(entries.len()) as u16)).collect();
        let breaks = |(record, word): (&[u8], Vec<u8>)| {
            let rule = rules.iter().find(|(label, _)| *label == record[0]);
            rule.is_some_and(|(_, number)| !Splits::have(&entries, usize::from(*number), &word))
        };
        let expected = match roll.chunks(4).zip(words(&roll)).position(breaks) {
            Some(record) => refused(21, record),
            None => Reply::Count(roll.len() / 4),
        };
        assert_eq!(check_content(&roll, &table(&entries), &list(&rules)), expected, "{roll:?} {entries:?} {rules:?}");
        followed += usize::from(expected == Reply::Count(roll.len() / 4) && !rules.is_empty() && roll.len() > 8);
        broken += usize::from(expected != refused(21, 0) && matches!(expected, Reply::Refused { .. }));
    }
    assert!(followed > 1000 && broken > 1000, "the draws are too plain: {followed} {broken}");
}

#[test]
fn the_order_of_children_counts_and_a_part_of_a_word_is_not_the_word() {
    let rule = [one(1), one(2), one(3), then(0, 1), then(3, 2)];
    assert!(allows(&rule, &[1, 2, 3]));
    for children in [&[1, 3, 2][..], &[2, 1, 3], &[3, 2, 1], &[], &[1], &[1, 2], &[2, 3], &[1, 2, 3, 1], &[1, 1, 2, 3]]
    {
        assert!(!allows(&rule, children), "{children:?}");
    }
}

#[test]
fn zero_times_is_allowed_and_a_node_without_children_must_be() {
    assert!(allows(&[one(1), star(0)], &[]));
    assert!(allows(&[EMPTY], &[]));
    assert!(!allows(&[EMPTY], &[1]));
    assert!(!allows(&[one(1)], &[]));
    // Each node of label 1 must have a child of label 1, so the last of them has too few.
    let chain = roll(&[(1, NO_PARENT), (1, 0), (1, 1)]);
    assert_eq!(check_content(&chain, &one(1), &list(&[(1, 0)])), refused(21, 2));
}

#[test]
fn grandchildren_are_not_looked_at() {
    let rules = table(&[one(2), star(0), EMPTY]);
    let roll = roll(&[(1, NO_PARENT), (2, 0), (3, 1), (4, 2), (2, 0), (3, 4)]);
    assert_eq!(check_content(&roll, &rules, &list(&[(1, 1)])), Reply::Count(6));
    assert_eq!(check_content(&roll, &rules, &list(&[(1, 1), (2, 1)])), refused(21, 1));
    assert_eq!(check_content(&roll, &rules, &list(&[(4, 2)])), Reply::Count(6));
    assert_eq!(check_content(&roll, &rules, &list(&[(3, 2)])), refused(21, 2));
}

#[test]
fn labels_without_a_rule_take_any_children() {
    let nothing = list(&[(7, 0)]);
    assert_eq!(check_content(&family(9, &[1, 7, 3, 64]), &EMPTY, &nothing), Reply::Count(5));
    assert_eq!(check_content(&family(7, &[1, 7, 3, 64]), &EMPTY, &nothing), refused(21, 0));
    assert_eq!(check_content(&working_roll(), &EMPTY, &[]), Reply::Count(13));
    assert_eq!(check_content(&working_roll(), &[], &[]), Reply::Count(13));
    // Labels have their own rules, and two may have the same one.
    let rules = table(&[EMPTY, one(3)]);
    let roll = roll(&[(1, NO_PARENT), (2, 0), (3, 1), (64, 0), (3, 3)]);
    assert_eq!(check_content(&roll, &rules, &list(&[(2, 1), (3, 0), (64, 1)])), Reply::Count(5));
    assert_eq!(check_content(&roll, &rules, &list(&[(2, 1), (3, 0), (64, 0)])), refused(21, 3));
}

#[test]
fn a_word_straight_under_the_roll_is_found() {
    // Roll: cases. Case: seal or not, then drafts and checked ones. Draft and checked: words. Word: tick or not.
    let rules = table(&[
        one(2),
        star(0),
        one(6),
        EMPTY,
        either(2, 3),
        one(4),
        one(7),
        either(5, 6),
        star(7),
        then(4, 8),
        one(5),
        star(10),
        one(8),
        either(12, 3),
    ]);
    let list = list(&[(1, 1), (2, 9), (4, 11), (5, 13), (6, 3), (7, 11), (8, 3)]);
    assert_eq!(check_content(&working_roll(), &rules, &list), Reply::Count(13));
    let with =
        |label: u8, parent: u16| check_content(&roll(&[&WORKING_ROLL[..], &[(label, parent)]].concat()), &rules, &list);
    assert_eq!(with(5, 0), refused(21, 0));
    assert_eq!(with(2, 0), Reply::Count(14));
    assert_eq!(with(6, 8), refused(21, 8));
    assert_eq!(with(7, 8), Reply::Count(14));
    assert_eq!(with(8, 11), refused(21, 11));
    assert_eq!(with(8, 12), refused(21, 12));
}

#[test]
fn of_several_nodes_that_break_their_rules_the_lowest_is_given() {
    let rules = table(&[EMPTY, one(2)]);
    let roll = roll(&[(9, NO_PARENT), (1, 0), (2, 1), (3, 0), (2, 3), (1, 4), (3, 0)]);
    for (records, reply) in [
        (&[][..], Reply::Count(7)),
        (&[(1, 0), (2, 0), (3, 0), (9, 0)], refused(21, 0)),
        (&[(1, 0), (2, 0), (3, 0)], refused(21, 1)),
        (&[(1, 1), (2, 0), (3, 0)], refused(21, 3)),
        (&[(2, 0), (3, 1)], refused(21, 4)),
        (&[(1, 1)], refused(21, 5)),
        (&[(3, 1)], refused(21, 6)),
    ] {
        assert_eq!(check_content(&roll, &rules, &list(records)), reply, "{records:?}");
    }
}

#[test]
fn malformed_entries_are_refused_where_they_stand() {
    // Three entries in front and one behind, and no list: entries that nothing uses are judged all the same.
    let judged = |entry: [u8; 6]| check_content(&one_node(), &table(&[EMPTY, one(1), EMPTY, entry, EMPTY]), &[]);
    for kind in (0..=255).filter(|kind| !matches!(kind, 32..=36)) {
        assert_eq!(judged(entry(kind, 0, 0, 0)), refused(20, 3), "kind {kind}");
        assert_eq!(judged(entry(kind, 1, 1, 1)), refused(20, 3), "kind {kind}");
    }
    let sound = [(32, 0, 0, 0), (33, 1, 0, 0), (33, 64, 0, 0), (34, 0, 2, 1), (35, 0, 1, 2), (36, 0, 2, 0)];
    for (kind, label, left, right) in sound {
        assert_eq!(judged(entry(kind, label, left, right)), Reply::Count(1), "kind {kind}");
        for wrong in if kind == 33 { [0, 65, 255] } else { [1, 64, 255] } {
            assert_eq!(judged(entry(kind, wrong, left, right)), refused(20, 3), "label of kind {kind}");
        }
        // Itself, a later one, none at all; an earlier one where there is no operand.
        let wrong_operands = |taken: bool| if taken { [3, 4, 256, 65_535] } else { [1, 2, 256, 65_535] };
        for wrong in wrong_operands(kind >= 34) {
            assert_eq!(judged(entry(kind, label, wrong, right)), refused(20, 3), "left of kind {kind}");
        }
        for wrong in wrong_operands(matches!(kind, 34 | 35)) {
            assert_eq!(judged(entry(kind, label, left, wrong)), refused(20, 3), "right of kind {kind}");
        }
    }
    // The first entry has no earlier one.
    for first in [star(0), then(0, 0), either(0, 0)] {
        assert_eq!(check_content(&one_node(), &first, &[]), refused(20, 0));
    }
    // Entries of queries are no entries of rules.
    assert_eq!(check_content(&working_roll(), &query("v"), &[]), refused(20, 0));
}

/// So many entries, each one higher than the one before.
fn tower(height: usize, storey: fn(u16) -> [u8; 6]) -> Vec<[u8; 6]> {
    [vec![EMPTY], (1..height as u16).map(|number| storey(number - 1)).collect()].concat()
}

#[test]
fn entries_may_be_32_high() {
    let storeys: [fn(u16) -> [u8; 6]; 5] =
        [star, |below| then(below, 0), |below| then(0, below), |below| either(below, 0), |below| either(0, below)];
    for storey in storeys {
        assert_eq!(check_content(&one_node(), &table(&tower(32, storey)), &list(&[(1, 31)])), Reply::Count(1));
        assert_eq!(check_content(&one_node(), &table(&tower(33, storey)), &list(&[(1, 32)])), refused(20, 32));
        assert_eq!(check_content(&one_node(), &table(&tower(40, storey)), &[]), refused(20, 32), "nothing uses it");
    }
    // What counts is the highest operand, not how many entries stand in front.
    let low = [tower(32, star), vec![EMPTY; 100], vec![star(30), then(30, 100)]].concat();
    assert_eq!(check_content(&one_node(), &table(&low), &[]), Reply::Count(1));
    // Of a malformed entry and one that is too high the lower one is given.
    let behind = |last: &[[u8; 6]]| check_content(&one_node(), &table(&[&tower(32, star), last].concat()), &[]);
    assert_eq!(behind(&[EMPTY, star(31), one(0)]), refused(20, 33));
    assert_eq!(behind(&[EMPTY, one(0), star(31)]), refused(20, 33));
}

#[test]
fn lengths_are_limited() {
    let judged = |entries: usize, records: usize| {
        let records: Vec<(u8, u16)> = (1..=records).map(|label| (label as u8, 0)).collect();
        check_content(&one_node(), &EMPTY.repeat(entries), &list(&records))
    };
    assert_eq!(judged(0, 0), Reply::Count(1));
    assert_eq!(judged(1, 0), Reply::Count(1));
    assert_eq!(judged(256, 64), Reply::Count(1));
    assert_eq!(judged(257, 0), refused(20, 0));
    assert_eq!(judged(257, 64), refused(20, 0));
    assert_eq!(judged(256, 65), refused(20, 0));
    assert_eq!(judged(0, 1), refused(20, 0), "there is no entry to name");
    let full = list(&(1..=64).map(|label| (label, 0)).collect::<Vec<_>>());
    assert_eq!(check_content(&one_node(), &EMPTY, &[&full[..], &[0]].concat()), refused(20, 0));
    assert_eq!(check_content(&one_node(), &[&EMPTY.repeat(256)[..], &[0]].concat(), &full), refused(20, 0));
    for cut_off in 1..6 {
        assert_eq!(check_content(&one_node(), &EMPTY.repeat(2)[cut_off..], &[]), refused(20, 0));
        let wanted = if cut_off == 4 { Reply::Count(1) } else { refused(20, 0) };
        assert_eq!(check_content(&one_node(), &EMPTY, &list(&[(1, 0), (2, 0)])[cut_off..]), wanted);
    }
}

#[test]
fn list_records_are_refused_where_they_stand() {
    let rules = table(&[EMPTY, EMPTY, EMPTY]);
    let judged = |records: &[[u8; 4]]| check_content(&family(64, &[]), &rules, &records.concat());
    assert_eq!(judged(&[[1, 0, 0, 0], [2, 0, 2, 0], [4, 0, 1, 0], [64, 0, 0, 0]]), Reply::Count(1));
    // Label 0 or above 64, a second byte, an entry that is not there.
    for bad in [
        [0, 0, 0, 0],
        [65, 0, 0, 0],
        [255, 0, 0, 0],
        [5, 1, 0, 0],
        [5, 255, 0, 0],
        [5, 0, 3, 0],
        [5, 0, 0, 1],
        [5, 0, 255, 255],
    ] {
        assert_eq!(judged(&[bad]), refused(20, 0), "{bad:?}");
        assert_eq!(judged(&[[3, 0, 0, 0], [4, 0, 0, 0], bad, [64, 0, 0, 0]]), refused(20, 2), "{bad:?}");
        assert_eq!(judged(&[[3, 0, 0, 0], bad, bad]), refused(20, 1), "{bad:?}");
    }
    // Labels that are equal or descend.
    assert_eq!(judged(&[[3, 0, 0, 0], [3, 0, 0, 0]]), refused(20, 1));
    assert_eq!(judged(&[[3, 0, 0, 0], [3, 0, 1, 0]]), refused(20, 1));
    assert_eq!(judged(&[[3, 0, 0, 0], [2, 0, 1, 0]]), refused(20, 1));
    assert_eq!(judged(&[[3, 0, 0, 0], [5, 0, 0, 0], [4, 0, 0, 0]]), refused(20, 2));
    assert_eq!(judged(&[[64, 0, 0, 0], [1, 0, 0, 0], [0, 0, 0, 0]]), refused(20, 1));
    // The last of all entries may be named, and none behind it.
    let last = |number: u16| check_content(&one_node(), &EMPTY.repeat(256), &list(&[(1, number)]));
    assert_eq!(last(255), Reply::Count(1));
    assert_eq!(last(256), refused(20, 0));
}

/// A part of the inputs, and what is wrong with it.
type Part = (Vec<u8>, Option<Reply>);

fn rolls() -> Vec<Part> {
    vec![
        (family(1, &[2, 2]), None),
        (vec![1, 0, 255], Some(refused(2, 0))),
        (vec![], Some(refused(2, 0))),
        (roll(&[(1, NO_PARENT), (2, 0), (65, 0)]), Some(refused(3, 2))),
        (vec![1, 1, 255, 255], Some(refused(4, 0))),
        (roll(&[(1, NO_PARENT), (2, 0), (2, 2)]), Some(refused(5, 2))),
        // A roll in order, but record 4 has a child.
        (roll(&[(1, NO_PARENT), (2, 0), (2, 0), (2, 0), (2, 0), (2, 4)]), Some(refused(21, 4))),
    ]
}

fn rule_tables() -> Vec<Part> {
    let good = table(&[EMPTY, one(2), star(1)]);
    vec![
        (good.clone(), None),
        ([&good[..], &[0; 5]].concat(), Some(refused(20, 0))),
        ([&good[..], &[0; 254 * 6]].concat(), Some(refused(20, 0))),
        ([&good[..], &star(3)].concat(), Some(refused(20, 3))),
        (
            [table(&[EMPTY, one(2), star(1)]), table(&[star(2), star(3), star(4), one(65)])].concat(),
            Some(refused(20, 6)),
        ),
    ]
}

fn lists() -> Vec<Part> {
    let good = list(&[(1, 2), (2, 0)]);
    vec![
        (good.clone(), None),
        ([&good[..], &[3]].concat(), Some(refused(20, 0))),
        ([&good[..], &[0; 63 * 4]].concat(), Some(refused(20, 0))),
        ([&good[..], &[2, 0, 0, 0]].concat(), Some(refused(20, 2))),
        (list(&[(1, 2), (2, 9)]), Some(refused(20, 1))),
    ]
}

#[test]
fn of_several_faults_the_first_in_order_is_given() {
    let length = |fault: &&Option<Reply>| **fault == Some(refused(20, 0));
    let mut calls = 0;
    for (roll, roll_fault) in rolls() {
        let (content, roll_fault) =
            if roll_fault == Some(refused(21, 4)) { (roll_fault, None) } else { (None, roll_fault) };
        for (rules, rules_fault) in rule_tables() {
            for (list, list_fault) in lists() {
                let lengths = [rules_fault, list_fault].iter().find(length).copied().flatten();
                let faults = [roll_fault, lengths, rules_fault, list_fault, content];
                let expected = faults.into_iter().flatten().next().unwrap_or(Reply::Count(roll.len() / 4));
                assert_eq!(check_content(&roll, &rules, &list), expected, "{roll:?} {rules:?} {list:?}");
                calls += 1;
            }
        }
    }
    assert_eq!(calls, 7 * 5 * 5);
}

/// Each entry takes the one before it twice, up to height 32.
fn doubled(ground: &[[u8; 6]], ground_height: usize, storey: fn(u16, u16) -> [u8; 6]) -> Vec<[u8; 6]> {
    let mut entries = ground.to_vec();
    for _ in ground_height..32 {
        let below = entries.len() as u16 - 1;
        entries.push(storey(below, below));
    }
    entries
}

#[test]
fn shared_entries_are_never_unfolded() {
    let ones = |count: usize| vec![1; count];
    // The last stands for 2^31 labels one after the other.
    let exactly = doubled(&[one(1)], 1, then);
    // The last stands for up to 2^30 labels.
    let at_most = doubled(&[one(1), EMPTY, either(0, 1)], 2, then);
    assert!(!allows(&exactly, &ones(4095)) && !allows(&exactly, &[]));
    assert!(allows(&at_most, &ones(1000)) && allows(&at_most, &[]));
    assert!(!allows(&at_most, &[&ones(999)[..], &[2]].concat()));
    for doublings in 0..=11 {
        let most = 1 << doublings;
        for count in [0, 1, most - 1, most, most + 1] {
            assert_eq!(allows(&exactly[..=doublings], &ones(count)), count == most, "{count} of {most}");
            assert_eq!(allows(&at_most[..=doublings + 2], &ones(count)), count <= most, "{count} of {most}");
        }
    }
    let alike = doubled(&[one(1)], 1, either);
    assert!(allows(&alike, &[1]) && !allows(&alike, &[]) && !allows(&alike, &[1, 1]) && !allows(&alike, &[2]));
    let nothing = doubled(&[EMPTY], 1, then);
    assert!(allows(&nothing, &[]) && !allows(&nothing, &[1]));
    let stars = [vec![one(1)], (0..31).map(star).collect()].concat();
    assert!(allows(&stars, &ones(4095)) && allows(&stars, &[]) && !allows(&stars, &[1, 1, 2]));
}

#[test]
fn a_root_may_have_4095_children() {
    let any = [one(1), one(2), one(3), either(0, 1), either(3, 2), star(4)];
    let mut children: Vec<u8> = (0..4095).map(|number| 1 + (number * number / 7 % 3) as u8).collect();
    assert!(allows(&any, &children));
    for place in [0, 63, 64, 2047, 4094] {
        let label = std::mem::replace(&mut children[place], 4);
        assert!(!allows(&any, &children), "{place}");
        children[place] = label;
    }
    let pairs = [one(1), one(2), then(0, 1), star(2), then(3, 0)];
    let by_turns: Vec<u8> = [1, 2].repeat(2048)[..4095].to_vec();
    assert!(allows(&pairs, &by_turns) && !allows(&pairs[..4], &by_turns));
    assert!(!allows(&pairs, &by_turns[1..]) && allows(&pairs[..4], &by_turns[..4094]));
}

#[test]
fn rolls_of_4096_nodes_are_judged() {
    let chain = roll(&(0..4096).map(|node: u16| (1, node.wrapping_sub(1))).collect::<Vec<_>>());
    let rules = table(&[one(1), EMPTY, either(0, 1), one(2), then(3, 0), either(4, 1)]);
    assert_eq!(check_content(&chain, &rules, &list(&[(1, 2)])), Reply::Count(4096));
    assert_eq!(check_content(&chain, &rules, &list(&[(1, 0)])), refused(21, 4095));
    assert_eq!(check_content(&chain, &rules, &list(&[(1, 1)])), refused(21, 0));
    // 2,000 nodes with two children each, the second of which is the next of them.
    let mut nodes = vec![(1, NO_PARENT)];
    for number in 0..2000 {
        nodes.extend([(2, 2 * number), (1, 2 * number)]);
    }
    assert_eq!(check_content(&roll(&nodes), &rules, &list(&[(1, 5), (2, 1)])), Reply::Count(4001));
    nodes[3999].0 = 1;
    assert_eq!(check_content(&roll(&nodes), &rules, &list(&[(1, 5), (2, 1)])), refused(21, 3998));
}
