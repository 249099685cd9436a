//! The check of a roll's content: the cases that came with document 02, short words beside every small rule, and the limits.

use compare::chance::Chance;
use compare::records::{cases, chain, entry, from_hex, node, wide, MOST_NODES, NO_PARENT};
use compare::rules::{listed, stars_of, Rules, HEIGHT, MOST_ENTRIES, MOST_LISTED};
use compare::same;
use second::Reply;

fn refused(number: u8, place: usize) -> Reply {
    Reply::Refused { number, place }
}

#[test]
fn the_listed_rules() {
    for case in cases(include_str!("../../second/tests/vectors/rules.txt")) {
        let [roll, rules, list] = [0, 1, 2].map(|word| from_hex(case[word]));
        assert_eq!(same::check_content(&roll, &rules, &list).to_string(), case[3..].join(" "));
    }
}

/// A root with label 1 and these children.
fn family(children: &[u8]) -> Vec<u8> {
    let root = node(1, NO_PARENT);
    [root].into_iter().chain(children.iter().map(|label| node(*label, 0))).flatten().collect()
}

/// All words of up to so many labels out of two.
fn words(most: u32) -> Vec<Vec<u8>> {
    let of_length =
        |length: u32| (0..1 << length).map(move |bits: u32| (0..length).map(|at| 2 + (bits >> at & 1) as u8).collect());
    (0..=most).flat_map(of_length).collect()
}

/// All entries over these.
fn all_entries(before: usize) -> Vec<[u8; 6]> {
    let mut entries = vec![entry(32, 0, 0, 0), entry(33, 2, 0, 0), entry(33, 3, 0, 0)];
    for left in 0..before {
        entries.push(entry(36, 0, left, 0));
        entries.extend((0..before).flat_map(|right| [entry(34, 0, left, right), entry(35, 0, left, right)]));
    }
    entries
}

/// The last entry of every table of up to four is the rule of the root's label.
#[test]
fn every_rule_of_up_to_four_entries_on_every_short_word() {
    let rolls: Vec<Vec<u8>> = words(4).iter().map(|word| family(word)).collect();
    let (mut tables, mut taken, mut refused) = (vec![Vec::new()], 0, 0);
    for before in 0..4 {
        let longer = |table: &Vec<u8>| {
            all_entries(before).into_iter().map(|entry| [&table[..], &entry].concat()).collect::<Vec<_>>()
        };
        tables = tables.iter().flat_map(longer).collect();
        for table in &tables {
            for roll in &rolls {
                match same::check_content(roll, table, &listed(1, before)) {
                    Reply::Count(_) => taken += 1,
                    Reply::Refused { .. } => refused += 1,
                }
            }
        }
    }
    assert!(taken > 10_000 && refused > 10_000, "{taken} {refused}");
}

/// Words made of two short ones in any order, up to and behind the places where a set's first word ends, beside rules with stars inside stars
/// that they follow, and one label further, with which most of them do not.
#[test]
fn stars_inside_stars_on_long_words() {
    let (mut taken, mut refused, mut many) = (0, 0, 0);
    for input in 0..600 {
        let mut chance = Chance::of(7, input);
        let mut short = || -> Vec<u8> { (0..1 + chance.below(4)).map(|_| 2 + chance.below(2) as u8).collect() };
        let (one, other) = (short(), short());
        let mut rules = Rules::default();
        let deep = chance.pick(&[2, 4, 6, 8]);
        let [left, right] = [&one, &other].map(|word| rules.starred(&mut chance, word, deep));
        let either = rules.push(35, 0, left, right);
        let any = rules.push(36, 0, either, 0);
        let length = chance.pick(&[0, 1, 62, 63, 64, 65, 127, 128, 200]);
        let mut word: Vec<u8> = Vec::new();
        while word.len() < length {
            word.extend(if chance.one_in(2) { &one } else { &other });
        }
        many += usize::from(stars_of(&rules.bytes)[any].in_one > 32);
        for behind in [&[][..], &[2], &[3]] {
            match same::check_content(&family(&[&word, behind].concat()), &rules.bytes, &listed(1, any)) {
                Reply::Count(_) => taken += 1,
                Reply::Refused { .. } => refused += 1,
            }
        }
    }
    assert!(taken > 600 && refused > 100 && many > 10, "{taken} {refused} {many}");
}

/// `(2|3|4)*` is the rule of the labels 1 to 4.
fn any_of_three() -> (Vec<u8>, Vec<u8>) {
    let mut rules = Rules::default();
    let [two, three, four] = [2, 3, 4].map(|label| rules.push(33, label, 0, 0));
    let either = rules.push(35, 0, two, three);
    let one = rules.push(35, 0, either, four);
    let any = rules.push(36, 0, one, 0);
    (rules.bytes, (1..=4).flat_map(|label| listed(label, any)).collect())
}

#[test]
fn the_greatest_rolls() {
    let (rules, list) = any_of_three();
    for shape in [chain(MOST_NODES), wide(MOST_NODES)] {
        let mut roll = shape;
        for (at, record) in roll.chunks_mut(4).enumerate().skip(1) {
            record[0] = 2 + (at % 3) as u8;
        }
        assert_eq!(same::check_content(&roll, &rules, &list), Reply::Count(MOST_NODES));
        let last = roll.len() - 4;
        roll[last] = 5;
        let parent = usize::from(roll[last + 2]) + 256 * usize::from(roll[last + 3]);
        assert_eq!(same::check_content(&roll, &rules, &list), refused(21, parent));
    }
}

#[test]
fn the_limits_of_rules() {
    let alone = family(&[]);
    let check = |rules: &[u8], list: &[u8]| same::check_content(&alone, rules, list);
    let empties = |entries: usize| entry(32, 0, 0, 0).repeat(entries);
    assert_eq!(check(&empties(MOST_ENTRIES), &listed(1, MOST_ENTRIES - 1)), Reply::Count(1));
    assert_eq!(check(&empties(MOST_ENTRIES + 1), &[]), refused(20, 0));
    assert_eq!(check(&empties(2)[..11], &[]), refused(20, 0));
    assert_eq!(check(&empties(1), &listed(1, 1)), refused(20, 0));
    assert_eq!(check(&[], &[]), Reply::Count(1));
    let all: Vec<u8> = (1..=MOST_LISTED as u8).flat_map(|label| listed(label, 0)).collect();
    assert_eq!(check(&empties(1), &all), Reply::Count(1));
    assert_eq!(check(&empties(1), &[&all[..], &[0; 4]].concat()), refused(20, 0));
    assert_eq!(check(&empties(1), &[listed(2, 0), listed(2, 0)].concat()), refused(20, 1));
    // Upon the word without labels, so that a node without children follows each of them.
    for storey in [|below| entry(34, 0, below, 0), |below| entry(35, 0, 0, below), |below| entry(36, 0, below, 0)] {
        let tower = |height: usize| {
            let storeys = (0..height - 1).map(storey);
            [entry(32, 0, 0, 0)].into_iter().chain(storeys).flatten().collect::<Vec<u8>>()
        };
        assert_eq!(check(&tower(HEIGHT), &listed(1, HEIGHT - 1)), Reply::Count(1));
        assert_eq!(check(&tower(HEIGHT + 1), &[]), refused(20, HEIGHT));
    }
}

/// A star of more than one label, on words of many.
#[test]
fn long_words_of_a_star_of_two_and_three_labels() {
    let mut rules = Rules::default();
    let [two, three] = [2, 3].map(|label| rules.push(33, label, 0, 0));
    let pair = rules.push(34, 0, two, three);
    let more = rules.push(34, 0, pair, two);
    let either = rules.push(35, 0, pair, more);
    let stars = [pair, more, either].map(|entry| rules.push(36, 0, entry, 0));
    for length in (0..20).chain(190..210).chain([1000, 1001, 2000, 4094, 4095]) {
        let words = [[2, 3].repeat(length), [2, 3, 2].repeat(length), [2, 3, 2, 3, 2].repeat(length)];
        for (word, star) in words.iter().flat_map(|word| stars.map(|star| (word, star))) {
            same::check_content(&family(&word[..length]), &rules.bytes, &listed(1, star));
        }
    }
}
