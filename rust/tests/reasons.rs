//! The numbers of refusals stand in three files that no compiler holds together: the proved code, the header and this crate.

use kepolas::{rooms, Reason};

const HEADER: &str = include_str!("../../include/kepolas.h");
const PROVED: &str = include_str!("../../crates/reply/src/lib.rt");

/// `ShortRoom` as `SHORT_ROOM`.
fn shouted(name: &str) -> String {
    let mut shouted = String::new();
    for letter in name.chars() {
        if letter.is_ascii_uppercase() && !shouted.is_empty() {
            shouted.push('_');
        }
        shouted.push(letter.to_ascii_uppercase());
    }
    shouted
}

/// The names and numbers of the lines that begin with a prefix and have the separator between name and number.
fn listed(text: &str, prefix: &str, separator: &str) -> Vec<(String, u8)> {
    let named = |line: &str| {
        let (name, rest) = line.trim().strip_prefix(prefix)?.split_once(separator)?;
        let digits: String = rest.chars().take_while(char::is_ascii_digit).collect();
        Some((name.to_string(), digits.parse().ok()?))
    };
    text.lines().filter_map(named).collect()
}

/// The names and numbers of this crate's reasons.
fn reasons(style: impl Fn(&str) -> String) -> Vec<(String, u8)> {
    let reasons = (0..=100).filter_map(Reason::of);
    reasons.map(|reason| (style(&format!("{reason:?}")), reason.number())).collect()
}

#[test]
fn the_reasons_are_those_of_the_proved_code_and_of_the_header() {
    let numbers: Vec<u8> = reasons(shouted).into_iter().map(|(_, number)| number).collect();
    assert_eq!(numbers, (1..=21).collect::<Vec<u8>>());
    assert_eq!(reasons(str::to_string), listed(PROVED, "", " = "));
    assert_eq!(reasons(shouted), listed(HEADER, "KEPOLAS_", " = "));
}

#[test]
fn the_rooms_are_those_of_the_header() {
    let rooms =
        [("TABLE", rooms::TABLE), ("BITMAP", rooms::BITMAP), ("REWRITTEN", rooms::REWRITTEN), ("TEXT", rooms::TEXT)];
    for (name, room) in rooms {
        assert!(HEADER.contains(&format!("#define KEPOLAS_{name}_ROOM {room} ")), "{name}");
    }
}

#[test]
fn each_reason_has_a_name_of_its_own() {
    let names: std::collections::HashSet<_> = (0..=100).filter_map(Reason::of).map(Reason::name).collect();
    assert_eq!(names.len(), 21);
}
