//! Calls 1 and 7: the cases that came with document 01, and all rolls of a few records.

use compare::records::{cases, from_hex};
use compare::same;
use second::Reply;

#[test]
fn the_listed_rolls() {
    for case in cases(include_str!("../../second/tests/vectors/rolls.txt")) {
        let [record, start, end] = case[case.len() - 3..] else { panic!("a line is too short") };
        let roll = from_hex(case[0]);
        assert_eq!(same::check_roll(&roll).to_string(), case[1..case.len() - 3].join(" "));
        let run = same::run_of_record(&roll, record.parse().unwrap());
        assert_eq!(run, &roll[start.parse().unwrap()..end.parse().unwrap()]);
    }
}

/// Records with each of these labels, second bytes and parent fields, up to four of them.
#[test]
fn every_short_roll_of_some_records() {
    let fields = [[0, 0], [1, 0], [2, 0], [3, 0], [0, 1], [255, 255]];
    let mut records: Vec<[u8; 4]> = fields.iter().map(|[low, high]| [1, 0, *low, *high]).collect();
    records.extend([[0, 0, 0, 0], [64, 0, 0, 0], [65, 0, 0, 0], [1, 1, 0, 0]]);
    let mut accepted = [0; 5];
    for length in 0..=4u32 {
        for number in 0..records.len().pow(length) {
            let record = |at| records[number / records.len().pow(at) % records.len()];
            let roll: Vec<u8> = (0..length).flat_map(record).collect();
            accepted[length as usize] += usize::from(same::check_roll(&roll) == Reply::Count(length as usize));
            same::run_of_record(&roll, number % 5);
        }
    }
    // A record below the root has two labels to take, any other one: the third is below the root or the second, and the fourth below the
    // third or what is above it.
    assert_eq!(accepted, [0, 1, 2, 2 * (2 + 1), 2 * (2 * (1 + 2) + (1 + 1 + 2))]);
}
