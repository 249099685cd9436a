//! Call 2: all short texts, the cases that came with documents 01 and 02, and the worked ones.

use compare::records::{cases, from_hex, to_hex};
use compare::same::{self, TEXT_ROOM};
use compare::texts::all_of_length;

#[test]
fn every_text_of_up_to_four_bytes() {
    let mut texts = 0;
    for text in (0..=4).flat_map(all_of_length) {
        same::read_text(&text, TEXT_ROOM);
        texts += 1;
    }
    assert_eq!(texts, 1 + 30 + 900 + 27_000 + 810_000);
}

#[test]
fn the_listed_texts() {
    let files =
        [include_str!("../../second/tests/vectors/texts.txt"), include_str!("../../second/tests/vectors/stars.txt")];
    for case in files.into_iter().flat_map(cases) {
        let (reply, table) = same::read_text(&from_hex(case[0]), TEXT_ROOM);
        assert_eq!(format!("{} {reply} {}", case[0], to_hex(&table)), case.join(" "));
    }
}

#[test]
fn the_worked_texts() {
    let reads = |text: &[u8]| same::read_text(text, TEXT_ROOM).0.to_string();
    assert_eq!(reads(b"v/"), "R 14 2");
    assert_eq!(reads(b"v//v"), "R 14 2");
    assert_eq!(reads(b"[#65]"), "R 14 3");
    assert_eq!(reads(b"v v"), "R 14 1");
    assert_eq!(reads(b""), "R 13 0");
    assert_eq!(reads(b"[#64]"), "A 2");
    assert_eq!(reads(b"v**"), "R 19 2");
    assert_eq!(reads(b"(v*)*"), "A 3");
    assert_eq!(reads(vec!["v"; 32].join("/").as_bytes()), "A 63");
    assert_eq!(reads(vec!["v"; 33].join("/").as_bytes()), "R 16 0");
    let nested = |n: usize| [vec![b'('; n], b"v".to_vec(), vec![b')'; n]].concat();
    assert_eq!(reads(&nested(32)), "A 1");
    assert_eq!(reads(&nested(33)), "R 15 32");
}
