//! The drawings of the example `show`, from the example folders through the calls.

#[path = "../examples/show/folder.rs"]
mod folder;
#[path = "../examples/show/svg.rs"]
mod svg;
#[path = "../examples/show/tree.rs"]
mod tree;

use folder::Folder;
use std::path::{Path, PathBuf};
use tree::{lines, nodes_of, Sheet, Standing};

fn example(name: &str) -> PathBuf {
    Path::new(env!("CARGO_MANIFEST_DIR")).join("../examples").join(name)
}

/// What is drawn for a query on an example's roll.
fn sheet(name: &str, query: &str) -> Sheet {
    Folder::read(&example(name)).unwrap().sheet(Some(query.as_bytes())).unwrap()
}

const WORKED: &str = "\
0 #1                   → 0
├── 1 #2               → 1
│   ├── 2 #4           hidden
│   │   ├── 3 #5       hidden
│   │   └── 4 #5       → 2 *
│   │       └── 5 #8   → 3
│   └── 6 #7           → 4 *
│       └── 7 #5       → 5
└── 8 #2               hidden
    ├── 9 #6           hidden
    └── 10 #4          hidden
        └── 11 #5      → 6
            └── 12 #8  → 7 *

13 records, 8 visible; v/v reaches 3, marked *
";

#[test]
fn the_worked_roll_is_drawn_as_text() {
    assert_eq!(lines(&sheet("worked", "v/v"), false), WORKED);
}

#[test]
fn without_a_query_nothing_is_marked() {
    let drawn = lines(&Folder::read(&example("worked")).unwrap().sheet(None).unwrap(), false);
    assert!(!drawn.contains('*'));
    assert!(drawn.ends_with("\n13 records, 8 visible\n"));
}

#[test]
fn colours_add_to_the_text_and_change_none_of_it() {
    let drawn = lines(&sheet("worked", "v/v"), true);
    assert_eq!(drawn.matches("\x1b[2m").count(), 5);
    assert_eq!(drawn.matches("\x1b[1;32m").count(), 3);
    assert_eq!(drawn.replace("\x1b[2m", "").replace("\x1b[1;32m", "").replace("\x1b[0m", ""), WORKED);
}

#[test]
fn a_roll_of_one_node_is_drawn() {
    let root = || nodes_of(&[1, 0, 255, 255]);
    let sheet = Sheet { roll: root(), view: root(), visible: vec![0], answer: None };
    assert_eq!(lines(&sheet, false), "0 #1  → 0\n\n1 record, 1 visible\n");
}

#[test]
fn the_picture_has_every_node_of_roll_and_view() {
    let picture = svg::picture(&sheet("worked", "v/v"));
    assert_eq!(picture.matches("<circle").count(), 13 + 8);
    assert_eq!(picture.matches("stroke-dasharray=\"3 3\"").count(), 5);
    assert_eq!(picture.matches("fill=\"#f5c04a\"").count(), 2 * 3);
    assert!(!picture.contains("<script"));
}

#[test]
fn the_picture_escapes_the_query() {
    let picture = svg::picture(&sheet("worked", "v/>/<|[f&t]"));
    assert!(picture.contains("answer to v/&gt;/&lt;|[f&amp;t] (1)"));
}

/// The picture in the documents is the one that the program writes.
#[test]
fn the_picture_of_the_readme_is_up_to_date() {
    let kept = include_str!("../../docs/worked.svg");
    assert_eq!(kept, svg::picture(&sheet("worked", "v/v")));
}

/// Call 4 gives the view's nodes, calls 5 and 3 the visible records: they must fit each other, label by label.
#[test]
fn the_view_is_that_of_the_visible_records() {
    for name in ["worked", "court"] {
        let sheet = sheet(name, "v*");
        let labels: Vec<u8> = sheet.visible.iter().map(|&record| sheet.roll[record].label).collect();
        assert_eq!(labels, sheet.view.iter().map(|node| node.label).collect::<Vec<u8>>());
        assert_eq!(sheet.standing(0), Standing::Answer(0));
    }
}

#[test]
fn a_roll_of_thousands_is_drawn() {
    let sheet = sheet("court", "v*/[#5]");
    assert_eq!(lines(&sheet, false).lines().count(), 4_023 + 2);
    assert_eq!(svg::picture(&sheet).matches("<circle").count(), 4_023 + sheet.view.len());
}

#[test]
fn faults_are_told_with_what_is_needed_to_find_them() {
    let refusal = Folder::read(&example("worked")).unwrap().sheet(Some(b"v//v")).err().unwrap();
    assert!(refusal.starts_with("the query is refused: 14 (") && refusal.ends_with(") at 2"), "{refusal}");
    let unread = Folder::read(&example("none")).err().unwrap();
    assert!(unread.contains("roll.rec"), "{unread}");
}
