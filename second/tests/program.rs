//! The program itself: its files, its lines, and the calls in hex.

mod common;

use std::fs;
use std::io::Write;
use std::path::PathBuf;
use std::process::{Command, Stdio};

use common::*;

/// A folder of its own for each test.
struct Folder(PathBuf);

impl Folder {
    /// With the files of the roll to work with, and nothing else.
    fn working(name: &str) -> Folder {
        let (annotation, filters) = working_annotation();
        let folder = Folder(PathBuf::from(env!("CARGO_TARGET_TMPDIR")).join(name));
        let _ = fs::remove_dir_all(&folder.0);
        fs::create_dir_all(&folder.0).unwrap();
        folder.put("roll.rec", &working_roll());
        folder.put("view.rec", &annotation);
        folder.put("filters.rec", &filters);
        folder
    }

    fn put(&self, file: &str, bytes: &[u8]) {
        fs::write(self.0.join(file), bytes).unwrap();
    }

    /// What the program writes for these lines when it finds its files here.
    fn answers(&self, input: &[u8]) -> String {
        let mut program = Command::new(env!("CARGO_BIN_EXE_second"));
        written_by(program.current_dir(&self.0), input)
    }
}

/// All a program writes for this input.
fn written_by(program: &mut Command, input: &[u8]) -> String {
    let mut running = program.stdin(Stdio::piped()).stdout(Stdio::piped()).spawn().unwrap();
    // The program may end before it has read its input; what it wrote is judged all the same.
    let _ = running.stdin.take().unwrap().write_all(input);
    let output = running.wait_with_output().unwrap();
    assert!(output.status.success());
    String::from_utf8(output.stdout).unwrap()
}

#[test]
fn three_lines_are_answered_as_listed() {
    let folder = Folder::working("three_lines");
    assert_eq!(folder.answers(b"v/v\nv//v\n[f]\n"), "A 3 2 4 7\nR 14 2\nA 0\n");
}

#[test]
fn a_last_line_without_line_feed_counts_if_it_has_bytes() {
    let folder = Folder::working("last_line");
    assert_eq!(folder.answers(b"v/v\nv//v\n[f]"), "A 3 2 4 7\nR 14 2\nA 0\n");
    assert_eq!(folder.answers(b"v"), "A 2 1 6\n");
    assert_eq!(folder.answers(b"v\n"), "A 2 1 6\n");
    assert_eq!(folder.answers(b"v\n\n"), "A 2 1 6\nR 13 0\n");
    assert_eq!(folder.answers(b"\n"), "R 13 0\n");
    assert_eq!(folder.answers(b""), "");
}

#[test]
fn lines_may_be_of_any_bytes_and_any_length() {
    let folder = Folder::working("any_bytes");
    assert_eq!(folder.answers(b"v\r\n\xFF\xFE\n\0\nv \n"), "R 14 1\nR 14 0\nR 14 0\nR 14 1\n");
    let long = [&[b'v'; 1024][..], b"\n", &[b'v'; 1025], b"\n", &[b'*'; 70_000], b"\n.\n"].concat();
    assert_eq!(folder.answers(&long), "R 14 1\nR 13 0\nR 13 0\nA 1 0\n");
}

#[test]
fn a_file_that_cannot_be_read_gives_one_line_and_nothing_else() {
    for file in ["roll.rec", "view.rec", "filters.rec"] {
        let folder = Folder::working(&format!("missing_{file}"));
        fs::remove_file(folder.0.join(file)).unwrap();
        assert_eq!(folder.answers(b"v/v\nv//v\n[f]\n"), "R 17 0\n", "{file} is missing");
        assert_eq!(folder.answers(b""), "R 17 0\n", "{file} is missing");
        // A folder can be found, but not read.
        fs::create_dir(folder.0.join(file)).unwrap();
        assert_eq!(folder.answers(b"v\n"), "R 17 0\n", "{file} is a folder");
    }
}

#[test]
fn a_bad_text_is_refused_before_bad_files_and_those_in_their_order() {
    let folder = Folder::working("bad_files");
    folder.put("view.rec", &[1, 2, 3]);
    assert_eq!(folder.answers(b"v\nv//v\n\n"), "R 6 0\nR 14 2\nR 13 0\n");
    folder.put("filters.rec", &entry(20, 0, 0, 0));
    assert_eq!(folder.answers(b"v\nv//v\n"), "R 8 0\nR 14 2\n");
    folder.put("roll.rec", &roll(&[(1, NO_PARENT), (2, 1)]));
    assert_eq!(folder.answers(b"v\nv//v\n"), "R 5 1\nR 14 2\n");
    folder.put("roll.rec", &[]);
    assert_eq!(folder.answers(b"v/\nv\n"), "R 14 2\nR 2 0\n");
}

#[test]
fn empty_annotation_and_filter_files_show_all() {
    let folder = Folder::working("all_visible");
    folder.put("view.rec", &[]);
    folder.put("filters.rec", &[]);
    assert_eq!(folder.answers(b"v\nv*/[#5]\n"), "A 2 1 8\nA 4 3 4 7 11\n");
}

/// What `calls` writes for one line; it needs no files.
fn called(line: &str) -> String {
    written_by(Command::new(env!("CARGO_BIN_EXE_second")).arg("calls"), format!("{line}\n").as_bytes())
}

#[test]
fn calls_in_hex_show_reply_and_room() {
    let untouched = |bytes: usize| "a5".repeat(bytes);
    assert_eq!(called("1 0100ffff02000000"), "A 2\n");
    assert_eq!(called("1 -"), "R 2 0\n");
    assert_eq!(called("2 762a 1540"), format!("A 2 020000000000090000000000{}\n", untouched(1528)));
    assert_eq!(called("2 762f 1536"), format!("R 14 2 {}\n", untouched(1536)));
    assert_eq!(called("2 76 0"), "R 1 0 -\n");
    let bitmap = |first: &str, rest: usize| format!("{first}{}{}", "00".repeat(511), untouched(rest));
    assert_eq!(called("3 0100ffff02000000 020000000000 513"), format!("A 1 {}\n", bitmap("02", 1)));
    // Everything but the root is hidden: (1,2) by `f`, entry 0.
    let hidden = "0100ffff02000000 010200000000 130000000000";
    assert_eq!(called(&format!("4 {hidden} 9")), format!("A 1 0100ffff{}\n", untouched(5)));
    assert_eq!(called(&format!("4 {hidden} 7")), format!("R 1 0 {}\n", untouched(7)));
    assert_eq!(called(&format!("6 {hidden} 020000000000 512")), format!("A 0 {}\n", bitmap("00", 0)));
    assert_eq!(called("6 0100ffff02000000 - - 020000000000 512"), format!("A 1 {}\n", bitmap("02", 0)));
    assert_eq!(called("print 020000000000090000000000 1030"), format!("A 2 762a{}\n", untouched(1028)));
    assert_eq!(called("print 120000000000 1024"), format!("R 12 0 {}\n", untouched(1024)));
    assert_eq!(called("print 020000000000 1023"), format!("R 1 0 {}\n", untouched(1023)));
    assert_eq!(called("content 0100ffff02000000 210200000000 01000000"), "A 2\n");
    assert_eq!(called("content 0100ffff02000000 200000000000 01000000"), "R 21 0\n");
    assert_eq!(called("content 0100ffff02000000 - -"), "A 2\n");
    assert_eq!(called("7 0100ffff0200000002000000 1"), "4 8\n");
    assert_eq!(called("7 0100ffff0200000002000000 0"), "0 12\n");
    assert_eq!(called("7 0100ffff0200000002000000 3"), "0 0\n");
}

#[test]
fn the_rewritten_query_shown_is_the_one_the_library_writes() {
    let (annotation, filters) = working_annotation();
    let query = query("v*/>");
    let line = format!("5 {} {} {} 6144", to_hex(&annotation), to_hex(&filters), to_hex(&query));
    let written = rewritten(&annotation, &filters, &query);
    let rest = "a5".repeat(6144 - written.len());
    assert_eq!(called(&line), format!("A {} {}{rest}\n", written.len() / 6, to_hex(&written)));
    assert_eq!(called("5 - - - 6144"), format!("R 12 0 {}\n", "a5".repeat(6144)));
}
