//! Without arguments the program of document 01; with the argument `calls` one call on each line, in hex.

use std::io::{self, BufRead, Write};
use std::process::ExitCode;

use second::calls::{self, nodes_of_bitmap, BITMAP_ROOM, TEXT_ROOM};
use second::reply::Reply;
use second::table::ENTRY_BYTES;

/// What a room holds before a call, so that one sees which bytes a call wrote.
const UNTOUCHED: u8 = 0xA5;

fn main() -> ExitCode {
    let arguments: Vec<String> = std::env::args().skip(1).collect();
    let outcome = match arguments.iter().map(String::as_str).collect::<Vec<_>>()[..] {
        [] => answer_lines(),
        ["calls"] => make_calls(),
        _ => Err(io::Error::other("the only argument known is: calls")),
    };
    match outcome {
        Ok(()) => ExitCode::SUCCESS,
        Err(error) => {
            eprintln!("{error}");
            ExitCode::FAILURE
        }
    }
}

/// The curator's three files.
struct Files {
    roll: Vec<u8>,
    annotation: Vec<u8>,
    filters: Vec<u8>,
}

impl Files {
    fn read() -> io::Result<Files> {
        let [roll, annotation, filters] = ["roll.rec", "view.rec", "filters.rec"].map(std::fs::read);
        Ok(Files { roll: roll?, annotation: annotation?, filters: filters? })
    }
}

/// The program of document 01.
fn answer_lines() -> io::Result<()> {
    let mut out = io::stdout().lock();
    match Files::read() {
        Err(_) => writeln!(out, "{}", Reply::Refused { number: 17, place: 0 })?,
        Ok(files) => {
            for line in io::stdin().lock().split(b'\n') {
                writeln!(out, "{}", answer_line(&files, &line?))?;
            }
        }
    }
    out.flush()
}

/// The line written for one query text. A text that cannot be read is refused before the files are looked into.
fn answer_line(files: &Files, text: &[u8]) -> String {
    let mut table = [0; TEXT_ROOM];
    let entries = match calls::read_text(text, &mut table) {
        Reply::Count(entries) => entries,
        refused => return refused.to_string(),
    };
    let query = &table[..entries * ENTRY_BYTES];
    let mut bitmap = [0; BITMAP_ROOM];
    let reply = calls::curators_answer(&files.roll, &files.annotation, &files.filters, query, &mut bitmap);
    // A refusal leaves the bitmap empty, so nothing is added to it.
    let positions = nodes_of_bitmap(&bitmap).into_iter().map(|position| format!(" {position}"));
    reply.to_string() + &positions.collect::<String>()
}

/// One call on each line.
fn make_calls() -> io::Result<()> {
    let mut out = io::stdout().lock();
    for line in io::stdin().lock().lines() {
        let line = line?;
        let made = make_call(&line.split(' ').collect::<Vec<_>>());
        let reply = made.ok_or_else(|| io::Error::other(format!("no call: {line}")))?;
        writeln!(out, "{reply}")?;
    }
    out.flush()
}

/// Makes the call a line's words name; nothing if they name none.
fn make_call(words: &[&str]) -> Option<String> {
    let (call, words) = words.split_first()?;
    if *call == "7" {
        let [roll, record] = words else { return None };
        return Some(show_run(&from_hex(roll)?, record.parse().ok()?));
    }
    if *call == "1" {
        let [roll] = words else { return None };
        return Some(calls::check_roll(&from_hex(roll)?).to_string());
    }
    if *call == "content" {
        let [roll, rules, list] = words else { return None };
        return Some(calls::check_content(&from_hex(roll)?, &from_hex(rules)?, &from_hex(list)?).to_string());
    }
    let (room, inputs) = words.split_last()?;
    let mut room = vec![UNTOUCHED; room.parse().ok()?];
    let inputs = inputs.iter().map(|word| from_hex(word)).collect::<Option<Vec<_>>>()?;
    let reply = match (*call, &inputs[..]) {
        ("2", [text]) => calls::read_text(text, &mut room),
        ("print", [query]) => calls::print_query(query, &mut room),
        ("3", [roll, query]) => calls::answer_on_roll(roll, query, &mut room),
        ("4", [roll, annotation, filters]) => calls::cut_view(roll, annotation, filters, &mut room),
        ("5", [annotation, filters, query]) => calls::rewrite(annotation, filters, query, &mut room),
        ("6", [roll, annotation, filters, query]) => {
            calls::curators_answer(roll, annotation, filters, query, &mut room)
        }
        _ => return None,
    };
    Some(format!("{reply} {}", to_hex(&room)))
}

/// Where the run of a record starts and ends in the roll's bytes.
fn show_run(roll: &[u8], record: usize) -> String {
    let run = calls::run_of_record(roll, record);
    match run.len() {
        0 => "0 0".to_string(),
        len => {
            let start = run.as_ptr() as usize - roll.as_ptr() as usize;
            format!("{start} {}", start + len)
        }
    }
}

/// The bytes that hex digits write, `-` for none.
fn from_hex(word: &str) -> Option<Vec<u8>> {
    if word == "-" {
        return Some(Vec::new());
    }
    if word.is_empty() || !word.len().is_multiple_of(2) || !word.bytes().all(|digit| digit.is_ascii_hexdigit()) {
        return None;
    }
    (0..word.len()).step_by(2).map(|at| u8::from_str_radix(&word[at..at + 2], 16).ok()).collect()
}

/// Bytes as hex digits, `-` for none.
fn to_hex(bytes: &[u8]) -> String {
    match bytes {
        [] => "-".to_string(),
        _ => bytes.iter().map(|byte| format!("{byte:02x}")).collect(),
    }
}
