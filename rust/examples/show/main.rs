//! Draws a folder's roll for people: as an indented tree in the terminal, or as a picture of roll and view side by side.
//!
//! Who is visible, the view and the answer come from the calls; this program only draws.

mod folder;
mod svg;
mod tree;

use folder::Folder;
use std::ffi::OsString;
use std::io::{self, ErrorKind, IsTerminal, Write};
use std::os::unix::ffi::OsStrExt;
use std::path::PathBuf;
use std::process::ExitCode;
use std::{env, fs};

const USAGE: &str = "usage: show FOLDER [QUERY] [--svg FILE]
FOLDER has roll.rec, view.rec and filters.rec. With --svg the tree is written to FILE as a picture.";

/// What the command line asks for.
struct Asked {
    folder: PathBuf,
    query: Option<OsString>,
    svg: Option<PathBuf>,
}

fn main() -> ExitCode {
    let Some(asked) = asked_for(env::args_os().skip(1)) else {
        eprintln!("{USAGE}");
        return ExitCode::from(2);
    };
    match show(&asked) {
        Ok(()) => ExitCode::SUCCESS,
        Err(message) => {
            eprintln!("show: {message}");
            ExitCode::FAILURE
        }
    }
}

/// Nothing, if the command line is not of the form that the usage names.
fn asked_for(mut arguments: impl Iterator<Item = OsString>) -> Option<Asked> {
    let (mut folder, mut query, mut svg) = (None, None, None);
    while let Some(argument) = arguments.next() {
        if argument == "--svg" && svg.is_none() {
            svg = Some(PathBuf::from(arguments.next()?));
        } else if argument.as_bytes().starts_with(b"--") {
            return None;
        } else if folder.is_none() {
            folder = Some(PathBuf::from(argument));
        } else if query.is_none() {
            query = Some(argument);
        } else {
            return None;
        }
    }
    folder.map(|folder| Asked { folder, query, svg })
}

fn show(asked: &Asked) -> Result<(), String> {
    let sheet = Folder::read(&asked.folder)?.sheet(asked.query.as_ref().map(|query| query.as_bytes()))?;
    match &asked.svg {
        None => print(&tree::lines(&sheet, wants_colours())),
        Some(file) => {
            fs::write(file, svg::picture(&sheet)).map_err(|error| format!("{}: {error}", file.display()))?;
            print(&format!("{}\n", sheet.summary()))
        }
    }
}

fn wants_colours() -> bool {
    // An empty NO_COLOR counts as not set.
    io::stdout().is_terminal() && env::var_os("NO_COLOR").is_none_or(|value| value.is_empty())
}

/// A reader that goes away, as `head` does, is no fault.
fn print(text: &str) -> Result<(), String> {
    let mut out = io::stdout().lock();
    match out.write_all(text.as_bytes()).and_then(|()| out.flush()) {
        Err(error) if error.kind() != ErrorKind::BrokenPipe => Err(format!("standard output: {error}")),
        _ => Ok(()),
    }
}

#[cfg(test)]
mod tests {
    use super::*;

    fn asked(line: &str) -> Option<Asked> {
        asked_for(line.split(' ').map(OsString::from))
    }

    #[test]
    fn a_folder_a_query_and_a_file_are_taken_in_any_place() {
        for line in ["rolls v/v --svg out", "rolls --svg out v/v", "--svg out rolls v/v"] {
            let asked = asked(line).unwrap();
            assert_eq!((asked.folder, asked.query), (PathBuf::from("rolls"), Some(OsString::from("v/v"))));
            assert_eq!(asked.svg, Some(PathBuf::from("out")));
        }
        assert!(asked("rolls").is_some_and(|asked| asked.query.is_none() && asked.svg.is_none()));
    }

    #[test]
    fn any_other_line_is_bad_usage() {
        assert!(asked_for(std::iter::empty()).is_none());
        for line in ["--svg out", "rolls --svg", "rolls v v", "rolls --png out", "rolls --svg a --svg b", "--help"] {
            assert!(asked(line).is_none(), "{line}");
        }
    }
}
