//! Where the figures go: a folder that is not kept, and the document.

use std::fs;
use std::path::{Path, PathBuf};

const BEGIN: &str = "<!-- figures: written by bin/bench --document -->\n";
const END: &str = "<!-- end of figures -->\n";

fn home() -> PathBuf {
    Path::new(env!("CARGO_MANIFEST_DIR")).join("..")
}

/// Writes the figures to `target/bench`.
pub fn leave(tables: &str, picture: &str) {
    let folder = home().join("target/bench");
    fs::create_dir_all(&folder).expect("the folder is made");
    fs::write(folder.join("figures.md"), tables).expect("the tables are written");
    fs::write(folder.join("answers.svg"), picture).expect("the picture is written");
}

/// Puts the figures in the place of the document's last ones, and the picture beside it.
pub fn replace(tables: &str, picture: &str) {
    let document = home().join("docs/BENCHMARKS.md");
    let text = fs::read_to_string(&document).expect("the document is read");
    let (before, rest) = text.split_once(BEGIN).expect("the figures begin in it");
    let (_, after) = rest.split_once(END).expect("the figures end in it");
    fs::write(&document, [before, BEGIN, "\n", tables, "\n", END, after].concat()).expect("the document is written");
    fs::write(home().join("docs/benchmarks.svg"), picture).expect("the picture is written");
}
