//! A folder's tables, and what the calls say of them.

use crate::tree::{nodes_of, Answer, Sheet};
use kepolas::{answer_on_roll, curators_answer, cut_view, positions, read_text, rewrite, rooms, Refusal};
use std::fs;
use std::path::Path;

/// The three tables of a folder.
pub struct Folder {
    roll: Vec<u8>,
    annotation: Vec<u8>,
    filters: Vec<u8>,
}

impl Folder {
    /// A file that cannot be read is named in the message.
    pub fn read(folder: &Path) -> Result<Folder, String> {
        let read = |name: &str| {
            let file = folder.join(name);
            fs::read(&file).map_err(|error| format!("{}: {error}", file.display()))
        };
        Ok(Folder { roll: read("roll.rec")?, annotation: read("view.rec")?, filters: read("filters.rec")? })
    }

    /// What is to be drawn. As in the program, a fault of the text comes before one of the files.
    pub fn sheet(&self, query: Option<&[u8]>) -> Result<Sheet, String> {
        let table = query.map(table_of).transpose().map_err(refused("the query"))?;
        let view = self.view().map_err(refused("the folder"))?;
        let visible = self.visible_records().map_err(refused("the folder"))?;
        let reached = table.map(|table| self.answer(&table)).transpose().map_err(refused("the query"))?;
        let answer = query.zip(reached).map(|(text, positions)| Answer {
            // Call 2 has accepted the text, so it is ASCII.
            query: String::from_utf8_lossy(text).into_owned(),
            positions,
        });
        Ok(Sheet { roll: nodes_of(&self.roll), view: nodes_of(&view), visible, answer })
    }

    /// Call 4.
    fn view(&self) -> Result<Vec<u8>, Refusal> {
        let mut view = vec![0; self.roll.len()];
        let nodes = cut_view(&self.roll, &self.annotation, &self.filters, &mut view)?;
        view.truncate(4 * nodes);
        Ok(view)
    }

    /// No call gives the visible records by themselves. On the view `v*` reaches every node, so its rewritten query (call 5) reaches
    /// exactly the visible records of the roll (call 3).
    fn visible_records(&self) -> Result<Vec<usize>, Refusal> {
        let everything = table_of(b"v*")?;
        let mut rewritten = [0; rooms::REWRITTEN];
        let entries = rewrite(&self.annotation, &self.filters, &everything, &mut rewritten)?;
        let mut reached = [0; rooms::BITMAP];
        answer_on_roll(&self.roll, &rewritten[..6 * entries], &mut reached)?;
        Ok(positions(&reached).collect())
    }

    /// Call 6.
    fn answer(&self, query: &[u8]) -> Result<Vec<usize>, Refusal> {
        let mut reached = [0; rooms::BITMAP];
        curators_answer(&self.roll, &self.annotation, &self.filters, query, &mut reached)?;
        Ok(positions(&reached).collect())
    }
}

/// Call 2.
fn table_of(text: &[u8]) -> Result<Vec<u8>, Refusal> {
    let mut table = vec![0; rooms::TABLE];
    let entries = read_text(text, &mut table)?;
    table.truncate(6 * entries);
    Ok(table)
}

/// The message for a refusal.
fn refused(what: &'static str) -> impl Fn(Refusal) -> String {
    move |refusal| {
        let (number, name) = (refusal.reason.number(), refusal.reason.name());
        format!("{what} is refused: {number} ({name}) at {}", refusal.place)
    }
}
