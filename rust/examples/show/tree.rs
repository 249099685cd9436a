//! A roll with its view and an answer, ready to be drawn, and the drawing as lines of text.

/// A node of a roll or of a view, as its table has it.
pub struct Node {
    pub label: u8,
    pub parent: Option<usize>,
}

/// What is drawn. All of it comes from the calls; nothing here works out who is visible.
pub struct Sheet {
    pub roll: Vec<Node>,
    pub view: Vec<Node>,
    /// The visible records, ascending: the record at place k has the view position k.
    pub visible: Vec<usize>,
    pub answer: Option<Answer>,
}

/// A query's text and what it reaches, in view positions, ascending.
pub struct Answer {
    pub query: String,
    pub positions: Vec<usize>,
}

/// What a record is to the curator.
#[derive(Clone, Copy, Debug, PartialEq, Eq)]
pub enum Standing {
    Hidden,
    Visible(usize),
    Answer(usize),
}

impl Sheet {
    /// What a record is to the curator, with its view position if it has one.
    pub fn standing(&self, record: usize) -> Standing {
        match self.visible.binary_search(&record) {
            Err(_) => Standing::Hidden,
            Ok(position) => self.standing_in_view(position),
        }
    }

    /// The same for a node of the view.
    pub fn standing_in_view(&self, position: usize) -> Standing {
        let reached = self.answer.as_ref().is_some_and(|answer| answer.positions.binary_search(&position).is_ok());
        if reached {
            Standing::Answer(position)
        } else {
            Standing::Visible(position)
        }
    }

    /// One line that says how much there is.
    pub fn summary(&self) -> String {
        let counts = format!("{}, {} visible", counted(self.roll.len(), "record"), self.view.len());
        match &self.answer {
            None => counts,
            Some(answer) => format!("{counts}; {} reaches {}", answer.query, answer.positions.len()),
        }
    }
}

/// So many of something, as one writes it.
pub fn counted(count: usize, thing: &str) -> String {
    format!("{count} {thing}{}", if count == 1 { "" } else { "s" })
}

/// The nodes of a table that the calls have accepted or written: label, zero byte, parent's record number with the low byte first.
pub fn nodes_of(table: &[u8]) -> Vec<Node> {
    let node = |record: &[u8]| {
        let parent = u16::from_le_bytes([record[2], record[3]]);
        Node { label: record[0], parent: (parent != u16::MAX).then_some(usize::from(parent)) }
    };
    table.chunks_exact(4).map(node).collect()
}

/// How far each node stands below the root.
pub fn depths(nodes: &[Node]) -> Vec<usize> {
    let mut depths: Vec<usize> = Vec::with_capacity(nodes.len());
    for node in nodes {
        depths.push(node.parent.map_or(0, |parent| depths[parent] + 1));
    }
    depths
}

/// Marks stand in one column, but not further right than this: a deep roll would else be mostly spaces.
const FURTHEST_COLUMN: usize = 60;

/// The roll as an indented tree, a line for each record, and the summary. Colours are only an addition: the marks are words and signs.
pub fn lines(sheet: &Sheet, colours: bool) -> String {
    let names: Vec<String> =
        sheet.roll.iter().enumerate().map(|(record, node)| format!("{record} #{}", node.label)).collect();
    let widths: Vec<usize> =
        depths(&sheet.roll).iter().zip(&names).map(|(depth, name)| 4 * depth + name.len()).collect();
    let column = widths.iter().copied().max().unwrap_or(0).min(FURTHEST_COLUMN);
    let mut text = String::new();
    for (record, branch) in branches(&sheet.roll).into_iter().enumerate() {
        let standing = sheet.standing(record);
        let space = " ".repeat(column.saturating_sub(widths[record]) + 2);
        text += &branch;
        text += &painted(&format!("{}{space}{}", names[record], mark(standing)), standing, colours);
        text.push('\n');
    }
    text + "\n" + &sheet.summary() + legend(sheet) + "\n"
}

/// The mark of an answer needs its word only where there is one.
fn legend(sheet: &Sheet) -> &'static str {
    match sheet.answer {
        None => "",
        Some(_) => ", marked *",
    }
}

fn mark(standing: Standing) -> String {
    match standing {
        Standing::Hidden => "hidden".to_string(),
        Standing::Visible(position) => format!("→ {position}"),
        Standing::Answer(position) => format!("→ {position} *"),
    }
}

/// Hidden records are dimmed, those of the answer bold and green.
fn painted(text: &str, standing: Standing, colours: bool) -> String {
    match standing {
        Standing::Hidden if colours => format!("\x1b[2m{text}\x1b[0m"),
        Standing::Answer(_) if colours => format!("\x1b[1;32m{text}\x1b[0m"),
        _ => text.to_string(),
    }
}

/// What stands before each record: a line down for each ancestor that has siblings still to come, and its own branch.
fn branches(nodes: &[Node]) -> Vec<String> {
    let last = last_children(nodes);
    let mut lines_down: Vec<&str> = Vec::new();
    let mut branches = Vec::with_capacity(nodes.len());
    for (record, depth) in depths(nodes).into_iter().enumerate() {
        if depth == 0 {
            branches.push(String::new());
            continue;
        }
        // Records stand in document order, so what is left of the list belongs to this record's own ancestors.
        lines_down.truncate(depth - 1);
        branches.push(lines_down.concat() + if last[record] { "└── " } else { "├── " });
        lines_down.push(if last[record] { "    " } else { "│   " });
    }
    branches
}

/// Whether a record is its parent's last child.
fn last_children(nodes: &[Node]) -> Vec<bool> {
    let mut has_later_child = vec![false; nodes.len()];
    let mut last = vec![true; nodes.len()];
    for (record, node) in nodes.iter().enumerate().rev() {
        if let Some(parent) = node.parent {
            last[record] = !has_later_child[parent];
            has_later_child[parent] = true;
        }
    }
    last
}
