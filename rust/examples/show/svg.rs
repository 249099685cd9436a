//! The same drawing as a picture: the roll at the left, the view at the right, each node of the view at the height of its record.

use crate::tree::{counted, depths, Node, Sheet, Standing};
use std::fmt::Write;

const ROW: usize = 32;
const INDENT: usize = 36;
const RADIUS: usize = 14;
const MARGIN: usize = 28;
/// Room for the two lines above the trees.
const HEAD: usize = 84;
/// From the deepest circle of the roll to the root of the view, with the labels between.
const GAP: usize = 110;
/// For the label at the right of a circle, `#64` at the widest.
const LABEL_ROOM: usize = 34;
/// A longer query is cut off in the heading; the title has it in full.
const QUERY_SHOWN: usize = 40;
/// More than a letter of the headings needs: how wide it is, is known only where the picture is shown.
const LETTER: usize = 8;

/// One of the two trees: its nodes, and where they stand.
struct Layout<'a> {
    nodes: &'a [Node],
    places: Vec<(usize, usize)>,
}

impl<'a> Layout<'a> {
    /// A tree that begins at `left`, with its nodes in the given rows.
    fn new(nodes: &'a [Node], left: usize, rows: impl Iterator<Item = usize>) -> Self {
        let places = depths(nodes).into_iter().zip(rows).map(|(depth, row)| (left + depth * INDENT, HEAD + row * ROW));
        Layout { nodes, places: places.collect() }
    }

    fn right_edge(&self) -> usize {
        self.places.iter().map(|place| place.0).max().unwrap_or(0)
    }
}

/// The whole picture. It needs nothing outside of itself.
pub fn picture(sheet: &Sheet) -> String {
    let roll = Layout::new(&sheet.roll, MARGIN, 0..sheet.roll.len());
    let view_left = roll.right_edge() + GAP;
    let view = Layout::new(&sheet.view, view_left, sheet.visible.iter().copied());
    let width =
        (view.right_edge() + LABEL_ROOM).max(view_left + 2 * GAP).max(LETTER * legend(sheet).chars().count()) + MARGIN;
    let height = HEAD + sheet.roll.len() * ROW;

    let mut svg = opening(sheet, width, height);
    svg += &headings(sheet, view_left);
    svg += &same_node_lines(&roll, &view, &sheet.visible);
    svg += &edges(&roll);
    svg += &edges(&view);
    svg += &circles(&roll, |record| sheet.standing(record));
    svg += &circles(&view, |position| sheet.standing_in_view(position));
    svg + "</svg>\n"
}

fn opening(sheet: &Sheet, width: usize, height: usize) -> String {
    let title = escaped(&format!("A roll and its view: {}", sheet.summary()));
    // The background is drawn, since a page may be dark.
    format!(
        "<svg xmlns=\"http://www.w3.org/2000/svg\" width=\"{width}\" height=\"{height}\" viewBox=\"0 0 {width} {height}\" \
         role=\"img\" font-family=\"sans-serif\" font-size=\"13\">\n\
         <title>{title}</title>\n<rect width=\"{width}\" height=\"{height}\" fill=\"#ffffff\"/>\n"
    )
}

/// What the two trees are, below the legend.
fn headings(sheet: &Sheet, view_left: usize) -> String {
    let left = MARGIN - RADIUS;
    let mut text = heading(left, 24, &legend(sheet));
    text += &heading(left, 52, &format!("roll: {}", counted(sheet.roll.len(), "record")));
    text + &heading(view_left - RADIUS, 52, &format!("view: {}", counted(sheet.view.len(), "position")))
}

/// How to read the circles.
fn legend(sheet: &Sheet) -> String {
    match &sheet.answer {
        None => "dashed: hidden".to_string(),
        Some(answer) => {
            format!("dashed: hidden; filled: answer to {} ({})", shortened(&answer.query), answer.positions.len())
        }
    }
}

fn heading(x: usize, y: usize, text: &str) -> String {
    format!("<text x=\"{x}\" y=\"{y}\" fill=\"#222222\">{}</text>\n", escaped(text))
}

fn shortened(query: &str) -> String {
    match query.char_indices().nth(QUERY_SHOWN) {
        None => query.to_string(),
        Some((end, _)) => format!("{}…", &query[..end]),
    }
}

/// A faint line from each visible record to itself in the view.
fn same_node_lines(roll: &Layout, view: &Layout, visible: &[usize]) -> String {
    let mut lines = String::from("<g stroke=\"#bbbbbb\" stroke-dasharray=\"1 4\">\n");
    for (&record, &(view_x, y)) in visible.iter().zip(&view.places) {
        let start = roll.places[record].0 + RADIUS + LABEL_ROOM;
        writeln!(lines, "<path d=\"M{start} {y}H{}\"/>", view_x - RADIUS).expect("a string takes all text");
    }
    lines + "</g>\n"
}

/// From each parent down, and then right to the child.
fn edges(tree: &Layout) -> String {
    let mut lines = String::from("<g fill=\"none\" stroke=\"#999999\">\n");
    for (node, (x, y)) in tree.nodes.iter().zip(&tree.places) {
        if let Some(parent) = node.parent {
            let (parent_x, parent_y) = tree.places[parent];
            writeln!(lines, "<path d=\"M{parent_x} {}V{y}H{}\"/>", parent_y + RADIUS, x - RADIUS)
                .expect("a string takes all text");
        }
    }
    lines + "</g>\n"
}

/// The nodes: the number in the circle is the record's or the position's, the label stands beside it.
fn circles(tree: &Layout, standing: impl Fn(usize) -> Standing) -> String {
    let mut drawn = String::new();
    for (number, (node, (x, y))) in tree.nodes.iter().zip(&tree.places).enumerate() {
        let (circle, ink) = style(standing(number));
        let (baseline, beside) = (y + 4, x + RADIUS + 4);
        writeln!(
            drawn,
            "<circle cx=\"{x}\" cy=\"{y}\" r=\"{RADIUS}\" {circle}/>\
             <text x=\"{x}\" y=\"{baseline}\" text-anchor=\"middle\" font-size=\"10\" fill=\"{ink}\">{number}</text>\
             <text x=\"{beside}\" y=\"{baseline}\" fill=\"{ink}\">#{}</text>",
            node.label
        )
        .expect("a string takes all text");
    }
    drawn
}

/// How the circle looks, and the colour of what is written.
fn style(standing: Standing) -> (&'static str, &'static str) {
    match standing {
        Standing::Hidden => ("fill=\"#ffffff\" stroke=\"#888888\" stroke-dasharray=\"3 3\"", "#777777"),
        Standing::Visible(_) => ("fill=\"#ffffff\" stroke=\"#222222\"", "#222222"),
        Standing::Answer(_) => ("fill=\"#f5c04a\" stroke=\"#222222\"", "#222222"),
    }
}

/// Query texts have `<`, `>` and `&` in them.
fn escaped(text: &str) -> String {
    text.replace('&', "&amp;").replace('<', "&lt;").replace('>', "&gt;").replace('"', "&quot;")
}
