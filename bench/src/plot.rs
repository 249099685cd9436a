//! The answers as a picture: three groups of queries, one for each share of hidden nodes, and microseconds on a logarithmic scale.

use crate::xpath::{Answer, Share};

const LEFT: f64 = 80.0;
const TOP: f64 = 84.0;
const HEIGHT: f64 = 340.0;
const STEP: f64 = 46.0;
const GAP: f64 = 34.0;

/// What is drawn of an answer: its name, its mark, which shows where another lies on it, and its value.
const SERIES: [(&str, &str, fn(&Answer) -> f64); 3] = [
    ("call 6, on the roll", "r=\"5\" fill=\"#b3261e\"", |answer| answer.curators),
    ("call 3, on the view", "r=\"5\" fill=\"#1b6ca8\"", |answer| answer.on_view),
    ("libxml2, on the view", "r=\"7\" fill=\"none\" stroke=\"#202124\" stroke-width=\"2\"", |answer| answer.peer),
];

/// The powers of ten below and above all values.
struct Scale {
    low: i32,
    high: i32,
}

impl Scale {
    fn of(shares: &[Share]) -> Scale {
        let answers = || shares.iter().flat_map(|share| &share.answers);
        let values = || answers().flat_map(|answer| SERIES.map(|(_, _, value)| value(answer).log10()));
        let low = values().fold(f64::INFINITY, f64::min).floor();
        let high = values().fold(f64::NEG_INFINITY, f64::max).ceil();
        Scale { low: low as i32, high: high as i32 }
    }

    fn height_of(&self, value: f64) -> f64 {
        let part = (value.log10() - f64::from(self.low)) / f64::from(self.high - self.low);
        TOP + HEIGHT * (1.0 - part)
    }
}

fn escaped(text: &str) -> String {
    text.replace('&', "&amp;").replace('<', "&lt;").replace('>', "&gt;")
}

fn text(at: (f64, f64), words: &str, more: &str) -> String {
    format!("<text x=\"{:.1}\" y=\"{:.1}\" {more}>{}</text>\n", at.0, at.1, escaped(words))
}

fn line(from: (f64, f64), to: (f64, f64), colour: &str) -> String {
    let ((x1, y1), (x2, y2)) = (from, to);
    format!("<line x1=\"{x1:.1}\" y1=\"{y1:.1}\" x2=\"{x2:.1}\" y2=\"{y2:.1}\" stroke=\"{colour}\"/>\n")
}

fn circle((x, y): (f64, f64), mark: &str) -> String {
    format!("<circle cx=\"{x:.1}\" cy=\"{y:.1}\" {mark}/>\n")
}

/// The lines of the scale, at each power of ten, with their microseconds.
fn grid(scale: &Scale, right: f64) -> String {
    let mut drawn = String::new();
    for power in scale.low..=scale.high {
        let y = scale.height_of(10f64.powi(power));
        drawn += &line((LEFT, y), (right, y), "#dadce0");
        drawn += &text((LEFT - 8.0, y + 4.0), &10f64.powi(power).to_string(), "text-anchor=\"end\"");
    }
    let middle = TOP + HEIGHT / 2.0;
    drawn
        + &text(
            (22.0, middle),
            "µs an answer, logarithmic",
            &format!("text-anchor=\"middle\" transform=\"rotate(-90 22 {middle})\""),
        )
}

/// One answer: its three values as dots on one upright line, and the query's text below.
fn answer(scale: &Scale, x: f64, answer: &Answer) -> String {
    let values = SERIES.map(|(_, _, value)| scale.height_of(value(answer)));
    let (top, bottom) = (values.into_iter().fold(f64::INFINITY, f64::min), values.into_iter().fold(0.0, f64::max));
    let mut drawn = line((x, top), (x, bottom), "#bdc1c6");
    SERIES.iter().zip(values).for_each(|((_, mark, _), y)| drawn += &circle((x, y), mark));
    let below = TOP + HEIGHT + 16.0;
    drawn
        + &text(
            (x + 4.0, below),
            answer.text,
            &format!("text-anchor=\"end\" transform=\"rotate(-45 {:.1} {below})\"", x + 4.0),
        )
}

fn group(scale: &Scale, left: f64, share: &Share) -> String {
    let right = left + STEP * share.answers.len() as f64;
    let title = format!("{:.1} per cent hidden, {} nodes shown", share.hidden, share.nodes);
    let mut drawn = text(((left + right) / 2.0, TOP - 12.0), &title, "text-anchor=\"middle\" font-weight=\"bold\"");
    drawn += &line((left, TOP + HEIGHT), (right, TOP + HEIGHT), "#202124");
    for (at, one) in share.answers.iter().enumerate() {
        drawn += &answer(scale, left + STEP * (at as f64 + 0.5), one);
    }
    drawn
}

fn legend() -> String {
    let mut drawn = text((LEFT, 28.0), "An answer on the court roll", "font-size=\"16\"");
    for (at, (name, mark, _)) in SERIES.iter().enumerate() {
        let x = LEFT + 300.0 + 190.0 * at as f64;
        drawn += &circle((x, 23.0), mark);
        drawn += &text((x + 14.0, 28.0), name, "");
    }
    drawn
}

pub fn svg(shares: &[Share]) -> String {
    let scale = Scale::of(shares);
    let widths = shares.iter().map(|share| STEP * share.answers.len() as f64);
    let right = LEFT + widths.sum::<f64>() + GAP * shares.len() as f64;
    let mut drawn = format!(
        "<svg xmlns=\"http://www.w3.org/2000/svg\" width=\"{0:.0}\" height=\"{1:.0}\" viewBox=\"0 0 {0:.0} {1:.0}\" \
         font-family=\"sans-serif\" font-size=\"13\">\n<rect width=\"100%\" height=\"100%\" fill=\"white\"/>\n",
        right + 10.0,
        TOP + HEIGHT + 130.0
    );
    drawn += &legend();
    drawn += &grid(&scale, right);
    let mut left = LEFT + GAP / 2.0;
    for share in shares {
        drawn += &group(&scale, left, share);
        left += STEP * share.answers.len() as f64 + GAP;
    }
    drawn + "</svg>\n"
}
