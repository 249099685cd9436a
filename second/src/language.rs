//! Whether a word is in an expression's language, found by a chart of spans.
//!
//! A span of an expression is a part of the word that is in its language. For each place where spans may end the chart
//! holds where they start. It is filled from the front, expression by expression and place by place, since operands are
//! earlier entries and what comes before a part's last piece ends at an earlier place. So nothing is unfolded, however
//! often an entry is shared, and nothing is tried until it stays the same.

use crate::expression::Expression;

/// Whether the expression of this number has the word in its language.
pub fn has_word(expressions: &[Expression], number: usize, word: &[u8]) -> bool {
    let asked = asked(expressions, number);
    let mut chart: Vec<Spans> = Vec::with_capacity(number + 1);
    for (expression, asked) in expressions.iter().zip(asked) {
        chart.push(if asked { Spans::of(*expression, &chart, word) } else { Spans::default() });
    }
    chart[number].ending_at[word.len()].has(0)
}

/// Which of the entries up to this one it is made of, itself among them: the chart needs no others.
fn asked(expressions: &[Expression], number: usize) -> Vec<bool> {
    let mut asked = vec![false; number + 1];
    asked[number] = true;
    for above in (0..=number).rev() {
        if asked[above] {
            expressions[above].operands().into_iter().for_each(|operand| asked[operand] = true);
        }
    }
    asked
}

/// The spans of one expression: for each place of the word the starts of those that end there.
#[derive(Default)]
struct Spans {
    ending_at: Vec<Starts>,
}

impl Spans {
    /// Place by place from the word's beginning.
    fn of(expression: Expression, chart: &[Spans], word: &[u8]) -> Spans {
        let mut spans = Spans { ending_at: Vec::with_capacity(word.len() + 1) };
        for end in 0..=word.len() {
            let starts = spans.starts(expression, chart, &word[..end]);
            spans.ending_at.push(starts);
        }
        spans
    }

    /// Where spans start that end where this beginning of the word does; the spans that end earlier are known.
    fn starts(&self, expression: Expression, chart: &[Spans], beginning: &[u8]) -> Starts {
        let end = beginning.len();
        let mut starts = Starts::none(end);
        match expression {
            Expression::Empty => starts.add(end),
            Expression::One(label) if beginning.last() == Some(&label) => starts.add(end - 1),
            Expression::One(_) => {}
            Expression::Then(left, right) => {
                for middle in chart[right].ending_at[end].descending() {
                    starts.add_all(&chart[left].ending_at[middle]);
                }
            }
            Expression::Either(left, right) => {
                starts.add_all(&chart[left].ending_at[end]);
                starts.add_all(&chart[right].ending_at[end]);
            }
            Expression::Star(piece) => {
                starts.add(end);
                for middle in chart[piece].ending_at[end].descending() {
                    // A start that is known came with all that lead to it. An empty last piece starts at the end, which
                    // is known.
                    if !starts.has(middle) {
                        starts.add_all(&self.ending_at[middle]);
                    }
                }
            }
        }
        starts
    }
}

/// A set of places up to some end, a bit for each: there may be thousands of starts for each of thousands of ends.
struct Starts {
    bits: Vec<u64>,
}

impl Starts {
    /// None of the places up to this end.
    fn none(end: usize) -> Starts {
        Starts { bits: vec![0; end / 64 + 1] }
    }

    fn add(&mut self, place: usize) {
        self.bits[place / 64] |= 1 << (place % 64);
    }

    fn has(&self, place: usize) -> bool {
        self.bits[place / 64] >> (place % 64) & 1 == 1
    }

    /// Adds those of a set that ends no later.
    fn add_all(&mut self, others: &Starts) {
        for (bits, more) in self.bits.iter_mut().zip(&others.bits) {
            *bits |= more;
        }
    }

    /// The places in the set, descending: of a star's last pieces the shortest brings the most starts.
    fn descending(&self) -> impl Iterator<Item = usize> + '_ {
        let some = self.bits.iter().enumerate().rev().filter(|(_, bits)| **bits != 0);
        some.flat_map(|(at, _)| (at * 64..at * 64 + 64).rev()).filter(|place| self.has(*place))
    }
}
