//! Rule entries (document 02, request Q-3): regular expressions over labels, made of earlier entries.

use crate::reply::{refusal, Refusal};
use crate::roll::is_label;
use crate::table::{height_over, operand_fields, record, Limits, ENTRY_BYTES};

pub const RULE_TABLE: Limits = Limits { entries: 256, height: 32 };

/// An expression with the numbers of the expressions it is made of.
#[derive(Clone, Copy, Debug, PartialEq, Eq, Hash)]
pub enum Expression {
    /// The word without labels.
    Empty,
    /// The word of this one label.
    One(u8),
    Then(usize, usize),
    Either(usize, usize),
    Star(usize),
}

use Expression::*;

impl Expression {
    /// The expression's kind as document 02 numbers it.
    fn kind(&self) -> u8 {
        match self {
            Empty => 32,
            One(_) => 33,
            Then(..) => 34,
            Either(..) => 35,
            Star(_) => 36,
        }
    }

    /// The entries it is made of, left one first.
    pub fn operands(&self) -> Vec<usize> {
        match *self {
            Empty | One(_) => vec![],
            Then(left, right) | Either(left, right) => vec![left, right],
            Star(left) => vec![left],
        }
    }

    /// The six bytes of the entry; what it does not use is zero.
    pub fn write(&self) -> [u8; ENTRY_BYTES] {
        let label = if let One(label) = self { *label } else { 0 };
        record(self.kind(), label, &self.operands())
    }

    /// The expression six bytes stand for as the entry of this number, if they stand for one.
    fn read(record: &[u8], number: usize) -> Option<Expression> {
        let (left, right) = operand_fields(record);
        let expression = match record[0] {
            32 => Empty,
            33 => One(record[1]),
            34 => Then(left, right),
            35 => Either(left, right),
            36 => Star(left),
            _ => return None,
        };
        let names_a_label = if let One(label) = expression { is_label(label) } else { true };
        let names_earlier = expression.operands().into_iter().all(|operand| operand < number);
        // Writing it again gives zero for all it does not use, so a difference is an unused field that is not zero.
        (names_a_label && names_earlier && expression.write() == record).then_some(expression)
    }
}

/// The expressions of whole entries one after the other, or 20 at the first that is malformed or too high.
pub fn read_entries(bytes: &[u8]) -> Result<Vec<Expression>, Refusal> {
    let mut expressions = Vec::with_capacity(bytes.len() / ENTRY_BYTES);
    let mut heights: Vec<usize> = Vec::with_capacity(bytes.len() / ENTRY_BYTES);
    for (number, record) in bytes.chunks(ENTRY_BYTES).enumerate() {
        let expression = Expression::read(record, number).ok_or(refusal(20, number))?;
        heights.push(height_over(&expression.operands(), &heights));
        if heights[number] > RULE_TABLE.height {
            return Err(refusal(20, number));
        }
        expressions.push(expression);
    }
    Ok(expressions)
}
