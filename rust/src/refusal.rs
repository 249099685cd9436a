//! Why a call refuses, and where.

use std::fmt;

/// Why a call refuses: one variant for each number of the list of refusals.
#[derive(Clone, Copy, Debug, PartialEq, Eq, Hash)]
#[repr(u8)]
pub enum Reason {
    /// 1: the room lent is shorter than the call names.
    ShortRoom = 1,
    /// 2: roll length is 0, not a multiple of 4, or above 16,384.
    RollLength = 2,
    /// 3: a node's label is outside 1 to 64. The place is the record.
    NodeLabel = 3,
    /// 4: a node's second byte is not zero. The place is the record.
    SecondByte = 4,
    /// 5: a node's parent field breaks the rule. The place is the record.
    ParentField = 5,
    /// 6: annotation length is not a multiple of 6, or above 192.
    AnnotationLength = 6,
    /// 7: filter table length is not a multiple of 6, or above 1,536.
    FilterLength = 7,
    /// 8: an entry is malformed: kind, unused field, operand's number or sort, label. The place is the entry.
    EntryMalformed = 8,
    /// 9: an entry's height is above the limit of its table. The place is the entry.
    EntryHeight = 9,
    /// 10: an annotation label is outside 1 to 64, the last bytes are not zero, or no filter entry is named. The place
    /// is the record.
    AnnotationRecord = 10,
    /// 11: a pair of labels is not above the one before. The place is the record.
    PairOrder = 11,
    /// 12: query table length is 0, not a multiple of 6 or above its limit, with the place 0; or its last entry is no
    /// path, with the place of that entry.
    QueryTable = 12,
    /// 13: text length is 0 or above 1,024.
    TextLength = 13,
    /// 14: the text is not in the grammar. The place is the first byte that no text goes on with, or the text's length.
    NotInGrammar = 14,
    /// 15: a bracket is opened while 32 are open. The place is that byte.
    TooManyOpen = 15,
    /// 16: the text is in the grammar, but its table passes 256 entries or height 32.
    TableTooLarge = 16,
    /// 17: a file cannot be read. The program alone says so; no call does.
    FileUnreadable = 17,
    /// 18: the text to be printed is longer than 1,024 bytes.
    TextTooLong = 18,
    /// 19: a star stands right behind a star; the place is the first such star.
    TwoStars = 19,
    /// 20: rule entries or their list are malformed: the place is 0 for a bad length of either, else the lowest bad entry,
    /// else the lowest bad list record.
    RulesMalformed = 20,
    /// 21: a node's children are not allowed by its label's rule. The place is the record.
    ChildrenForbidden = 21,
}

/// All reasons, in the order of their numbers.
const ALL: [Reason; 21] = [
    Reason::ShortRoom,
    Reason::RollLength,
    Reason::NodeLabel,
    Reason::SecondByte,
    Reason::ParentField,
    Reason::AnnotationLength,
    Reason::FilterLength,
    Reason::EntryMalformed,
    Reason::EntryHeight,
    Reason::AnnotationRecord,
    Reason::PairOrder,
    Reason::QueryTable,
    Reason::TextLength,
    Reason::NotInGrammar,
    Reason::TooManyOpen,
    Reason::TableTooLarge,
    Reason::FileUnreadable,
    Reason::TextTooLong,
    Reason::TwoStars,
    Reason::RulesMalformed,
    Reason::ChildrenForbidden,
];

impl Reason {
    /// The number in the list of refusals, 1 to 21.
    pub fn number(self) -> u8 {
        self as u8
    }

    /// The words of the list of refusals, short.
    ///
    /// ```
    /// assert_eq!(kepolas::Reason::NotInGrammar.name(), "text not in the grammar");
    /// ```
    pub fn name(self) -> &'static str {
        match self {
            Reason::ShortRoom => "output shorter than the room named",
            Reason::RollLength => "roll length 0, not a multiple of 4, or above 16,384",
            Reason::NodeLabel => "label outside 1 to 64",
            Reason::SecondByte => "second byte not zero",
            Reason::ParentField => "parent field breaks the rule",
            Reason::AnnotationLength => "annotation length not a multiple of 6, or above 192",
            Reason::FilterLength => "filter table length not a multiple of 6, or above 1,536",
            Reason::EntryMalformed => "entry malformed",
            Reason::EntryHeight => "entry's height above the limit of its table",
            Reason::AnnotationRecord => {
                "annotation label outside 1 to 64, last bytes not zero, or no filter entry named"
            }
            Reason::PairOrder => "pair not above the one before",
            Reason::QueryTable => "query table length wrong, or its last entry no path",
            Reason::TextLength => "text length 0 or above 1,024",
            Reason::NotInGrammar => "text not in the grammar",
            Reason::TooManyOpen => "bracket opened while 32 are open",
            Reason::TableTooLarge => "text's table passes 256 entries or height 32",
            Reason::FileUnreadable => "file cannot be read",
            Reason::TextTooLong => "printed text longer than 1,024 bytes",
            Reason::TwoStars => "star right behind a star",
            Reason::RulesMalformed => "rule entries or their list malformed",
            Reason::ChildrenForbidden => "children not allowed",
        }
    }

    /// The reason that has a number; none has 0 or a number above 21.
    ///
    /// ```
    /// use kepolas::Reason;
    /// assert_eq!(Reason::of(14), Some(Reason::NotInGrammar));
    /// assert_eq!(Reason::of(0), None);
    /// ```
    pub fn of(number: u64) -> Option<Reason> {
        let place = usize::try_from(number).ok()?.checked_sub(1)?;
        ALL.get(place).copied()
    }
}

/// A refusal: why, and where. What the place counts is said at each [`Reason`]; it is 0 where nothing is said.
///
/// ```
/// use kepolas::{Reason, Refusal};
/// let refusal = Refusal { reason: Reason::NotInGrammar, place: 2 };
/// assert_eq!(refusal.to_string(), "refusal 14 at 2: text not in the grammar");
/// ```
#[derive(Clone, Copy, Debug, PartialEq, Eq, Hash)]
pub struct Refusal {
    /// Why.
    pub reason: Reason,
    /// Where: the number of a record, an entry or a byte, or 0.
    pub place: usize,
}

impl fmt::Display for Refusal {
    fn fmt(&self, f: &mut fmt::Formatter<'_>) -> fmt::Result {
        write!(f, "refusal {} at {}: {}", self.reason.number(), self.place, self.reason.name())
    }
}

impl std::error::Error for Refusal {}
