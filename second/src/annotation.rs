//! Annotations: which pairs of labels have a filter that decides.

use crate::reply::{refusal, Refusal};
use crate::roll::is_label;
use crate::table::Entry;

const RECORD_BYTES: usize = 6;
const MOST_RECORDS: usize = 32;

/// A pair of labels and the filter that decides for it.
#[derive(Clone, Copy, Debug, PartialEq, Eq)]
pub struct Record {
    pub parent: u8,
    pub child: u8,
    pub filter: usize,
}

impl Record {
    fn pair(&self) -> (u8, u8) {
        (self.parent, self.child)
    }
}

/// The records of an annotation, their pairs ascending.
#[derive(Clone, Debug, Default, PartialEq, Eq)]
pub struct Annotation {
    pub records: Vec<Record>,
}

impl Annotation {
    /// The annotation over a filter table that is already accepted, or what is wrong with it (6, 10, 11).
    pub fn read(bytes: &[u8], filters: &[Entry]) -> Result<Annotation, Refusal> {
        if !bytes.len().is_multiple_of(RECORD_BYTES) || bytes.len() > MOST_RECORDS * RECORD_BYTES {
            return Err(refusal(6, 0));
        }
        let mut records: Vec<Record> = Vec::new();
        for (number, bytes) in bytes.chunks(RECORD_BYTES).enumerate() {
            let record = read_record(bytes, filters).ok_or(refusal(10, number))?;
            if records.last().is_some_and(|before| before.pair() >= record.pair()) {
                return Err(refusal(11, number));
            }
            records.push(record);
        }
        Ok(Annotation { records })
    }

    /// The number of the filter that decides for this pair, if one does.
    pub fn filter_for(&self, parent: u8, child: u8) -> Option<usize> {
        self.records.iter().find(|record| record.pair() == (parent, child)).map(|record| record.filter)
    }
}

/// One record, if its labels are labels, its last bytes zero, and the entry it names is there and is a filter.
fn read_record(bytes: &[u8], filters: &[Entry]) -> Option<Record> {
    let filter = usize::from(u16::from_le_bytes([bytes[2], bytes[3]]));
    let named = filters.get(filter).is_some_and(|entry| !entry.is_path());
    let sound = is_label(bytes[0]) && is_label(bytes[1]) && bytes[4..] == [0, 0] && named;
    sound.then_some(Record { parent: bytes[0], child: bytes[1], filter })
}
