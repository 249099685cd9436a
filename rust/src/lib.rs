//! The seven calls of Kepolas, a query engine for protected views, the printing of queries and the check of a roll's content, as
//! safe functions over the proved library.
//!
//! `docs/MANUAL.md` has all rules: what rolls, tables and annotations are, what a query means, what is refused. A call
//! checks its inputs itself, so any bytes may be handed in. It answers with a count, or with a [`Refusal`]: a reason, which
//! has a number and a name, and a place. A refused call changes no byte of the room lent to it.
//!
//! The calls are proved; this crate around them is not. They keep no state and may run in several threads
//! at once. [`answer_on_roll`] takes at most about 712 KB of stack, [`curators_answer`] about 242 KB and [`cut_view`] about
//! 180 KB, measured and not proved. The library is for x86-64 Linux: `bin/library` writes it.
//!
//! A curator's answer, from a query text, on the manual's worked roll:
//!
//! ```
//! let roll = include_bytes!("../../examples/worked/roll.rec");
//! let annotation = include_bytes!("../../examples/worked/view.rec");
//! let filters = include_bytes!("../../examples/worked/filters.rec");
//!
//! let mut query = [0; kepolas::rooms::TABLE];
//! let entries = kepolas::read_text(b"v/v", &mut query)?;
//! let mut bitmap = [0; kepolas::rooms::BITMAP];
//! let count = kepolas::curators_answer(roll, annotation, filters, &query[..6 * entries], &mut bitmap)?;
//! assert_eq!(count, 3);
//! assert!(kepolas::positions(&bitmap).eq([2, 4, 7]));
//! # Ok::<(), kepolas::Refusal>(())
//! ```

#![deny(missing_docs)]

mod calls;
mod refusal;

pub use refusal::{Reason, Refusal};

/// The bytes of room that calls ask for; a longer room will do. [`cut_view`] asks for one as long as the roll.
pub mod rooms {
    /// [`read_text`](crate::read_text): 256 entries of 6 bytes.
    pub const TABLE: usize = 1_536;
    /// [`answer_on_roll`](crate::answer_on_roll) and [`curators_answer`](crate::curators_answer): a bit for each of
    /// 4,096 nodes.
    pub const BITMAP: usize = 512;
    /// [`rewrite`](crate::rewrite): 1,024 entries of 6 bytes.
    pub const REWRITTEN: usize = 6_144;
    /// [`print_query`](crate::print_query): the longest text that is read.
    pub const TEXT: usize = 1_024;
}

/// What a call says that returned a number, 0 for no refusal, and told the count or the place.
fn heard(number: u64, told: usize) -> Result<usize, Refusal> {
    if number == 0 {
        return Ok(told);
    }
    let reason = Reason::of(number).expect("a call returns 0 or a number of the list of refusals");
    Err(Refusal { reason, place: told })
}

/// Call 1: checks a roll, a table of nodes of 4 bytes, and gives the number of nodes.
///
/// Refuses with [`RollLength`](Reason::RollLength), or for the lowest record that is not in order with
/// [`NodeLabel`](Reason::NodeLabel), [`SecondByte`](Reason::SecondByte) or [`ParentField`](Reason::ParentField).
///
/// ```
/// use kepolas::{check_roll, Reason, Refusal};
/// assert_eq!(check_roll(include_bytes!("../../examples/worked/roll.rec")), Ok(13));
/// assert_eq!(check_roll(&[1, 0, 0xff, 0xff, 65, 0, 0, 0]), Err(Refusal { reason: Reason::NodeLabel, place: 1 }));
/// ```
pub fn check_roll(roll: &[u8]) -> Result<usize, Refusal> {
    let mut told = 0;
    // SAFETY: the slice is good for its length and only read; `told` overlaps nothing.
    let number = unsafe { calls::kepolas_check_roll(roll.as_ptr(), roll.len(), &mut told) };
    heard(number, told)
}

/// Call 2: reads a query text into a table, entries of 6 bytes, and gives the number of entries. Bytes of the room behind
/// them stay as they were.
///
/// Refuses with [`ShortRoom`](Reason::ShortRoom) where the room is shorter than [`rooms::TABLE`], then with
/// [`TextLength`](Reason::TextLength), [`NotInGrammar`](Reason::NotInGrammar), [`TooManyOpen`](Reason::TooManyOpen),
/// [`TwoStars`](Reason::TwoStars) or [`TableTooLarge`](Reason::TableTooLarge). A refused call changes no byte of the room.
///
/// ```
/// use kepolas::{read_text, rooms, Reason, Refusal};
/// let mut room = [0; rooms::TABLE];
/// assert_eq!(read_text(b"v/v", &mut room), Ok(3));
/// assert_eq!(room[..18], [2, 0, 0, 0, 0, 0, 2, 0, 0, 0, 0, 0, 7, 0, 0, 0, 1, 0]);
///
/// let mut room = [9; rooms::TABLE];
/// assert_eq!(read_text(b"v//v", &mut room), Err(Refusal { reason: Reason::NotInGrammar, place: 2 }));
/// assert_eq!(room, [9; rooms::TABLE]);
/// ```
pub fn read_text(text: &[u8], room: &mut [u8]) -> Result<usize, Refusal> {
    let mut told = 0;
    // SAFETY: each slice is good for its length; the room and `told`, which are written, overlap nothing.
    let number =
        unsafe { calls::kepolas_read_text(text.as_ptr(), text.len(), room.as_mut_ptr(), room.len(), &mut told) };
    heard(number, told)
}

/// Call 3: answers a query table (to 1,024 entries, height 128) on a roll. Writes what it reaches from the root as a bitmap
/// of record numbers, 512 bytes, and gives the number of ones.
///
/// Refuses with [`ShortRoom`](Reason::ShortRoom) where the room is shorter than [`rooms::BITMAP`]; then as [`check_roll`];
/// then with [`QueryTable`](Reason::QueryTable) for the query's length, for its lowest entry that is not in order with
/// [`EntryMalformed`](Reason::EntryMalformed) or [`EntryHeight`](Reason::EntryHeight), and with
/// [`QueryTable`](Reason::QueryTable) where the last entry is no path. A refused call changes no byte of the room.
///
/// ```
/// use kepolas::{answer_on_roll, positions, rooms};
/// let roll = include_bytes!("../../examples/worked/roll.rec");
/// let child = [2, 0, 0, 0, 0, 0];
/// let mut bitmap = [0; rooms::BITMAP];
/// assert_eq!(answer_on_roll(roll, &child, &mut bitmap), Ok(2));
/// assert!(positions(&bitmap).eq([1, 8]));
/// ```
pub fn answer_on_roll(roll: &[u8], query: &[u8], room: &mut [u8]) -> Result<usize, Refusal> {
    let mut told = 0;
    // SAFETY: each slice is good for its length; the room and `told`, which are written, overlap nothing.
    let number = unsafe {
        calls::kepolas_answer_on_roll(
            roll.as_ptr(),
            roll.len(),
            query.as_ptr(),
            query.len(),
            room.as_mut_ptr(),
            room.len(),
            &mut told,
        )
    };
    heard(number, told)
}

/// Call 4: cuts out the view that an annotation, with its filter table, leaves of a roll. Writes the view, which is a roll
/// itself, and gives its number of nodes. Bytes of the room behind them stay as they were.
///
/// Refuses with [`ShortRoom`](Reason::ShortRoom) where the room is shorter than the roll; then as [`check_roll`]; then with
/// [`FilterLength`](Reason::FilterLength), or for the lowest entry that is not in order with
/// [`EntryMalformed`](Reason::EntryMalformed) or [`EntryHeight`](Reason::EntryHeight); then with
/// [`AnnotationLength`](Reason::AnnotationLength), or for the lowest record that is not in order with
/// [`AnnotationRecord`](Reason::AnnotationRecord) or [`PairOrder`](Reason::PairOrder). A refused call changes no byte of
/// the room.
///
/// ```
/// let roll = include_bytes!("../../examples/worked/roll.rec");
/// let annotation = include_bytes!("../../examples/worked/view.rec");
/// let filters = include_bytes!("../../examples/worked/filters.rec");
/// let mut view = [0; 52];
/// assert_eq!(kepolas::cut_view(roll, annotation, filters, &mut view), Ok(8));
/// assert_eq!(view[8..12], [5, 0, 1, 0]); // a word of a hidden draft has moved up to its case
/// assert_eq!(kepolas::check_roll(&view[..4 * 8]), Ok(8));
/// ```
pub fn cut_view(roll: &[u8], annotation: &[u8], filters: &[u8], room: &mut [u8]) -> Result<usize, Refusal> {
    let mut told = 0;
    // SAFETY: each slice is good for its length; the room and `told`, which are written, overlap nothing.
    let number = unsafe {
        calls::kepolas_cut_view(
            roll.as_ptr(),
            roll.len(),
            annotation.as_ptr(),
            annotation.len(),
            filters.as_ptr(),
            filters.len(),
            room.as_mut_ptr(),
            room.len(),
            &mut told,
        )
    };
    heard(number, told)
}

/// Call 5: rewrites a curator's query (to 256 entries, height 32) for an annotation with its filter table, with no roll in
/// hand. Writes a table for [`answer_on_roll`] and gives its number of entries: on every roll it reaches the nodes that her
/// query reaches on the view. The table begins with the filter table's entries; what follows them, and the count, no
/// caller may rest on. Bytes of the room behind the table stay as they were.
///
/// Refuses with [`ShortRoom`](Reason::ShortRoom) where the room is shorter than [`rooms::REWRITTEN`]; then as [`cut_view`]
/// for filter table and annotation; then as [`answer_on_roll`] for the query, with the limits of a curator's query. A
/// refused call changes no byte of the room.
///
/// ```
/// use kepolas::{answer_on_roll, positions, rewrite, rooms};
/// let roll = include_bytes!("../../examples/worked/roll.rec");
/// let annotation = include_bytes!("../../examples/worked/view.rec");
/// let filters = include_bytes!("../../examples/worked/filters.rec");
/// let child = [2, 0, 0, 0, 0, 0];
///
/// let mut rewritten = [0; rooms::REWRITTEN];
/// let entries = rewrite(annotation, filters, &child, &mut rewritten)?;
/// assert_eq!(rewritten[..72], filters[..]);
///
/// let mut bitmap = [0; rooms::BITMAP];
/// assert_eq!(answer_on_roll(roll, &rewritten[..6 * entries], &mut bitmap), Ok(2));
/// assert!(positions(&bitmap).eq([1, 11])); // the root's children in the view, as records
/// # Ok::<(), kepolas::Refusal>(())
/// ```
pub fn rewrite(annotation: &[u8], filters: &[u8], query: &[u8], room: &mut [u8]) -> Result<usize, Refusal> {
    let mut told = 0;
    // SAFETY: each slice is good for its length; the room and `told`, which are written, overlap nothing.
    let number = unsafe {
        calls::kepolas_rewrite(
            annotation.as_ptr(),
            annotation.len(),
            filters.as_ptr(),
            filters.len(),
            query.as_ptr(),
            query.len(),
            room.as_mut_ptr(),
            room.len(),
            &mut told,
        )
    };
    heard(number, told)
}

/// Call 6: the curator's answer, her query's (to 256 entries, height 32) on the view that an annotation, with its filter
/// table, leaves of a roll. Writes a bitmap of view positions, 512 bytes, and gives the number of ones. No view is cut out.
///
/// Refuses with [`ShortRoom`](Reason::ShortRoom) where the room is shorter than [`rooms::BITMAP`]; then as [`check_roll`],
/// as [`cut_view`] for filter table and annotation, and as [`answer_on_roll`] for the query, with the limits of a
/// curator's query. A refused call changes no byte of the room.
///
/// ```
/// use kepolas::{curators_answer, positions, rooms, Reason, Refusal};
/// let roll = include_bytes!("../../examples/worked/roll.rec");
/// let annotation = include_bytes!("../../examples/worked/view.rec");
/// let filters = include_bytes!("../../examples/worked/filters.rec");
/// let child = [2, 0, 0, 0, 0, 0];
/// let mut bitmap = [0; rooms::BITMAP];
/// assert_eq!(curators_answer(roll, annotation, filters, &child, &mut bitmap), Ok(2));
/// assert!(positions(&bitmap).eq([1, 6]));
///
/// let refused = curators_answer(roll, annotation, &[], &child, &mut bitmap);
/// assert_eq!(refused, Err(Refusal { reason: Reason::AnnotationRecord, place: 0 }));
/// assert!(positions(&bitmap).eq([1, 6])); // no byte has changed
/// ```
pub fn curators_answer(
    roll: &[u8],
    annotation: &[u8],
    filters: &[u8],
    query: &[u8],
    room: &mut [u8],
) -> Result<usize, Refusal> {
    let mut told = 0;
    // SAFETY: each slice is good for its length; the room and `told`, which are written, overlap nothing.
    let number = unsafe {
        calls::kepolas_curators_answer(
            roll.as_ptr(),
            roll.len(),
            annotation.as_ptr(),
            annotation.len(),
            filters.as_ptr(),
            filters.len(),
            query.as_ptr(),
            query.len(),
            room.as_mut_ptr(),
            room.len(),
            &mut told,
        )
    };
    heard(number, told)
}

/// Call 7: the run of a record, the part of the roll that holds the record and all its descendants. A bad roll, or a record
/// that is not in it, gives an empty part; nothing is refused.
///
/// ```
/// let roll = include_bytes!("../../examples/worked/roll.rec");
/// assert_eq!(kepolas::run_of(roll, 2), &roll[8..24]); // records 2 to 5
/// assert!(kepolas::run_of(roll, 13).is_empty());
/// ```
pub fn run_of(roll: &[u8], record: usize) -> &[u8] {
    let (mut start, mut end) = (0, 0);
    // SAFETY: the slice is good for its length and only read; `start` and `end` overlap nothing.
    unsafe { calls::kepolas_run_of(roll.as_ptr(), roll.len(), record, &mut start, &mut end) };
    &roll[start..end]
}

/// Printing: writes a curator's query table (to 256 entries, height 32) as text, with the fewest brackets that keep its
/// grouping and its stars apart, and gives the number of bytes. Bytes of the room behind them stay as they were. A table
/// that [`read_text`] wrote is always printed, and its text is read as the same bytes. The text of any other is read as a
/// query with the same answers on every roll, or refused with [`TableTooLarge`](Reason::TableTooLarge), since it has written
/// out what the table shares.
///
/// Refuses with [`ShortRoom`](Reason::ShortRoom) where the room is shorter than [`rooms::TEXT`]; then as
/// [`answer_on_roll`] for the query, with the limits of a curator's query; then with
/// [`TextTooLong`](Reason::TextTooLong) where the text is longer than 1,024 bytes. A refused call changes no byte of the
/// room.
///
/// ```
/// use kepolas::{print_query, read_text, rooms};
/// let mut table = [0; rooms::TABLE];
/// let entries = read_text(b"((v))/(v|^)", &mut table).unwrap();
/// let mut room = [0; rooms::TEXT];
/// let bytes = print_query(&table[..6 * entries], &mut room).unwrap();
/// assert_eq!(&room[..bytes], b"v/(v|^)");
/// ```
pub fn print_query(query: &[u8], room: &mut [u8]) -> Result<usize, Refusal> {
    let mut told = 0;
    // SAFETY: each slice is good for its length; the room and `told`, which are written, overlap nothing.
    let number =
        unsafe { calls::kepolas_print_query(query.as_ptr(), query.len(), room.as_mut_ptr(), room.len(), &mut told) };
    heard(number, told)
}

/// The check of a roll's content, and of the rules themselves: rule entries of 6 bytes (kinds 32 to 36; to 256 entries,
/// height 32) and their list, records of 4 bytes that name an entry for a label (to 64). Every node's child labels, in
/// order, must be in the language of the rule that its label has; a label that is not listed takes any children. Gives the
/// number of nodes.
///
/// Refuses as [`check_roll`]; then with [`RulesMalformed`](Reason::RulesMalformed), for a bad length of either, for the
/// lowest bad entry, for the lowest bad list record; then with [`ChildrenForbidden`](Reason::ChildrenForbidden) for the
/// lowest node whose children are not allowed.
///
/// ```
/// use kepolas::{check_content, Reason, Refusal};
/// // A root with label 1 and two children with label 2.
/// let roll = [1, 0, 0xff, 0xff, 2, 0, 0, 0, 2, 0, 0, 0];
/// // Entry 0: the label 2. Entry 1: zero or more of it. The list: entry 1 is the rule of label 1.
/// let rules = [33, 2, 0, 0, 0, 0, 36, 0, 0, 0, 0, 0];
/// assert_eq!(check_content(&roll, &rules, &[1, 0, 1, 0]), Ok(3));
/// // By entry 0 a node with label 1 has one child.
/// let refused = Refusal { reason: Reason::ChildrenForbidden, place: 0 };
/// assert_eq!(check_content(&roll, &rules, &[1, 0, 0, 0]), Err(refused));
/// ```
pub fn check_content(roll: &[u8], rules: &[u8], list: &[u8]) -> Result<usize, Refusal> {
    let mut told = 0;
    // SAFETY: each slice is good for its length and only read; `told` overlaps nothing.
    let number = unsafe {
        calls::kepolas_check_content(
            roll.as_ptr(),
            roll.len(),
            rules.as_ptr(),
            rules.len(),
            list.as_ptr(),
            list.len(),
            &mut told,
        )
    };
    heard(number, told)
}

/// The positions that are set in a bitmap, ascending: k is the bit of weight 2^(k mod 8) in byte k div 8.
///
/// ```
/// assert!(kepolas::positions(&[0b0100_0010, 1]).eq([1, 6, 8]));
/// ```
pub fn positions(bitmap: &[u8]) -> impl Iterator<Item = usize> + '_ {
    (0..8 * bitmap.len()).filter(|k| bitmap[k / 8] >> (k % 8) & 1 == 1)
}
