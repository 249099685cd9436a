//! Printed queries: read again, counted by other means, and beside all short texts.

mod common;

use std::collections::HashMap;

use common::*;
use second::calls::{PRINT_ROOM, TEXT_ROOM};
use second::table::{self, Entry, CURATORS_QUERY};
use second::Reply;

/// The text printed for a table. Bytes behind it must stay, and all of them if it is refused.
fn print(query: &[u8]) -> Result<Vec<u8>, Reply> {
    written(second::print_query, query, PRINT_ROOM, 1)
}

/// The table of a text.
fn read(text: &[u8]) -> Result<Vec<u8>, Reply> {
    written(second::read_text, text, TEXT_ROOM, 6)
}

/// What a call writes into a room that is longer than it must be, where each one counted has so many bytes.
fn written(
    call: fn(&[u8], &mut [u8]) -> Reply,
    input: &[u8],
    room: usize,
    bytes_of_one: usize,
) -> Result<Vec<u8>, Reply> {
    let mut room = vec![UNTOUCHED; room + 3];
    let reply = call(input, &mut room);
    let bytes = if let Reply::Count(count) = reply { count * bytes_of_one } else { 0 };
    assert!(room[bytes..].iter().all(|byte| *byte == UNTOUCHED), "{reply} changed bytes behind what it counts");
    room.truncate(bytes);
    if bytes > 0 {
        Ok(room)
    } else {
        Err(reply)
    }
}

fn shown(text: &[u8]) -> String {
    String::from_utf8_lossy(text).into_owned()
}

fn brackets(text: &[u8]) -> usize {
    text.iter().filter(|byte| matches!(byte, b'[' | b'(' | b'{')).count()
}

#[test]
fn brackets_stay_only_where_the_grouping_needs_them() {
    for text in [
        ".",
        "v|^|>|<",
        "v/^/>/<",
        "v|(^|>)",
        "v/(^/>)",
        "v/^|>/<",
        "v/(^|>)/<",
        "(v|^)/>",
        "v|^/>*",
        "(v/^)*",
        "(v|^)*",
        "(v*)*",
        "((v*)*)*",
        "[t]*",
        "[#1]",
        "[#64]",
        "[t+f+#9]",
        "[t+{f+#9}]",
        "[t&f&#9]",
        "[t&{f&#9}]",
        "[t&f+#9&#10]",
        "[{t+f}&{#9+#10}]",
        "[!t&f]",
        "[!{t&f}]",
        "[!!t]",
        "[v|^]",
        "[!v|^]",
        "[v|^&!v/^+v*]",
        "[[v]|v]",
        "[(v|^)/v]",
    ] {
        assert_eq!(print(&query(text)).map(|text| shown(&text)), Ok(text.to_string()));
    }
    for (text, fewest) in [
        ("(v)", "v"),
        ("((v|^))|(>)", "v|^|>"),
        ("((v/^)/>)/<", "v/^/>/<"),
        ("(v/^)|(>/<)", "v/^|>/<"),
        ("((v)*)*", "(v*)*"),
        ("([t])*", "[t]*"),
        ("[{t}]", "[t]"),
        ("[{{t+f}+#9}]", "[t+f+#9]"),
        ("[{t&f}+{#9&#10}]", "[t&f+#9&#10]"),
        ("[{!t}&f]", "[!t&f]"),
        ("[!{!{t}}]", "[!!t]"),
        ("[(v|^)]", "[v|^]"),
        ("[{v|^}&(v|^)]", "[v|^&v|^]"),
        ("[!(v|^)]", "[!v|^]"),
    ] {
        assert_eq!(print(&query(text)).map(|text| shown(&text)), Ok(fewest.to_string()), "{text}");
    }
}

#[test]
fn tables_of_all_texts_of_up_to_four_bytes_come_back() {
    let mut tables = 0;
    for text in (1..=4).flat_map(|length| all_texts(BYTES, length)) {
        let Ok(table) = read(&text) else { continue };
        let printed = print(&table).unwrap_or_else(|refused| panic!("{}: {refused}", shown(&text)));
        assert_eq!(read(&printed), Ok(table), "{} and {}", shown(&text), shown(&printed));
        assert!(brackets(&printed) <= brackets(&text) && printed.len() <= text.len(), "{}", shown(&text));
        tables += 1;
    }
    // Of up to three bytes 72; of four: two atoms, an operator and `*`, `(a)*` and `(a*)`; `[a]*`,
    // `[t]*`, `[f]*`, `[a*]`, `[!a]`, `[!t]`, `[!f]`, and `[#1]` to `[#9]`.
    assert_eq!(tables, 72 + (5 * 5 * 4 + 5 + 5) + (5 + 1 + 1 + 5 + 5 + 1 + 1 + 9));
}

/// All query texts of up to so many bytes of an alphabet, by the table they are read into.
fn texts_by_table(alphabet: &[u8], most_bytes: usize) -> HashMap<Vec<u8>, Vec<Vec<u8>>> {
    let mut by_table: HashMap<_, Vec<_>> = HashMap::new();
    let mut beginnings = vec![vec![]];
    for length in 1..=most_bytes {
        let mut longer = Vec::new();
        for text in all_longer(&beginnings, alphabet) {
            match read(&text) {
                Ok(table) => by_table.entry(table).or_default().push(text.clone()),
                Err(refusal) if refusal != refused(14, length) => continue,
                Err(_) => {}
            }
            // Each bracket that is open takes one more byte to close.
            let closed = text.iter().filter(|byte| matches!(byte, b']' | b')' | b'}')).count();
            if length + brackets(&text) - closed <= most_bytes {
                longer.push(text);
            }
        }
        beginnings = longer;
    }
    by_table
}

fn all_longer(texts: &[Vec<u8>], alphabet: &[u8]) -> Vec<Vec<u8>> {
    texts.iter().flat_map(|text| alphabet.iter().map(|byte| [&text[..], &[*byte]].concat())).collect()
}

/// Of all texts for a table the printed one has the fewest brackets, and no other has as few.
fn check_fewest(by_table: HashMap<Vec<u8>, Vec<Vec<u8>>>) -> (usize, usize) {
    let tables = by_table.len();
    let mut bracketed = 0;
    for (table, texts) in by_table {
        let printed = print(&table).unwrap_or_else(|refused| panic!("{}: {refused}", shown(&texts[0])));
        assert!(texts.contains(&printed), "{} is no text like {}", shown(&printed), shown(&texts[0]));
        for text in texts.iter().filter(|text| **text != printed) {
            assert!(brackets(text) > brackets(&printed), "{} and {}", shown(&printed), shown(text));
        }
        bracketed += usize::from(printed.iter().any(|byte| matches!(byte, b'(' | b'{')));
    }
    (tables, bracketed)
}

#[test]
fn no_text_of_up_to_six_bytes_has_fewer_brackets() {
    let (tables, bracketed) = check_fewest(texts_by_table(BYTES, 6));
    // `(a/a)*`, `(a|a)*` and `(a*)*` with any of the five steps.
    assert!(tables > 1000 && bracketed == 55, "{tables} {bracketed}");
}

#[test]
fn no_text_of_up_to_nine_bytes_in_a_small_alphabet_has_fewer_brackets() {
    let (tables, bracketed) = check_fewest(texts_by_table(b"v[]()|/*!t{}+&", 9));
    assert!(tables > 1000 && bracketed > 100, "{tables} {bracketed}");
}

/// How many entries each entry comes to, written out one by one.
fn entries_written_out(table: &[Entry]) -> Vec<u64> {
    let mut entries: Vec<u64> = Vec::new();
    for entry in table {
        entries.push(1 + entry.operands().into_iter().map(|operand| entries[operand]).sum::<u64>());
    }
    entries
}

/// Writes an entry behind its operands, each used once; gives its new number.
fn write_out(table: &[Entry], number: usize, out: &mut Vec<[u8; 6]>) -> u16 {
    let operands = table[number].operands();
    let mut record = table[number].write();
    for (field, operand) in [2, 4].into_iter().zip(operands) {
        let moved = write_out(table, operand, out);
        record[field..field + 2].copy_from_slice(&moved.to_le_bytes());
    }
    out.push(record);
    out.len() as u16 - 1
}

/// The length of each entry's text by how tightly operators hold, which the program does not ask.
fn lengths(table: &[Entry]) -> Vec<u64> {
    let hold = |number: usize| match table[number] {
        Entry::Either(..) | Entry::Or(..) => 0,
        Entry::Then(..) | Entry::And(..) => 1,
        Entry::Star(_) => 2,
        _ => 3,
    };
    let mut lengths: Vec<u64> = Vec::new();
    for entry in table {
        let held = |number: usize, asked: u8| lengths[number] + if hold(number) < asked { 2 } else { 0 };
        lengths.push(match *entry {
            Entry::Label(label) => 2 + u64::from(label > 9),
            Entry::Stay(filter) => held(filter, 0) + 2,
            Entry::Leads(path) => held(path, 0),
            Entry::Star(path) => held(path, 3) + 1,
            Entry::Not(filter) => held(filter, 2) + 1,
            Entry::Then(left, right) | Entry::And(left, right) => held(left, 1) + 1 + held(right, 2),
            Entry::Either(left, right) | Entry::Or(left, right) => held(left, 0) + 1 + held(right, 1),
            _ => 1,
        });
    }
    lengths
}

/// What became of a table.
#[derive(Clone, Copy, PartialEq, Eq)]
enum Fate {
    /// Printed, and read again into the entries written out.
    Read,
    /// Printed, but the entries written out are too many for the reader.
    TooManyEntries,
    TooLong,
}

/// Prints a sound table and holds text, length and what is read again to the table.
fn check_printed(entries: &[Entry]) -> Fate {
    let last = entries.len() - 1;
    let length = lengths(entries)[last];
    let written_out = entries_written_out(entries)[last];
    match print(&table::write(entries)) {
        Err(refusal) => {
            assert!(refusal == refused(18, 0) && length > 1024, "{refusal}, {length} bytes: {entries:?}");
            // No entry comes to more than three bytes, so what the reader can have written is short enough.
            assert!(written_out * 3 > 1024, "{entries:?}");
            Fate::TooLong
        }
        Ok(text) => {
            assert_eq!(text.len() as u64, length, "{}", shown(&text));
            if written_out > 256 {
                assert_eq!(read(&text), Err(refused(16, 0)), "{}", shown(&text));
                return Fate::TooManyEntries;
            }
            let mut out = Vec::new();
            write_out(entries, last, &mut out);
            assert_eq!(read(&text), Ok(out.concat()), "{}", shown(&text));
            assert_eq!(print(&out.concat()), Ok(text));
            Fate::Read
        }
    }
}

/// A curator's query table whose entries are mostly joined from the newest ones, so that they are shared a lot.
fn shared_table(chance: &mut Chance) -> Vec<Entry> {
    let size = 1 + chance.below(64);
    let mut table = Vec::new();
    let mut ends_in_path = false;
    while table.len() < size || !ends_in_path {
        let entry = shared_entry(chance, &table);
        table.push(entry);
        if table::heights(&table)[table.len() - 1] > CURATORS_QUERY.height {
            table.pop();
        } else {
            ends_in_path = entry.is_path();
        }
    }
    table
}

fn shared_entry(chance: &mut Chance, table: &[Entry]) -> Entry {
    if table.is_empty() || chance.one_in(5) {
        let label = Entry::Label(1 + chance.below(64) as u8);
        let steps = [Entry::Itself, Entry::Child, Entry::Parent, Entry::Next, Entry::Previous];
        return if chance.one_in(2) {
            chance.one_of(&steps)
        } else {
            chance.one_of(&[label, Entry::True, Entry::False])
        };
    }
    let path = table[table.len() - 1 - chance.below(table.len().min(3))].is_path();
    let alike: Vec<usize> = (0..table.len()).filter(|number| table[*number].is_path() == path).collect();
    let newest = &alike[alike.len().saturating_sub(3)..];
    let (left, right) = (chance.one_of(newest), chance.one_of(newest));
    match (chance.below(6), path) {
        (0, true) => Entry::Star(left),
        (1, true) => Entry::Leads(left),
        (2 | 3, true) => Entry::Then(left, right),
        (_, true) => Entry::Either(left, right),
        (0, false) => Entry::Not(left),
        (1, false) => Entry::Stay(left),
        (2 | 3, false) => Entry::And(left, right),
        (_, false) => Entry::Or(left, right),
    }
}

#[test]
fn drawn_tables_are_read_again_or_have_too_many_entries() {
    let mut chance = Chance::new(7);
    let mut fates = Vec::new();
    for _ in 0..1000 {
        fates.extend([(); 5].map(|_| check_printed(&shared_table(&mut chance))));
        fates.push(check_printed(&some_table(&mut chance, CURATORS_QUERY, 64, true)));
    }
    let [read, many, long] = [Fate::Read, Fate::TooManyEntries, Fate::TooLong]
        .map(|fate| fates.iter().filter(|other| **other == fate).count());
    assert!(read > 1000 && many > 100 && long > 100, "{read} {many} {long}");
}

/// All entries of some kinds over these.
fn all_entries(table: &[Entry]) -> Vec<Entry> {
    let (paths, filters): (Vec<usize>, Vec<usize>) = (0..table.len()).partition(|number| table[*number].is_path());
    let pairs = |of: &[usize]| of.iter().flat_map(|l| of.iter().map(move |r| (*l, *r))).collect::<Vec<_>>();
    let mut entries = vec![Entry::Child, Entry::Label(10)];
    entries.extend(filters.iter().flat_map(|filter| [Entry::Stay(*filter), Entry::Not(*filter)]));
    entries.extend(paths.iter().flat_map(|path| [Entry::Star(*path), Entry::Leads(*path)]));
    entries.extend(pairs(&paths).into_iter().flat_map(|(l, r)| [Entry::Then(l, r), Entry::Either(l, r)]));
    entries.extend(pairs(&filters).into_iter().flat_map(|(l, r)| [Entry::And(l, r), Entry::Or(l, r)]));
    entries
}

#[test]
fn every_table_of_up_to_five_entries_is_printed_and_read_again() {
    let mut tables: Vec<Vec<Entry>> = vec![vec![]];
    let mut printed = 0;
    for _ in 0..5 {
        let one_longer = |table: &Vec<Entry>| {
            all_entries(table).into_iter().map(|entry| [&table[..], &[entry]].concat()).collect::<Vec<_>>()
        };
        tables = tables.iter().flat_map(one_longer).collect();
        for table in tables.iter().filter(|table| table[table.len() - 1].is_path()) {
            assert!(check_printed(table) == Fate::Read);
            printed += 1;
        }
    }
    assert!(printed > 10_000, "{printed}");
}

/// Taking a pair of brackets out of a printed text leaves no text, or one for another table.
#[test]
fn no_bracket_of_a_drawn_text_can_be_left_out() {
    let mut chance = Chance::new(8);
    let mut left_out = 0;
    for _ in 0..3000 {
        let Ok(text) = print(&table::write(&shared_table(&mut chance))) else { continue };
        let Ok(table) = read(&text) else { continue };
        for (open, close) in pairs_of_brackets(&text) {
            let without = [&text[..open], &text[open + 1..close], &text[close + 1..]].concat();
            assert_ne!(read(&without).as_ref(), Ok(&table), "{} and {}", shown(&text), shown(&without));
            left_out += 1;
        }
    }
    assert!(left_out > 1000, "{left_out}");
}

/// The places of brackets that belong together.
fn pairs_of_brackets(text: &[u8]) -> Vec<(usize, usize)> {
    let (mut open, mut pairs) = (Vec::new(), Vec::new());
    for (place, byte) in text.iter().enumerate() {
        match byte {
            b'[' | b'(' | b'{' => open.push(place),
            b']' | b')' | b'}' => pairs.push((open.pop().unwrap(), place)),
            _ => {}
        }
    }
    pairs
}

/// `[t]` with so many `!` in front of its `t`, at the end of a text that without it and its `|` has 1,005 bytes.
fn long_table(negations: usize) -> Vec<Entry> {
    // 1, 3, 9, 21, 45, 93, 189, 381 and 765 bytes: from the third on the right operand is in brackets.
    let mut table = vec![Entry::Child];
    for number in 0..8 {
        table.push(Entry::Either(number, number));
    }
    // 765 + 1 + 191 = 957 and 957 + 1 + 47 = 1,005.
    table.push(Entry::Either(8, 6));
    table.push(Entry::Either(9, 4));
    let left = table.len() - 1;
    table.push(Entry::True);
    for _ in 0..negations {
        table.push(Entry::Not(table.len() - 1));
    }
    table.push(Entry::Stay(table.len() - 1));
    table.push(Entry::Either(left, table.len() - 1));
    table
}

#[test]
fn texts_of_1024_bytes_are_printed_and_of_1025_refused() {
    for negations in 0..=28 {
        let table = long_table(negations);
        let bytes = 1005 + 4 + negations;
        let printed = print(&table::write(&table));
        match bytes {
            ..=1024 => {
                let text = printed.unwrap();
                assert_eq!(text.len(), bytes);
                assert!(text.ends_with(&[b"|[", &vec![b'!'; negations][..], b"t]"].concat()));
            }
            _ => assert_eq!(printed, Err(refused(18, 0)), "{bytes}"),
        }
        check_printed(&table);
    }
}

/// Each entry takes the one before it twice, so the last stands for 2^31 steps or 2^29 labels.
#[test]
fn a_text_that_could_never_be_written_is_refused_at_once() {
    let doubled = |ground: Vec<Entry>, height: usize, storey: fn(usize, usize) -> Entry| {
        let mut table = ground;
        while table.len() < height {
            table.push(storey(table.len() - 1, table.len() - 1));
        }
        table
    };
    for storey in [Entry::Then, Entry::Either] {
        assert!(check_printed(&doubled(vec![Entry::Child], 32, storey)) == Fate::TooLong);
    }
    for storey in [Entry::And, Entry::Or] {
        let mut table = doubled(vec![Entry::Label(64)], 31, storey);
        table.push(Entry::Stay(30));
        assert!(check_printed(&table) == Fate::TooLong);
    }
}

/// The most brackets that can be open at once are fewer than the reader allows.
#[test]
fn texts_as_deep_as_a_table_may_be_high_are_read_again() {
    for storey in [Entry::Then, Entry::Either] {
        let mut table = vec![Entry::Child];
        for _ in 1..32 {
            table.push(storey(0, table.len() - 1));
        }
        assert!(check_printed(&table) == Fate::Read);
        assert_eq!(print(&table::write(&table)).map(|text| brackets(&text)), Ok(30));
    }
    for storey in [Entry::And, Entry::Or] {
        let mut table = vec![Entry::True];
        for _ in 1..31 {
            table.push(storey(0, table.len() - 1));
        }
        table.push(Entry::Stay(30));
        assert!(check_printed(&table) == Fate::Read);
        assert_eq!(print(&table::write(&table)).map(|text| brackets(&text)), Ok(30));
    }
}
