//! No compiler holds the declarations of the calls to the library. So texts are compared: the proved source, the header for C and this
//! crate declare the same functions, with the same parameters in the same order.

const PROVED: &str = include_str!("../../crates/kepolas_c/src/lib.rt");
const HEADER: &str = include_str!("../../include/kepolas.h");
const DECLARED: &str = include_str!("../src/calls.rs");

/// Types as the source has them, and as a number or pointer that Rust declares. A slice has its length behind it.
const PASSED: [(&str, &str); 4] =
    [("&[u8]", "*const u8"), ("&mut [u8]", "*mut u8"), ("&mut usize", "*mut usize"), ("usize", "usize")];

/// Types as the header has them, longest first, and as Rust declares them.
const IN_C: [(&str, &str); 4] =
    [("const uint8_t *", "*const u8"), ("uint8_t *", "*mut u8"), ("size_t *", "*mut usize"), ("size_t ", "usize")];

/// What stands behind each start of a function up to its end, with single spaces.
fn heads<'a>(text: &'a str, start: &'a str, end: &'a str) -> impl Iterator<Item = String> + 'a {
    let heads = text.split(start).skip(1).map(move |rest| rest.split(end).next().expect("split gives one part"));
    heads.map(|head| head.split_whitespace().collect::<Vec<_>>().join(" "))
}

/// A function as one line, each parameter put as `change` does; `result` is what it returns.
fn line(head: &str, result: &str, change: impl Fn(&str) -> String) -> String {
    let (name, rest) = head.split_once('(').expect("a function has parameters");
    let inside = rest.split(')').next().expect("split gives one part");
    let parameters: Vec<String> = inside.split(',').map(str::trim).filter(|p| !p.is_empty()).map(change).collect();
    format!("{name}({}){result}", parameters.join(", "))
}

/// What a head returns, in Rust and in Rattle.
fn result(head: &str) -> &'static str {
    if head.contains("-> u64") {
        " -> u64"
    } else {
        ""
    }
}

/// A parameter of the proved source, as it is handed over.
fn handed_over(parameter: &str) -> String {
    let (name, kind) = parameter.split_once(": ").expect("a parameter has a type");
    let (_, passed) = PASSED.iter().find(|(source, _)| *source == kind).expect("a type that C can hand over");
    let length = if kind.ends_with("[u8]") { format!(", {name}_len: usize") } else { String::new() };
    format!("{name}: {passed}{length}")
}

/// A parameter of the header, as Rust declares it.
fn from_c(parameter: &str) -> String {
    let known = IN_C.iter().find_map(|(c, rust)| Some((parameter.strip_prefix(c)?, rust)));
    let (name, rust) = known.expect("a type of the header");
    format!("{name}: {rust}")
}

/// The functions of the proved source.
fn proved() -> Vec<String> {
    heads(PROVED, "pub extern \"C\" fn ", "ensures").map(|head| line(&head, result(&head), handed_over)).collect()
}

#[test]
fn the_crate_declares_the_functions_of_the_proved_source() {
    let declared = heads(DECLARED, "pub fn ", ";").map(|head| line(&head, result(&head), str::to_string));
    assert_eq!(proved().len(), 9);
    assert_eq!(declared.collect::<Vec<_>>(), proved());
}

#[test]
fn the_header_declares_the_functions_of_the_proved_source() {
    let counting = heads(HEADER, "\nuint64_t ", ";").map(|head| line(&head, " -> u64", from_c));
    let silent = heads(HEADER, "\nvoid ", ";").map(|head| line(&head, "", from_c));
    let (mut declared, mut proved): (Vec<String>, _) = (counting.chain(silent).collect(), proved());
    // These have the function that returns nothing last; the source has not.
    declared.sort();
    proved.sort();
    assert_eq!(declared, proved);
}
