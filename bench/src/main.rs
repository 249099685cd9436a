//! How long the proved library takes, beside the second program and libxml2, on the same inputs in one process and one run. Times are for
//! release builds and say nothing in others. Nothing is cleared between two runs of one input.
//!
//! Without words it takes the figures of `docs/BENCHMARKS.md` and writes them to `target/bench`; with `--document` into the document too.
//! Names of parts print closer looks at one call instead.

mod answers;
mod calls;
mod content;
mod court;
mod curators;
mod document;
mod hidden;
mod inputs;
mod plot;
mod printing;
mod queries;
mod report;
mod rolls;
mod stack;
mod tools;
mod views;
mod xpath;

const PARTS: [(&str, fn()); 16] = [
    ("rolls", inputs::checking_rolls),
    ("texts", inputs::reading_texts),
    ("tables", inputs::checking_tables),
    ("printing", || print!("{}", report::printing_table(&printing::prints()))),
    ("content", || print!("{}", report::content_table(&content::contents()))),
    ("answers", answers::answering),
    ("shared", answers::shared),
    ("views", views::cutting),
    ("rewriting", views::rewriting),
    ("curators", curators::answering),
    ("court", curators::on_court),
    ("runs", curators::over_hidden_runs),
    ("stack", stack::stack),
    ("curators-stack", stack::curators_stack),
    ("printing-stack", stack::printing_stack),
    ("content-stack", stack::content_stack),
];

fn figures(into_document: bool) {
    let (calls, prints, contents) = (calls::calls(), printing::prints(), content::contents());
    let shares = xpath::answers();
    let (tables, picture) = (report::tables(&calls, &prints, &contents, &shares), plot::svg(&shares));
    print!("{tables}");
    document::leave(&tables, &picture);
    if into_document {
        document::replace(&tables, &picture);
    }
}

fn main() {
    let words: Vec<String> = std::env::args().skip(1).collect();
    let named: Vec<&str> = words.iter().map(String::as_str).collect();
    if let [] | ["--document"] = named[..] {
        return figures(!named.is_empty());
    }
    let part_of = |name: &&str| PARTS.iter().find(|(part, _)| part == name);
    if let Some(unknown) = named.iter().find(|name| part_of(name).is_none()) {
        eprintln!(
            "bench: there is no part {unknown}. The parts: {}; or --document alone",
            PARTS.map(|(name, _)| name).join(" ")
        );
        std::process::exit(2);
    }
    named.iter().filter_map(part_of).for_each(|(_, part)| part());
}
