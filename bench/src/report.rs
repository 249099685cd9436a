//! The figures as tables, in the form in which `docs/BENCHMARKS.md` holds them.

use std::process::Command;

use crate::calls::Call;
use crate::content::Content;
use crate::printing::Print;
use crate::xpath::{Answer, Share};

/// A number with three figures or more.
fn number(number: f64) -> String {
    match number {
        small if small < 10.0 => format!("{small:.2}"),
        middle if middle < 100.0 => format!("{middle:.1}"),
        large => format!("{large:.0}"),
    }
}

fn mean(ratios: impl Iterator<Item = f64>) -> f64 {
    let logarithms: Vec<f64> = ratios.map(f64::ln).collect();
    (logarithms.iter().sum::<f64>() / logarithms.len() as f64).exp()
}

/// The first line that a command writes.
fn said(command: &str, words: &[&str]) -> String {
    let output = Command::new(command).args(words).output().expect("the command runs");
    String::from_utf8_lossy(&output.stdout).lines().next().unwrap_or("unknown").to_string()
}

fn processor() -> String {
    let told = std::fs::read_to_string("/proc/cpuinfo").unwrap_or_default();
    let name = told.lines().find_map(|line| line.strip_prefix("model name")?.split_once(": "));
    name.map_or("unknown processor".to_string(), |(_, name)| name.to_string())
}

fn head() -> String {
    let version: u32 = peer::version().parse().unwrap_or_default();
    let peer = format!("{}.{}.{}", version / 10_000, version / 100 % 100, version % 100);
    format!(
        "Taken on {}, on {}, with libxml2 {peer} and {}.\n",
        said("date", &["-u", "+%Y-%m-%d"]),
        processor(),
        said("rustc", &["--version"]),
    )
}

fn calls_table(calls: &[Call]) -> String {
    let mut table = "| call | what | proved, µs | second, µs | second / proved |\n|---|---|---|---|---|\n".to_string();
    for call in calls {
        let [proved, second, ratio] = [call.proved, call.second, call.second / call.proved].map(number);
        table += &format!("| {} | {} | {proved} | {second} | {ratio} |\n", call.name, call.work);
    }
    table
}

pub fn printing_table(prints: &[Print]) -> String {
    let mut table = "| table | entries | height | reply | proved, µs | ns a byte | second, µs | second / proved |\n\
                     |---|---|---|---|---|---|---|---|\n"
        .to_string();
    for print in prints {
        let Print { name, entries, height, reply, proved, second } = print;
        let for_byte = 1000.0 * proved / print.bytes() as f64;
        let numbers = [*proved, for_byte, *second, second / proved].map(number).join(" | ");
        table += &format!("| {name} | {entries} | {height} | {reply} | {numbers} |\n");
    }
    table
}

pub fn content_table(contents: &[Content]) -> String {
    let mut table = "| roll | rule | nodes | proved, µs | ns a node | call 1, µs | second, µs | second / proved |\n\
                     |---|---|---|---|---|---|---|---|\n"
        .to_string();
    for Content { name, rule, nodes, proved, roll_alone, second } in contents {
        let for_node = 1000.0 * proved / *nodes as f64;
        let numbers = [*proved, for_node, *roll_alone, *second, second / proved].map(number).join(" | ");
        table += &format!("| {name} | {rule} | {nodes} | {numbers} |\n");
    }
    table
}

fn answer_line(answer: &Answer) -> String {
    let Answer { name, text, expression, nodes, curators, on_view, peer } = answer;
    let numbers = [*curators, *on_view, *peer, curators / peer, on_view / peer].map(number).join(" | ");
    format!("| {name} | `{text}` | `{expression}` | {nodes} | {numbers} |\n")
}

fn share_table(share: &Share) -> String {
    let Share { hides, hidden, nodes, answers, .. } = share;
    let [cut, read] = [share.cut, share.read].map(number);
    let mut table = format!(
        "**{hidden:.1} per cent hidden**: {hides}. The view has {nodes} nodes. To cut it out (call 4) takes {cut} µs, and libxml2 takes \
         {read} µs more to read it as XML; neither is in the times below.\n\n"
    );
    table +=
        "| asked for | query | XPath | nodes | call 6, µs | call 3 on the view, µs | libxml2, µs | call 6 / libxml2 | \
        call 3 / libxml2 |\n|---|---|---|---|---|---|---|---|---|\n";
    answers.iter().for_each(|answer| table += &answer_line(answer));
    let [curators, on_view] = means(answers.iter()).map(number);
    table + &format!("| **geometric mean** | | | | | | | **{curators}** | **{on_view}** |\n")
}

/// Of calls 6 and 3, how many times libxml2's time an answer takes, as a geometric mean.
fn means<'a>(answers: impl Iterator<Item = &'a Answer> + Clone) -> [f64; 2] {
    [mean(answers.clone().map(|one| one.curators / one.peer)), mean(answers.map(|one| one.on_view / one.peer))]
}

/// In how many answers calls 6 and 3 take longer than libxml2.
fn behind<'a>(answers: impl Iterator<Item = &'a Answer> + Clone) -> [usize; 2] {
    [
        answers.clone().filter(|one| one.curators > one.peer).count(),
        answers.filter(|one| one.on_view > one.peer).count(),
    ]
}

fn summary(shares: &[Share]) -> String {
    let answers = || shares.iter().flat_map(|share| &share.answers);
    let ([curators, on_view], [slower, slower_on_view]) = (means(answers()).map(number), behind(answers()));
    format!(
        "Over all {} answers the geometric mean of call 6 / libxml2 is **{curators}**, of call 3 on the view / libxml2 **{on_view}**. Call 6 \
         takes longer than libxml2 in {slower} of them, call 3 on the view in {slower_on_view}.\n",
        answers().count()
    )
}

pub fn tables(calls: &[Call], prints: &[Print], contents: &[Content], shares: &[Share]) -> String {
    let parts: Vec<String> = shares.iter().map(share_table).collect();
    let (head, calls, printing) = (head(), calls_table(calls), printing_table(prints));
    let (content, answers, summary) = (content_table(contents), parts.join("\n"), summary(shares));
    format!(
        "{head}\n### The calls beside the second program\n\n{calls}\n### Printing beside the second program\n\n{printing}\n\
         ### The check of content beside the second program, and call 1 alone\n\n{content}\n\
         ### Answers beside libxml2\n\n{answers}\n{summary}"
    )
}
