//! The proved library beside the second program: the calls of the first, by the crate `kepolas`, with the replies of the second; inputs
//! that are drawn by chance; and what both programs must agree in. The tests and the long run share all of it.

pub mod annotated;
pub mod chance;
pub mod damage;
pub mod draws;
pub mod labels;
pub mod outcomes;
pub mod records;
pub mod rules;
pub mod same;
pub mod seen;
pub mod tables;
pub mod texts;

use kepolas::Refusal;
use second::Reply;

/// An answer as the second program has it.
fn reply(answer: Result<usize, Refusal>) -> Reply {
    match answer {
        Ok(count) => Reply::Count(count),
        Err(refusal) => Reply::Refused { number: refusal.reason.number(), place: refusal.place },
    }
}

/// Call 1.
pub fn check_roll(roll: &[u8]) -> Reply {
    reply(kepolas::check_roll(roll))
}

/// Call 2.
pub fn read_text(text: &[u8], room: &mut [u8]) -> Reply {
    reply(kepolas::read_text(text, room))
}

/// Call 3.
pub fn answer_on_roll(roll: &[u8], query: &[u8], room: &mut [u8]) -> Reply {
    reply(kepolas::answer_on_roll(roll, query, room))
}

/// Call 4.
pub fn cut_view(roll: &[u8], annotation: &[u8], filters: &[u8], room: &mut [u8]) -> Reply {
    reply(kepolas::cut_view(roll, annotation, filters, room))
}

/// Call 5.
pub fn rewrite(annotation: &[u8], filters: &[u8], query: &[u8], room: &mut [u8]) -> Reply {
    reply(kepolas::rewrite(annotation, filters, query, room))
}

/// Call 6.
pub fn curators_answer(roll: &[u8], annotation: &[u8], filters: &[u8], query: &[u8], room: &mut [u8]) -> Reply {
    reply(kepolas::curators_answer(roll, annotation, filters, query, room))
}

/// The check of a roll's content.
pub fn check_content(roll: &[u8], rules: &[u8], list: &[u8]) -> Reply {
    reply(kepolas::check_content(roll, rules, list))
}

/// Call 7.
pub fn run_of_record(roll: &[u8], record: usize) -> &[u8] {
    kepolas::run_of(roll, record)
}

/// Printing.
pub fn print_query(query: &[u8], room: &mut [u8]) -> Reply {
    reply(kepolas::print_query(query, room))
}
