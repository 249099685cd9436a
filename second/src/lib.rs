//! A second program for document 01 and what document 02 adds to it, written from those documents alone.
//!
//! It exists to disagree: every call is worked out by plain means (sets of nodes and where a path takes them, the
//! view cut out before it is queried), so that a mistake in a cleverer program shows as a difference.

pub mod annotation;
pub mod calls;
pub mod expression;
pub mod language;
pub mod meaning;
pub mod print;
pub mod reply;
pub mod rewrite;
pub mod roll;
pub mod rules;
pub mod table;
pub mod text;
pub mod view;

pub use calls::{
    answer_on_roll, check_content, check_roll, curators_answer, cut_view, print_query, read_text, rewrite,
    run_of_record,
};
pub use reply::Reply;
