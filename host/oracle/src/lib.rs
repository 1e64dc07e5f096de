//! The oracle: upstream's Rust, unchanged, and what it takes to compare another reader with it.
//!
//! - [`answer`](answer()) asks the Rust about a text and gives its answer in document 01's terms.
//! - [`generators`] makes the texts to ask about, each family with a name and a seed.
//! - [`document`] has the cases that document 01 itself decides, with answers written from the document.
//! - [`list`] makes the fixed list of texts and answers in `answers/`.
//! - [`compare`](compare()) runs a generator's texts through the Rust and through another reader.

mod answer;
mod compare;
pub mod document;
pub mod generators;
pub mod list;

pub use answer::{Answer, LONGEST_EXACT, LongRecords, Records, Refusal, answer, canonical};
pub use compare::{Difference, Report, Subject, compare};
