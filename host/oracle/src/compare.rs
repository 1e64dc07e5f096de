//! Runs the Rust and another reader over the same texts.

use crate::answer::{Answer, answer};
use crate::generators::{Generator, Scale};

/// Another reader: takes a text of any bytes and answers in the oracle's terms.
pub type Subject<'a> = &'a mut dyn FnMut(&[u8]) -> Answer;

/// A text on which the two do not agree.
#[derive(Debug)]
pub struct Difference {
    /// The text's place among the generator's, from 0.
    pub index: u64,
    /// The text.
    pub text: Vec<u8>,
    /// What the Rust says.
    pub expected: Answer,
    /// What the other reader says.
    pub found: Answer,
}

/// What a comparison found.
#[derive(Debug)]
pub struct Report {
    /// The generator's name.
    pub generator: &'static str,
    /// How many texts were compared.
    pub cases: u64,
    /// On how many of them the answers differ.
    pub different: u64,
    /// The first of those, a few at most.
    pub first: Vec<Difference>,
}

/// How many differences a report keeps.
const KEPT: usize = 10;

/// Compares a reader with the Rust on all of a generator's texts.
pub fn compare(generator: &Generator, scale: Scale, subject: Subject) -> Report {
    let mut report = Report { generator: generator.name, cases: 0, different: 0, first: Vec::new() };
    generator.each(scale, &mut |text| {
        let expected = answer(text);
        let found = subject(text);
        if expected != found {
            report.different += 1;
            if report.first.len() < KEPT {
                let index = report.cases;
                report.first.push(Difference { index, text: text.to_vec(), expected, found });
            }
        }
        report.cases += 1;
    });
    report
}
