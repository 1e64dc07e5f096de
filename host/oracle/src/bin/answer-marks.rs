//! Writes a mark of 8 bytes for the answer to each text of a generator, or of the fixed list, in order, to standard output.
//! `planted-faults` runs it from a changed copy of this workspace.
//!
//! Usage: `answer-marks GENERATOR`, or `answer-marks fixed-list`

use oracle::generators::{Scale, by_name};
use oracle::list;
use std::io::Write;

const FIXED_LIST: &[u8] = include_bytes!("../../answers/answers.bin");

fn main() {
    let name = std::env::args().nth(1).expect("the name of a generator");
    let mut out = std::io::BufWriter::new(std::io::stdout().lock());
    let mut mark = |text: &[u8]| {
        let mark = oracle::answer(text).mark();
        if out.write_all(&mark.to_le_bytes()).is_err() {
            // The reader has seen enough.
            std::process::exit(0);
        }
    };
    if name == "fixed-list" {
        list::texts(FIXED_LIST).into_iter().for_each(&mut mark);
    } else {
        by_name(&name).expect("a known generator").each(Scale::Small, &mut mark);
    }
    let _ = out.flush();
}
