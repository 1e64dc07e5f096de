//! The fixed list of texts and the Rust's answers, made from the generators.

use crate::answer::{Answer, answer};
use crate::generators::{GENERATORS, Generator, Scale};
use std::collections::BTreeMap;
use std::fmt::Write;

/// A text of the list with its answer.
pub struct Entry {
    /// The generator that made the text.
    pub generator: &'static str,
    /// The text.
    pub text: Vec<u8>,
    /// The Rust's answer.
    pub answer: Answer,
}

/// How many texts the list takes from each generator, at most. All of `document` are taken.
const SHARES: &[(&str, usize)] = &[
    ("document", 1_000),
    ("short", 230),
    ("contexts", 480),
    ("pairs", 200),
    ("utf8", 180),
    ("not-utf8", 100),
    ("lines", 150),
    ("grammar", 260),
    ("systems", 120),
    ("limit", 40),
    ("chains", 18),
    ("lengths", 37),
    ("files", 140),
];

/// The first bytes of `answers.bin`.
pub const MAGIC: &[u8; 8] = b"cabbage1";

/// Makes the list.
pub fn build() -> Vec<Entry> {
    let mut entries = Vec::new();
    for generator in GENERATORS {
        let share = SHARES.iter().find(|(name, _)| *name == generator.name);
        let (_, most) = share.expect("every generator has a share");
        entries.extend(choose(generator, *most));
    }
    entries
}

/// Takes texts of all numbers that a generator's answers have, as evenly as there are such texts, and among those of
/// one number evenly from first to last.
fn choose(generator: &Generator, most: usize) -> Vec<Entry> {
    let mut answers = Vec::new();
    generator.each(Scale::Small, &mut |text| answers.push(answer(text)));
    let mut there: BTreeMap<u8, usize> = BTreeMap::new();
    for answer in &answers {
        *there.entry(answer.number()).or_default() += 1;
    }
    let taken = divide(&there, most);

    let mut seen: BTreeMap<u8, usize> = BTreeMap::new();
    let mut chosen = Vec::new();
    let mut rest = answers.into_iter();
    generator.each(Scale::Small, &mut |text| {
        let answer = rest.next().expect("the same texts as before");
        let number = answer.number();
        let before = *seen.entry(number).or_default();
        seen.insert(number, before + 1);
        // The text is taken where the count of taken ones, spread evenly over all, grows.
        let (taken, all) = (taken[&number], there[&number]);
        if (before + 1) * taken / all > before * taken / all {
            chosen.push(Entry { generator: generator.name, text: text.to_vec(), answer });
        }
    });
    chosen
}

/// Hands out `most` places in turn to the numbers that have texts left: four at a time to 0 and 4, which say most, one
/// to each other.
fn divide(there: &BTreeMap<u8, usize>, most: usize) -> BTreeMap<u8, usize> {
    let mut taken: BTreeMap<u8, usize> = there.keys().map(|number| (*number, 0)).collect();
    let mut left = most;
    loop {
        let before = left;
        for (number, count) in &mut taken {
            let turn = if [0, 4].contains(number) { 4 } else { 1 };
            let more = turn.min(left).min(there[number] - *count);
            *count += more;
            left -= more;
        }
        if left == before {
            return taken;
        }
    }
}

/// The list as `answers.bin`.
pub fn to_binary(entries: &[Entry]) -> Vec<u8> {
    let mut bytes = MAGIC.to_vec();
    let count = u32::try_from(entries.len()).expect("a short list");
    bytes.extend_from_slice(&count.to_le_bytes());
    for entry in entries {
        let length = u16::try_from(entry.text.len()).expect("texts have at most 65,535 bytes");
        bytes.extend_from_slice(&length.to_le_bytes());
        bytes.extend_from_slice(&entry.text);
        let answer = entry.answer.encode();
        let length = u32::try_from(answer.len()).expect("answers are short");
        bytes.extend_from_slice(&length.to_le_bytes());
        bytes.extend_from_slice(&answer);
    }
    bytes
}

/// The texts of `answers.bin`, in order, without their answers.
///
/// # Panics
///
/// If the bytes are not in that form.
pub fn texts(binary: &[u8]) -> Vec<&[u8]> {
    let mut rest = binary.strip_prefix(MAGIC).expect("a list of answers");
    let mut take = |count: usize| {
        let (front, back) = rest.split_at(count);
        rest = back;
        front
    };
    let number = |bytes: &[u8]| bytes.iter().rev().fold(0, |sum, byte| sum << 8 | usize::from(*byte));
    let count = number(take(4));
    let mut texts = Vec::new();
    for _ in 0..count {
        let length = number(take(2));
        texts.push(take(length));
        let length = number(take(4));
        take(length);
    }
    texts
}

/// The list as `answers.txt`: for people, one line each. Long texts and records are shown in part.
pub fn to_text(entries: &[Entry]) -> String {
    const SHOWN: usize = 1_400;
    let mut text = String::new();
    for (index, entry) in entries.iter().enumerate() {
        let shown = &entry.text[..entry.text.len().min(SHOWN)];
        let mut answer = format!("{:?}", entry.answer);
        let mut end = "";
        if 2 * SHOWN < answer.len() {
            answer.truncate(SHOWN);
            end = "..";
        }
        let cut = if shown.len() < entry.text.len() { ".." } else { "" };
        let (generator, length) = (entry.generator, entry.text.len());
        writeln!(text, "{index} {generator} {length} \"{}\"{cut} => {answer}{end}", shown.escape_ascii())
            .expect("a string takes all");
    }
    text
}
