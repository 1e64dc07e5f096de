//! Upstream's answers in document 01's terms.

use cuddld_pkg_config::{LexError, ParseError, PkgConfig};
use std::fmt;

/// Records of up to this many bytes are kept byte for byte, longer ones as [`LongRecords`].
pub const LONGEST_EXACT: usize = 65_536;

/// The tag that stands in the number's place where the records are given as [`LongRecords`].
const LONG_TAG: u8 = 255;

/// What a reader says about a text.
#[derive(Clone, PartialEq, Eq)]
pub enum Answer {
    /// Number 0, with the records.
    Accepted(Records),
    /// Any other number, with its detail.
    Refused(Refusal),
}

/// The records of an accepted text.
#[derive(Clone, PartialEq, Eq)]
pub enum Records {
    /// All their bytes.
    Exact(Vec<u8>),
    /// Only what tells them apart, because there are more than [`LONGEST_EXACT`] bytes.
    Long(LongRecords),
}

/// The length of long records and two sums over their bytes in order, both modulo 2^64:
/// for each byte, `sum += byte` and then `sum_of_sums += sum`.
#[derive(Clone, Copy, Debug, Default, PartialEq, Eq)]
pub struct LongRecords {
    /// How many bytes.
    pub length: u64,
    /// The sum of the bytes.
    pub sum: u64,
    /// The sum of all the sums on the way.
    pub sum_of_sums: u64,
}

/// A refusal: its number, and the detail without the names' places, which the Rust does not know.
#[derive(Clone, PartialEq, Eq)]
pub struct Refusal {
    /// 4 to 16 here. Another reader may give any number.
    pub number: u8,
    /// The code point (6), the token's kind (7, 8), the field's number (15, 16), else 0.
    pub value: u32,
    /// The token's text (7, 8 with kinds 1 and 2), the key (10 to 13), the reference (15), else empty.
    pub first: Vec<u8>,
    /// The variable being resolved (15, 16), else empty.
    pub second: Vec<u8>,
}

impl Answer {
    /// The number that document 01 gives the answer.
    pub fn number(&self) -> u8 {
        match self {
            Answer::Accepted(_) => 0,
            Answer::Refused(refusal) => refusal.number,
        }
    }

    /// The answer as bytes, in the form that `answers/README.md` describes.
    pub fn encode(&self) -> Vec<u8> {
        let mut bytes = Vec::new();
        match self {
            Answer::Accepted(Records::Exact(records)) => {
                bytes.push(0);
                bytes.extend_from_slice(records);
            }
            Answer::Accepted(Records::Long(long)) => {
                bytes.push(LONG_TAG);
                for number in [long.length, long.sum, long.sum_of_sums] {
                    bytes.extend_from_slice(&number.to_le_bytes());
                }
            }
            Answer::Refused(refusal) => {
                bytes.push(refusal.number);
                bytes.extend_from_slice(&refusal.value.to_le_bytes());
                for name in [&refusal.first, &refusal.second] {
                    let length = u16::try_from(name.len()).expect("names are parts of a text");
                    bytes.extend_from_slice(&length.to_le_bytes());
                    bytes.extend_from_slice(name);
                }
            }
        }
        bytes
    }
}

impl Answer {
    /// A number that tells answers apart: FNV-1a with 64 bits over [`Answer::encode`].
    pub fn mark(&self) -> u64 {
        let start = 0xcbf2_9ce4_8422_2325;
        self.encode().iter().fold(start, |mark, byte| (mark ^ u64::from(*byte)).wrapping_mul(0x100_0000_01b3))
    }
}

impl fmt::Debug for Answer {
    /// One line, as in `answers/answers.txt`.
    fn fmt(&self, f: &mut fmt::Formatter<'_>) -> fmt::Result {
        match self {
            Answer::Accepted(Records::Exact(records)) => {
                write!(f, "0 {} \"{}\"", records.len(), records.escape_ascii())
            }
            Answer::Accepted(Records::Long(long)) => {
                write!(f, "0 {} sums {} {}", long.length, long.sum, long.sum_of_sums)
            }
            Answer::Refused(refusal) => write!(
                f,
                "{} {} \"{}\" \"{}\"",
                refusal.number,
                refusal.value,
                refusal.first.escape_ascii(),
                refusal.second.escape_ascii()
            ),
        }
    }
}

/// The answer to a text of any bytes: 4 if Rust's standard library says it is not UTF-8, else upstream's.
pub fn answer(text: &[u8]) -> Answer {
    match std::str::from_utf8(text) {
        Ok(text) => canonical(text),
        Err(_) => Answer::Refused(Refusal { number: 4, value: 0, first: Vec::new(), second: Vec::new() }),
    }
}

/// Upstream's answer to a text, in document 01's terms.
///
/// # Panics
///
/// If upstream says one of the two things that document 01 calls impossible, or anything unknown here.
pub fn canonical(text: &str) -> Answer {
    match PkgConfig::parse(text) {
        Ok(config) => Answer::Accepted(records(&config)),
        Err(error) => Answer::Refused(refusal(&error)),
    }
}

fn refusal(error: &ParseError) -> Refusal {
    let (number, value, first, second) = match error {
        ParseError::Lex(LexError::MissingCloseVariable) => (5, 0, String::new(), String::new()),
        ParseError::Lex(LexError::InvalidVariableChar(c)) => (6, u32::from(*c), String::new(), String::new()),
        ParseError::Unexpected("directive or variable name", token) => unexpected(7, token),
        ParseError::Unexpected(": or =", token) => unexpected(8, token),
        ParseError::UnexpectedEof(": or =") => (9, 0, String::new(), String::new()),
        ParseError::InvalidVariableName(key) => (10, 0, key.clone(), String::new()),
        ParseError::DuplicateVariable(key) => (11, 0, key.clone(), String::new()),
        ParseError::UnknownField(key) => (12, 0, key.clone(), String::new()),
        ParseError::DuplicateField(key) => (13, 0, key.clone(), String::new()),
        ParseError::UnterminatedQuote => (14, 0, String::new(), String::new()),
        ParseError::UndefinedVariable(name, place) => {
            let (field, variable) = being_resolved(&format!("{place:?}"));
            (15, field, name.clone(), variable)
        }
        ParseError::ContentTooLarge(place) => {
            let (field, variable) = being_resolved(&format!("{place:?}"));
            (16, field, String::new(), variable)
        }
        ParseError::Unexpected(..) | ParseError::UnexpectedEof(_) => {
            panic!("upstream says what document 01 calls impossible: {error:?}")
        }
    };
    Refusal { number, value, first: first.into_bytes(), second: second.into_bytes() }
}

/// The kind and plain text of a token, from upstream's way to show it.
fn unexpected(number: u8, shown: &str) -> (u8, u32, String, String) {
    let (kind, text) = match shown {
        "whitespace" => (3, String::new()),
        "=" => (4, String::new()),
        ":" => (5, String::new()),
        "'" => (6, String::new()),
        "\"" => (7, String::new()),
        "\\" => (8, String::new()),
        "newline" => (9, String::new()),
        _ => {
            if let Some(name) = shown.strip_prefix("${").and_then(|rest| rest.strip_suffix('}')) {
                (2, name.to_owned())
            } else {
                (1, plain_text(shown))
            }
        }
    };
    (number, kind, text, String::new())
}

/// Undoes `{:?}` of a string, and makes sure that it was undone.
fn plain_text(shown: &str) -> String {
    let inner = shown.strip_prefix('"').and_then(|rest| rest.strip_suffix('"'));
    let mut rest = inner.unwrap_or_else(|| panic!("unknown token {shown}")).chars();
    let mut plain = String::new();
    while let Some(c) = rest.next() {
        if c != '\\' {
            plain.push(c);
            continue;
        }
        match rest.next() {
            Some('0') => plain.push('\0'),
            Some('t') => plain.push('\t'),
            Some('n') => plain.push('\n'),
            Some('r') => plain.push('\r'),
            Some('u') => {
                let digits: String = rest.by_ref().skip(1).take_while(|c| *c != '}').collect();
                let code = u32::from_str_radix(&digits, 16).expect("an escape holds a code point");
                plain.push(char::from_u32(code).expect("an escape holds a code point"));
            }
            Some(other) => plain.push(other),
            None => panic!("unknown token {shown}"),
        }
    }
    assert_eq!(format!("{plain:?}"), shown, "the token's text could not be recovered");
    plain
}

/// The field's number, or 0 and the variable's name. Upstream's type has no public name, but it has `{:?}`, which
/// the compiler derives. Names of variables have no character that `{:?}` would change.
fn being_resolved(shown: &str) -> (u32, String) {
    let inner = |word: &str| shown.strip_prefix(word)?.strip_prefix("(\"")?.strip_suffix("\")");
    if let Some(variable) = inner("Variable") {
        return (0, variable.to_owned());
    }
    let number = match inner("Field") {
        Some("name") => 1,
        Some("description") => 2,
        Some("url") => 3,
        Some("version") => 4,
        Some("requires") => 5,
        Some("requires_private") => 6,
        Some("conflicts") => 7,
        Some("cflags") => 8,
        Some("libs") => 9,
        Some("libs_private") => 10,
        _ => panic!("unknown place {shown}"),
    };
    (number, String::new())
}

fn records(config: &PkgConfig) -> Records {
    let mut writer = Writer::default();
    let strings = [
        (1, &config.name),
        (2, &config.description),
        (3, &config.url),
        (4, &config.version),
        (5, &config.requires),
        (6, &config.requires_private),
        (7, &config.conflicts),
    ];
    for (kind, value) in strings {
        if let Some(value) = value {
            writer.record(kind, value.as_bytes());
        }
    }
    let lists = [(8, &config.cflags), (9, &config.libs), (10, &config.libs_private)];
    for (kind, arguments) in lists {
        if let Some(arguments) = arguments {
            let count = u32::try_from(arguments.len()).expect("fewer arguments than the text has bytes");
            writer.record(kind, &count.to_le_bytes());
            for argument in arguments {
                writer.record(11, argument.as_bytes());
            }
        }
    }
    if writer.long.length <= LONGEST_EXACT as u64 {
        Records::Exact(writer.exact)
    } else {
        Records::Long(writer.long)
    }
}

/// Keeps the front of what is written and the sums over all of it.
#[derive(Default)]
struct Writer {
    exact: Vec<u8>,
    long: LongRecords,
}

impl Writer {
    fn record(&mut self, kind: u16, payload: &[u8]) {
        let length = u32::try_from(payload.len()).expect("upstream's limit is far lower");
        self.put(&length.to_le_bytes());
        self.put(&kind.to_le_bytes());
        self.put(payload);
    }

    fn put(&mut self, bytes: &[u8]) {
        let room = LONGEST_EXACT - self.exact.len();
        self.exact.extend_from_slice(&bytes[..bytes.len().min(room)]);
        self.long.add(bytes);
    }
}

impl LongRecords {
    /// Goes on over more bytes.
    pub fn add(&mut self, bytes: &[u8]) {
        self.length += bytes.len() as u64;
        // By pieces: after a piece of k bytes the sum of sums has grown by k times the sum so far, and by each byte
        // as often as there are bytes from it to the piece's end.
        for piece in bytes.chunks(256) {
            let mut sum = 0;
            let mut sum_of_sums = 0;
            for (byte, times) in piece.iter().zip((1..=piece.len() as u32).rev()) {
                sum += u32::from(*byte);
                sum_of_sums += u32::from(*byte) * times;
            }
            let grown = self.sum.wrapping_mul(piece.len() as u64).wrapping_add(u64::from(sum_of_sums));
            self.sum_of_sums = self.sum_of_sums.wrapping_add(grown);
            self.sum = self.sum.wrapping_add(u64::from(sum));
        }
    }
}

#[cfg(test)]
mod tests {
    use super::*;

    #[test]
    fn sums_by_pieces_are_the_sums_by_bytes() {
        let bytes: Vec<u8> = (0..1000u32).map(|n| (n * n % 251) as u8).collect();
        let (mut sum, mut sum_of_sums) = (0u64, 0u64);
        for byte in &bytes {
            sum += u64::from(*byte);
            sum_of_sums += sum;
        }
        let mut long = LongRecords::default();
        long.add(&bytes[..300]);
        long.add(&bytes[300..]);
        assert_eq!(long, LongRecords { length: 1000, sum, sum_of_sums });
    }

    #[test]
    fn every_character_survives_the_way_back_from_debug() {
        for c in '\0'..=char::MAX {
            let text = format!("a{c}b");
            assert_eq!(plain_text(&format!("{text:?}")), text);
        }
    }

    #[test]
    #[should_panic(expected = "impossible")]
    fn expected_newline_stops_the_run() {
        refusal(&ParseError::Unexpected("newline", "=".to_owned()));
    }

    #[test]
    #[should_panic(expected = "impossible")]
    fn end_of_input_where_a_line_starts_stops_the_run() {
        refusal(&ParseError::UnexpectedEof("directive or variable name"));
    }
}
