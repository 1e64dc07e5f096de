//! The reader's answers in upstream's types.

use crate::error::{LexError, ParseError, WhileResolving};
use crate::raw::{self, Name, Outcome, Records};

/// The fields of a `.pc` file, resolved. A field that the file does not have is `None`.
#[derive(Debug, PartialEq, Eq)]
pub struct PkgConfig {
    /// `Name`
    pub name: Option<String>,
    /// `Description`
    pub description: Option<String>,
    /// `URL`
    pub url: Option<String>,
    /// `Version`
    pub version: Option<String>,
    /// `Requires`
    pub requires: Option<String>,
    /// `Requires.private`
    pub requires_private: Option<String>,
    /// `Conflicts`
    pub conflicts: Option<String>,
    /// `Cflags`, an argument each
    pub cflags: Option<Vec<String>>,
    /// `Libs`, an argument each
    pub libs: Option<Vec<String>>,
    /// `Libs.private`, an argument each
    pub libs_private: Option<Vec<String>>,
}

/// The fields' names in [`PkgConfig`], by their numbers from 1.
const FIELDS: [&str; 10] = [
    "name",
    "description",
    "url",
    "version",
    "requires",
    "requires_private",
    "conflicts",
    "cflags",
    "libs",
    "libs_private",
];

impl PkgConfig {
    /// Reads the text of a `.pc` file.
    ///
    /// All memory it takes is on the heap: 53 bytes for each byte of the text, and the answer twice while it is handed over.
    pub fn parse(content: &str) -> Result<Self, ParseError> {
        let text = content.as_bytes();
        // Of a longer text the reader says so, whatever is lent.
        let length = text.len().min(raw::LONGEST_TEXT);
        let mut workspace = vec![0; raw::workspace_entries(length)];
        let mut pool = vec![0; length];
        // An argument of one byte takes two of the text and seven of the records: only references can ask for more.
        let mut output = vec![0; 4 * length + 64];
        let mut outcome = raw::outcome_in(text, &mut workspace, &mut pool, &mut output);
        if outcome.number == 17 {
            output = vec![0; usize::try_from(outcome.detail.value).unwrap_or(0)];
            outcome = raw::outcome_in(text, &mut workspace, &mut pool, &mut output);
        }
        let known = match outcome.number {
            0 => usize::try_from(outcome.detail.value)
                .ok()
                .and_then(|written| output.get(..written))
                .and_then(fields)
                .map(Ok),
            1 => Some(Err(ParseError::TextTooLong(text.len()))),
            _ => refusal(&outcome, &pool).map(Err),
        };
        known.unwrap_or(Err(ParseError::UnknownAnswer(outcome.number)))
    }
}

/// The fields that the records hold. There are none where the bytes are not records in the form of document 01.
fn fields(bytes: &[u8]) -> Option<PkgConfig> {
    let mut config = PkgConfig {
        name: None,
        description: None,
        url: None,
        version: None,
        requires: None,
        requires_private: None,
        conflicts: None,
        cflags: None,
        libs: None,
        libs_private: None,
    };
    let mut records = raw::records(bytes);
    while let Some(record) = records.next() {
        let value = || text(record.payload);
        let mut list = || arguments(record.payload, &mut records);
        match record.kind {
            1 => config.name = Some(value()?),
            2 => config.description = Some(value()?),
            3 => config.url = Some(value()?),
            4 => config.version = Some(value()?),
            5 => config.requires = Some(value()?),
            6 => config.requires_private = Some(value()?),
            7 => config.conflicts = Some(value()?),
            8 => config.cflags = Some(list()?),
            9 => config.libs = Some(list()?),
            10 => config.libs_private = Some(list()?),
            _ => return None,
        }
    }
    records.rest().is_empty().then_some(config)
}

/// The arguments that follow a list's record.
fn arguments(count: &[u8], records: &mut Records) -> Option<Vec<String>> {
    let count = u32::from_le_bytes(count.try_into().ok()?);
    let mut list = Vec::new();
    for _ in 0..count {
        let record = records.next().filter(|record| record.kind == 11)?;
        list.push(text(record.payload)?);
    }
    Some(list)
}

fn text(bytes: &[u8]) -> Option<String> {
    std::str::from_utf8(bytes).ok().map(str::to_owned)
}

/// Upstream's error for the numbers 5 to 16.
fn refusal(outcome: &Outcome, pool: &[u8]) -> Option<ParseError> {
    let Outcome { number, detail } = outcome;
    let name = |name: Name| name.of(pool).and_then(text);
    let first = || name(detail.first);
    let token = || {
        Some(match detail.value {
            1 => format!("{:?}", first()?),
            2 => format!("${{{}}}", first()?),
            3 => "whitespace".to_owned(),
            4 => "=".to_owned(),
            5 => ":".to_owned(),
            6 => "'".to_owned(),
            7 => "\"".to_owned(),
            8 => "\\".to_owned(),
            9 => "newline".to_owned(),
            _ => return None,
        })
    };
    let place = || match detail.value {
        0 => name(detail.second).map(WhileResolving::Variable),
        field => {
            let index = usize::try_from(field - 1).ok()?;
            FIELDS.get(index).map(|name| WhileResolving::Field(name))
        }
    };
    Some(match number {
        5 => LexError::MissingCloseVariable.into(),
        6 => LexError::InvalidVariableChar(u32::try_from(detail.value).ok().and_then(char::from_u32)?).into(),
        7 => ParseError::Unexpected("directive or variable name", token()?),
        8 => ParseError::Unexpected(": or =", token()?),
        9 => ParseError::UnexpectedEof(": or ="),
        10 => ParseError::InvalidVariableName(first()?),
        11 => ParseError::DuplicateVariable(first()?),
        12 => ParseError::UnknownField(first()?),
        13 => ParseError::DuplicateField(first()?),
        14 => ParseError::UnterminatedQuote,
        15 => ParseError::UndefinedVariable(first()?, place()?),
        16 => ParseError::ContentTooLarge(place()?),
        _ => return None,
    })
}

#[cfg(test)]
mod tests {
    use super::*;
    use crate::raw::Detail;

    fn refused(number: u32, value: u64, first: Name) -> Option<ParseError> {
        refusal(&Outcome { number, detail: Detail { value, first, second: Name::default() } }, b"ab\xff")
    }

    #[test]
    fn numbers_and_values_without_a_meaning_are_no_error_of_upstream() {
        let none = Name::default();
        for number in [0, 1, 2, 3, 4, 17, 18, 19, 20, u32::MAX] {
            assert_eq!(refused(number, 0, none), None);
        }
        for (number, value) in [(6, 0xd800), (6, 1 << 32), (7, 0), (8, 10), (15, 11), (16, u64::MAX)] {
            assert_eq!(refused(number, value, none), None);
        }
        // A name that is not in the pool, or not text.
        for name in [Name { place: 3, length: 1 }, Name { place: 0, length: 3 }] {
            assert_eq!(refused(10, 0, name), None);
        }
        let name = Name { place: 0, length: 2 };
        assert_eq!(refused(10, 0, name), Some(ParseError::InvalidVariableName("ab".to_owned())));
    }

    #[test]
    fn bytes_that_are_no_records_are_no_fields() {
        let list = b"\x04\x00\x00\x00\x09\x00\x01\x00\x00\x00\x01\x00\x00\x00\x0b\x00a";
        assert_eq!(fields(list).unwrap().libs.unwrap(), ["a"]);
        for end in 1..list.len() {
            assert_eq!(fields(&list[..end]), None);
        }
        // An unknown kind, a count of three bytes, an argument of another kind, a value that is not text.
        assert_eq!(fields(b"\x00\x00\x00\x00\x0c\x00"), None);
        assert_eq!(fields(b"\x03\x00\x00\x00\x09\x00\x00\x00\x00"), None);
        assert_eq!(fields(b"\x04\x00\x00\x00\x09\x00\x01\x00\x00\x00\x01\x00\x00\x00\x01\x00a"), None);
        assert_eq!(fields(b"\x01\x00\x00\x00\x01\x00\xff"), None);
    }
}
