//! The Rust says what document 01 says, on the cases that the document decides.

use oracle::document::{CASES, Expected, Field, LimitExpected, SAMPLE, SAMPLE_LISTING, limit_cases};
use oracle::{Answer, Records, Refusal, canonical};

/// A record as document 01 words it: 4 bytes of length, 2 of kind, the payload.
fn record(kind: u16, payload: &[u8]) -> Vec<u8> {
    let n = payload.len();
    let mut bytes =
        vec![n as u8, (n >> 8) as u8, (n >> 16) as u8, (n >> 24) as u8, kind as u8, (kind >> 8) as u8];
    bytes.extend_from_slice(payload);
    bytes
}

fn records(fields: &[Field]) -> Vec<u8> {
    let mut bytes = Vec::new();
    for field in fields {
        match field {
            Field::Text(kind, value) => bytes.extend(record(*kind, value.as_bytes())),
            Field::List(kind, arguments) => {
                bytes.extend(record(*kind, &[arguments.len() as u8, 0, 0, 0]));
                for argument in *arguments {
                    bytes.extend(record(11, argument.as_bytes()));
                }
            }
        }
    }
    bytes
}

fn refused(number: u8, value: u32, first: &str, second: &str) -> Answer {
    Answer::Refused(Refusal { number, value, first: first.into(), second: second.into() })
}

#[test]
fn short_cases() {
    let mut wrong = Vec::new();
    for case in CASES {
        let expected = match case.expected {
            Expected::Fields(fields) => Answer::Accepted(Records::Exact(records(fields))),
            Expected::Refused(number, value, first, second) => refused(number, value, first, second),
        };
        let found = canonical(case.text);
        if found != expected {
            wrong.push(format!("{:?}: document {expected:?}, Rust {found:?}", case.text));
        }
    }
    assert!(wrong.is_empty(), "{wrong:#?}");
}

#[test]
fn cases_around_the_limit() {
    let mut wrong = Vec::new();
    for case in limit_cases() {
        let found = canonical(&case.text);
        let last = case.text.lines().last().unwrap();
        let right = match (&case.expected, &found) {
            (LimitExpected::Bytes(bytes), Answer::Accepted(Records::Exact(records))) => {
                *bytes == records.len() as u64
            }
            (LimitExpected::Bytes(bytes), Answer::Accepted(Records::Long(long))) => *bytes == long.length,
            (LimitExpected::Refused(number, value, first, second), found) => {
                *found == refused(*number, *value, first, second)
            }
            _ => false,
        };
        if !right {
            wrong.push(format!("{last}: {found:?}"));
        }
    }
    assert!(wrong.is_empty(), "{wrong:#?}");
}

/// The bytes that the document gives by number or that can be written out whole.
#[test]
fn records_by_hand() {
    let bytes = |text| match canonical(text) {
        Answer::Accepted(Records::Exact(bytes)) => bytes,
        other => panic!("{other:?}"),
    };
    assert_eq!(bytes("Name: a "), b"\x02\0\0\0\x01\0a ");
    assert_eq!(bytes("Libs: ''"), b"\x04\0\0\0\x09\0\0\0\0\0");
    assert_eq!(bytes("e=\nLibs: ${e}"), b"\x04\0\0\0\x09\0\x01\0\0\0\0\0\0\0\x0b\0");
    assert_eq!(
        bytes("Libs.private: ab\nURL: \nCflags:"),
        b"\0\0\0\0\x03\0\x04\0\0\0\x08\0\0\0\0\0\x04\0\0\0\x0a\0\x01\0\0\0\x02\0\0\0\x0b\0ab"
    );
    let long = bytes(&format!("Name: {}", "x".repeat(1000)));
    assert_eq!(long[..7], *b"\xe8\x03\0\0\x01\0x");
    assert_eq!(long.len(), 1006);
}

/// The sample's listing, made from the Rust's records by the document's rule.
#[test]
fn sample_listing() {
    let Answer::Accepted(Records::Exact(bytes)) = canonical(SAMPLE) else { panic!("the sample is refused") };
    let mut listing = format!("pc 0 {}\n", bytes.len());
    let mut rest = bytes.as_slice();
    while !rest.is_empty() {
        let length = u32::from_le_bytes(rest[..4].try_into().unwrap()) as usize;
        let kind = u16::from_le_bytes(rest[4..6].try_into().unwrap());
        let payload = &rest[6..6 + length];
        rest = &rest[6 + length..];
        let shown = if (8..=10).contains(&kind) {
            u32::from_le_bytes(payload.try_into().unwrap()).to_string()
        } else {
            String::from_utf8(payload.to_vec()).unwrap()
        };
        listing += &format!("{kind} {length} {shown}\n");
    }
    assert_eq!(listing, SAMPLE_LISTING);
}
