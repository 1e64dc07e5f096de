//! The committed list is the one that the generators and the Rust make today.

use oracle::{LONGEST_EXACT, list};
use std::collections::BTreeSet;
use std::path::Path;

#[test]
fn the_committed_list_is_up_to_date() {
    let directory = Path::new(env!("CARGO_MANIFEST_DIR")).join("answers");
    let entries = list::build();
    let binary = std::fs::read(directory.join("answers.bin")).unwrap();
    assert!(binary == list::to_binary(&entries), "answers.bin differs: see answers/README.md");
    let text = std::fs::read_to_string(directory.join("answers.txt")).unwrap();
    assert!(text == list::to_text(&entries), "answers.txt differs: see answers/README.md");
}

/// Reads the file by its description alone, as the program that replays it does.
#[test]
fn the_form_is_as_described() {
    let path = Path::new(env!("CARGO_MANIFEST_DIR")).join("answers/answers.bin");
    let bytes = std::fs::read(path).unwrap();
    let mut rest = bytes.as_slice();
    let mut take = |count: usize| {
        let (front, back) = rest.split_at(count);
        rest = back;
        front
    };
    let number = |bytes: &[u8]| bytes.iter().rev().fold(0, |sum, byte| sum * 256 + u64::from(*byte));
    assert_eq!(take(8), b"cabbage1");
    let count = number(take(4));
    assert!((1_900..=2_200).contains(&count), "{count} texts");
    let mut numbers = BTreeSet::new();
    let mut longer = 0;
    for _ in 0..count {
        let length = number(take(2)) as usize;
        let text = take(length);
        if 1_360 < length {
            longer += 1;
        }
        let length = number(take(4)) as usize;
        let answer = take(length);
        numbers.insert(answer[0]);
        match answer[0] {
            0 => assert!(answer.len() <= 1 + LONGEST_EXACT),
            255 => {
                assert_eq!(answer.len(), 25);
                assert!(LONGEST_EXACT as u64 <= number(&answer[1..9]));
            }
            4..=16 => {
                assert_eq!(answer[0] == 4, std::str::from_utf8(text).is_err());
                let first = number(&answer[5..7]) as usize;
                let second = number(&answer[7 + first..9 + first]) as usize;
                assert_eq!(answer.len(), 9 + first + second);
            }
            other => panic!("the Rust does not say {other}"),
        }
    }
    assert!(take(0).is_empty() && rest.is_empty());
    assert!(longer <= 40, "{longer} texts are longer than pclist reads");
    let all: BTreeSet<u8> = [0, 255].into_iter().chain(4..=16).collect();
    assert_eq!(numbers, all, "the list has every number that the Rust can give");
    assert!(bytes.len() <= 1_000_000);
}
