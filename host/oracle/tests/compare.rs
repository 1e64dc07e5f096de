//! The comparison finds what is different and nothing else.

use oracle::generators::{Scale, by_name};
use oracle::{Answer, Records, answer, compare};

#[test]
fn the_rust_agrees_with_itself() {
    let generator = by_name("lines").unwrap();
    let report = compare(generator, Scale::Small, &mut answer);
    assert_eq!((report.cases, report.different), (generator.small, 0));
    assert!(report.first.is_empty());
}

#[test]
fn a_reader_with_a_fixed_answer_is_found() {
    let generator = by_name("lines").unwrap();
    let nothing = Answer::Accepted(Records::Exact(Vec::new()));
    let report = compare(generator, Scale::Small, &mut |_| nothing.clone());
    let mut others = 0;
    generator.each(Scale::Small, &mut |text| others += u64::from(answer(text) != nothing));
    assert_eq!(report.different, others);
    // An empty text and a comment are rightly accepted with nothing, an unfinished line is not.
    assert!(0 < others && others < report.cases);
}

#[test]
fn one_wrong_answer_is_found_and_shown() {
    let generator = by_name("lines").unwrap();
    let wrong_at: &[u8] = b"a=1\nName: ${a}";
    let report = compare(generator, Scale::Small, &mut |text| {
        answer(if text == wrong_at { b"a=1\nName: ${b}" } else { text })
    });
    assert_eq!((report.different, report.first.len()), (1, 1));
    let difference = &report.first[0];
    assert_eq!(difference.text, wrong_at);
    assert_eq!(format!("{:?}", difference.expected), r#"0 7 "\x01\x00\x00\x00\x01\x001""#);
    assert_eq!(format!("{:?}", difference.found), r#"15 1 "b" """#);
}
