//! Long chains of names, and values of many parts: where a reader could take the square of the text's length, or the depth of a chain
//! for each byte. The reader must answer in seconds; upstream is asked only where it does so too.

use cabbagelute::raw;
use compare::{Archive, Prober};
use std::time::{Duration, Instant};

const LETTERS: &[u8; 64] = b"._0123456789ABCDEFGHIJKLMNOPQRSTUVWXYZabcdefghijklmnopqrstuvwxyz";

/// The names of one, two and three characters, in an order of their own.
fn name(at: usize) -> String {
    let (mut rest, mut first, mut length) = (at, 64, 1);
    while rest >= first {
        rest -= first;
        first *= 64;
        length += 1;
    }
    (0..length).map(|place| char::from(LETTERS[rest / 64_usize.pow(place) % 64])).collect()
}

/// `count` names, each of which refers to the next, and the last has the value `x`; then a field that refers to the first.
fn chain(count: usize, forward: bool) -> String {
    let line = |at: usize| {
        if at + 1 == count {
            format!("{}=x\n", name(at))
        } else {
            format!("{}=${{{}}}\n", name(at), name(at + 1))
        }
    };
    let lines: String =
        if forward { (0..count).map(line).collect() } else { (0..count).rev().map(line).collect() };
    format!("{lines}Name: ${{{}}}", name(0))
}

/// The first bytes of the records of a text that is accepted, and how long the reader took.
fn read(text: &str, output: usize) -> (u32, Vec<u8>, Duration) {
    let mut workspace = vec![0; 12 * text.len() + 64];
    let (mut pool, mut out, mut detail) = (vec![0; text.len()], vec![0; output], [0; 48]);
    let start = Instant::now();
    let number = raw::read_in(text.as_bytes(), &mut workspace, &mut pool, &mut out, &mut detail);
    (number, out, start.elapsed())
}

#[test]
fn chains_of_six_thousand_names() {
    for forward in [true, false] {
        let text = chain(6_000, forward);
        assert!(text.len() <= 65_535, "{}", text.len());
        let (number, out, took) = read(&text, 7);
        assert_eq!((number, out.as_slice()), (0, &[1, 0, 0, 0, 1, 0, b'x'][..]));
        assert!(took < Duration::from_secs(5), "{took:?}");
    }
    let mut prober = Prober::new(Archive);
    let text = chain(500, false);
    assert_eq!(prober.ask(text.as_bytes()), oracle::answer(text.as_bytes()));
    assert!(prober.broken == 0, "{}", prober.first[0]);
}

/// A chain of 4,000 names below a name that is doubled twenty times: 1,048,576 bytes, each through 4,000 names for a plain walk.
#[test]
fn deep() {
    let mut text = chain(4_000, true);
    text.truncate(text.rfind("Name: ").expect("it is there"));
    let mut below = name(0);
    for at in 0..20 {
        text += &format!("..{at}=${{{below}}}${{{below}}}\n");
        below = format!("..{at}");
    }
    text += &format!("Name: ${{{below}}}");
    let (number, out, took) = read(&text, 6 + (1 << 20));
    assert_eq!((number, &out[..6]), (0, &[0, 0, 16, 0, 1, 0][..]));
    assert!(out[6..].iter().all(|&byte| byte == b'x'));
    assert!(took < Duration::from_secs(5), "{took:?}");
}

/// 64 bytes doubled twenty times are 67,108,864 and pass; with one byte more, 16.
#[test]
fn a_doubling_to_the_limit_and_one_byte_more() {
    let mut text = format!("..={}\n", "0123456789abcdef".repeat(4));
    let mut below = "..".to_owned();
    for at in 0..20 {
        text += &format!("..{at}=${{{below}}}${{{below}}}\n");
        below = format!("..{at}");
    }
    let (number, out, took) = read(&format!("{text}Name: ${{{below}}}"), 6 + 67_108_864);
    assert_eq!((number, &out[..6]), (0, &[0, 0, 0, 4, 1, 0][..]));
    assert!(out[6..].chunks(16).all(|chunk| chunk == b"0123456789abcdef"));
    assert!(took < Duration::from_secs(20), "{took:?}");
    assert_eq!(read(&format!("{text}Name: ${{{below}}}x"), 0).0, 16);
}
