//! Short pieces, alone and in contexts.

use super::{Scale, Sink};

/// A piece stands between the two parts of a context.
struct Context(&'static str, &'static str);

/// One context for each place where the rules read a character in their own way. In those with a header, `e` is
/// empty and the value of `v` has a blank and a quote.
const CONTEXTS: &[Context] = &[
    // Keys.
    Context("", "=1\n"),
    Context("", ": 1"),
    Context("a", "=1\nName: ${a}"),
    Context("Name", ": 1\n"),
    Context(" ", "Name: 1"),
    Context("a ", " b = c"),
    Context("Name: x\n", "\n"),
    // Values of assignments.
    Context("e=\nv=1 '2\na=", "\nName: <${a}>"),
    Context("e=\nv=1 '2\nName: <${a}>\na=", ""),
    // String fields.
    Context("e=\nv=1 '2\nName: ", ""),
    Context("e=\nv=1 '2\nName: ", "\nURL: u"),
    Context("e=\nv=1 '2\nName:x", "\n"),
    // Lists.
    Context("e=\nv=1 '2\nLibs: ", ""),
    Context("e=\nv=1 '2\nLibs: ", "\nURL: u"),
    Context("e=\nv=1 '2\nCflags: a", "b"),
    Context("e=\nv=1 '2\nLibs.private: '", "'"),
    Context("e=\nv=1 '2\nLibs: \"", "\" c"),
    // References.
    Context("e=\nv=1 '2\nName: ${", "}\n"),
    Context("e=\nv=1 '2\nName: ${v", "}"),
    // Comments.
    Context("Name: x#", "\nURL: u"),
    // After a dollar sign.
    Context("e=\nv=1 '2\nName: $", " y\n"),
    Context("e=\nv=1 '2\nLibs: a$", " b"),
    // After a backslash.
    Context("e=\nv=1 '2\nName: \\", " y\n"),
    Context("e=\nv=1 '2\nLibs: \\", " b"),
    Context("e=\nv=1 '2\nLibs: '\\", "' c"),
    Context("e=\nv=1 '2\nLibs: \"\\", "\" c"),
];

impl Context {
    fn around(&self, piece: &[u8], text: &mut Vec<u8>) {
        text.clear();
        text.extend_from_slice(self.0.as_bytes());
        text.extend_from_slice(piece);
        text.extend_from_slice(self.1.as_bytes());
    }
}

/// All sequences of up to `most` symbols, the shorter ones first.
fn words(symbols: &[&[u8]], most: usize, sink: Sink) {
    let mut word = Vec::new();
    for length in 0..=most {
        let mut digits = vec![0; length];
        'next: loop {
            word.clear();
            for digit in &digits {
                word.extend_from_slice(symbols[*digit]);
            }
            sink(&word);
            for digit in digits.iter_mut().rev() {
                *digit += 1;
                if *digit < symbols.len() {
                    continue 'next;
                }
                *digit = 0;
            }
            break;
        }
    }
}

pub(super) fn short(_seed: u64, scale: Scale, sink: Sink) {
    let symbols: [&[u8]; 14] =
        [b"a", b" ", b"\t", b"\n", b"\r", b"=", b":", b"'", b"\"", b"\\", b"$", b"{", b"}", b"#"];
    words(&symbols, if scale == Scale::Small { 4 } else { 6 }, sink);
}

pub(super) fn contexts(_seed: u64, scale: Scale, sink: Sink) {
    let symbols: [&[u8]; 16] = [
        b"a", b" ", b"\t", b"\n", b"\r", b"=", b":", b"'", b"\"", b"\\", b"$", b"{", b"}", b"#", b"${e}",
        b"${v}",
    ];
    let mut text = Vec::new();
    words(&symbols, if scale == Scale::Small { 3 } else { 4 }, &mut |piece| {
        for context in CONTEXTS {
            context.around(piece, &mut text);
            sink(&text);
        }
    });
}

pub(super) fn pairs(_seed: u64, scale: Scale, sink: Sink) {
    let last = if scale == Scale::Small { 127 } else { 255 };
    let mut text = Vec::new();
    for first in 0..=last {
        for second in 0..=last {
            for context in CONTEXTS {
                context.around(&[first, second], &mut text);
                sink(&text);
            }
        }
    }
}

/// The first and last code points of each row of the UTF-8 table, and some that Unicode or Rust treats in its own
/// way: controls, blanks that are no blanks here, marks, digits and letters outside ASCII.
const CODE_POINTS: [u32; 44] = [
    0x0, 0x1, 0xb, 0xc, 0x1b, 0x1f, 0x7f, 0x80, 0x85, 0xa0, 0xad, 0xe9, 0x300, 0x3a3, 0x660, 0x7ff, 0x800,
    0xfff, 0x1000, 0x1680, 0x200b, 0x200d, 0x2028, 0x2029, 0x3000, 0xcfff, 0xd000, 0xd7ff, 0xe000, 0xfeff,
    0xff1d, 0xff21, 0xfffd, 0xfffe, 0xffff, 0x1_0000, 0x1_d7d8, 0x3_ffff, 0x4_0000, 0xe_0100, 0xf_ffff,
    0x10_0000, 0x10_fffe, 0x10_ffff,
];

pub(super) fn utf8(_seed: u64, scale: Scale, sink: Sink) {
    let mut text = Vec::new();
    for code in CODE_POINTS {
        let c = char::from_u32(code).expect("a code point");
        for piece in [format!("{c}"), format!("{c}{c}"), format!("a{c}"), format!("{c} ")] {
            for context in CONTEXTS {
                context.around(piece.as_bytes(), &mut text);
                sink(&text);
            }
        }
    }
    let step = if scale == Scale::Small { 97 } else { 1 };
    let places = [Context("${a", "}"), Context("a ", "=1"), Context("Libs: \\", "b c")];
    for c in ('\0'..=char::MAX).step_by(step) {
        for place in &places {
            place.around(c.encode_utf8(&mut [0; 4]).as_bytes(), &mut text);
            sink(&text);
        }
    }
}

pub(super) fn not_utf8(_seed: u64, scale: Scale, sink: Sink) {
    let bytes: [&[u8]; 25] = [
        b"a", b"\x00", b"\x7f", b"\x80", b"\x8f", b"\x90", b"\x9f", b"\xa0", b"\xbf", b"\xc0", b"\xc1",
        b"\xc2", b"\xdf", b"\xe0", b"\xe1", b"\xec", b"\xed", b"\xee", b"\xef", b"\xf0", b"\xf1", b"\xf3",
        b"\xf4", b"\xf5", b"\xff",
    ];
    let places = [Context("", ""), Context("Name: ", "\n"), Context("${", "}")];
    let mut text = Vec::new();
    words(&bytes, if scale == Scale::Small { 3 } else { 4 }, &mut |piece| {
        for place in &places {
            place.around(piece, &mut text);
            sink(&text);
        }
    });
}
