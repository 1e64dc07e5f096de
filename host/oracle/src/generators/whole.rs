//! Whole texts: the document's cases, lines in all orders, lengths at the edges, real-looking files.

use super::{Scale, Sink};
use crate::document;

pub(super) fn document(_seed: u64, _scale: Scale, sink: Sink) {
    for case in document::CASES {
        sink(case.text.as_bytes());
    }
    for case in document::limit_cases() {
        sink(case.text.as_bytes());
    }
}

/// One line for each thing a line can do or be refused for.
const LINES: [&str; 30] = [
    "",
    " \t",
    "# note",
    "a=1",
    "a = 2 ",
    "b=${a}",
    "a=${b}",
    "c=${n}",
    "a-b=1",
    "Name: ${a}",
    "Name : x",
    "URL:",
    "Requires.private: ${b}  ",
    "Libs: ${a} 'q r'",
    "Libs: 'q",
    "Libs: \\",
    "Libs.private: ${n}",
    "Cflags: \"\" x\\ y",
    "Foo: ${n}",
    "Foo",
    "a b",
    "=1",
    "${a}=1",
    "'",
    "Name=${a}",
    "Version: ${",
    "Conflicts: ${a b}",
    "a.b=x\\",
    "é:1",
    "b=x$",
];

pub(super) fn lines(_seed: u64, scale: Scale, sink: Sink) {
    let most = if scale == Scale::Small { 2 } else { 3 };
    for end in ["\n", "\r", "\r\n", "\n\r"] {
        for first in LINES {
            sink(first.as_bytes());
            for second in LINES {
                sink([first, second].join(end).as_bytes());
                sink(format!("{first}{end}{second}{end}").as_bytes());
                if most == 3 {
                    for third in LINES {
                        sink([first, second, third].join(end).as_bytes());
                    }
                }
            }
        }
    }
}

pub(super) fn lengths(_seed: u64, scale: Scale, sink: Sink) {
    let forms = [
        ("#", ".", ""),
        ("Name: x", "\\\n", ""),
        ("Name: ", "x", "\n"),
        ("Name: ", "é", ""),
        ("", "k", "=1"),
        ("Libs: ", "a ", "b"),
        ("Libs: ", "\\\\", "b"),
        ("Libs: '", "\\'", "'"),
        ("Name: ", "$$", "\n"),
        ("", "\n", "\n"),
        ("", " ", "a"),
    ];
    for (front, middle, back) in forms {
        for length in [1_359, 1_360, 1_361, 65_534, 65_535] {
            // Of the longest, the small scale has only those with short answers.
            if scale == Scale::Small && length > 60_000 && !["#", "Name: x"].contains(&front) {
                continue;
            }
            let mut text = front.to_owned();
            while text.len() + middle.len() + back.len() <= length {
                text += middle;
            }
            text += back;
            // A comment's last byte takes what is left.
            while text.len() < length {
                text += if text.contains('#') { "." } else { "#" };
            }
            sink(text.as_bytes());
        }
    }
}

/// Files that we wrote ourselves, in the ways that such files are written.
const FILES: &[&str] = &[
    include_str!("../../files/clock.pc"),
    include_str!("../../files/comments.pc"),
    include_str!("../../files/cycle.pc"),
    include_str!("../../files/deep-prefix.pc"),
    include_str!("../../files/defines.pc"),
    include_str!("../../files/dos.pc"),
    include_str!("../../files/fields-first.pc"),
    include_str!("../../files/framework.pc"),
    include_str!("../../files/long-lines.pc"),
    include_str!("../../files/missing.pc"),
    include_str!("../../files/mixer.pc"),
    include_str!("../../files/no-final-newline.pc"),
    include_str!("../../files/program-files.pc"),
    include_str!("../../files/unknown-field.pc"),
    include_str!("../../files/umlaut.pc"),
];

pub(super) fn files(_seed: u64, scale: Scale, sink: Sink) {
    let (step, replacements) = if scale == Scale::Small { (7, "") } else { (1, "\\$'\"#=: \n\r{}-") };
    for file in FILES {
        sink(file.as_bytes());
        let places: Vec<(usize, char)> = file.char_indices().collect();
        for (at, c) in places.into_iter().step_by(step) {
            let (front, back) = (&file[..at], &file[at + c.len_utf8()..]);
            sink(front.as_bytes());
            sink(format!("{front}{back}").as_bytes());
            for replacement in replacements.chars() {
                sink(format!("{front}{replacement}{back}").as_bytes());
            }
        }
    }
}
