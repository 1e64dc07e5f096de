//! Random texts by grammar, with damage.

use super::random::Random;
use super::{Scale, Sink};

pub(super) fn grammar(seed: u64, scale: Scale, sink: Sink) {
    let mut random = Random::new(seed);
    let count = if scale == Scale::Small { 20_000 } else { 1_000_000 };
    for at in 0..count {
        let mut text = whole_text(&mut random);
        if at % 2 == 1 {
            for _ in 0..=random.below(3) {
                damage(&mut random, &mut text);
            }
        }
        sink(text.as_bytes());
    }
}

fn whole_text(random: &mut Random) -> String {
    let usual_end = random.pick(&["\n", "\n", "\n", "\r\n", "\r", "\n\r"]);
    let mut text = String::new();
    for _ in 0..random.below(9) {
        match random.below(10) {
            0..=3 => assignment(random, &mut text),
            4..=7 => field(random, &mut text),
            8 => comment(random, &mut text),
            _ => text += random.pick(&["", " ", "\t", "  "]),
        }
        text +=
            if random.below(8) == 0 { random.pick(&["\n", "\r\n", "\r", "\n\r", "\n\n"]) } else { usual_end };
    }
    if random.below(3) == 0 {
        text.truncate(text.trim_end_matches(['\n', '\r']).len());
    }
    text
}

const NAMES: [&str; 9] = ["a", "b", "c", "d", "prefix", "lib.dir", "A_1", "0", "aa"];

fn assignment(random: &mut Random, text: &mut String) {
    blanks(random, text);
    *text +=
        if random.below(25) == 0 { random.pick(&["a-b", "é", "a$x", "a\\#"]) } else { random.pick(&NAMES) };
    blanks(random, text);
    text.push('=');
    value(random, text);
}

fn field(random: &mut Random, text: &mut String) {
    blanks(random, text);
    *text += if random.below(30) == 0 {
        random.pick(&["Foo", "name", "Libs.Private", "URL.", "Url", "CFlags"])
    } else {
        random.pick(&[
            "Name",
            "Description",
            "URL",
            "Version",
            "Requires",
            "Requires.private",
            "Conflicts",
            "Cflags",
            "Libs",
            "Libs.private",
        ])
    };
    blanks(random, text);
    text.push(':');
    value(random, text);
}

fn comment(random: &mut Random, text: &mut String) {
    *text += random.pick(&["#", "# note", "#${", "# a\\", "#'", "# x = y: \"z\""]);
}

fn blanks(random: &mut Random, text: &mut String) {
    *text += random.pick(&["", "", "", " ", " ", "\t", "  "]);
}

fn value(random: &mut Random, text: &mut String) {
    blanks(random, text);
    for _ in 0..random.below(8) {
        match random.below(16) {
            0..=3 => {
                *text += random.pick(&["x", "-lfoo", "1.2", "-I/usr", ">=", "é", "\u{1f600}", ",", "{", "}"])
            }
            4..=6 => blanks(random, text),
            7..=9 => {
                *text += "${";
                *text += if random.below(12) == 0 {
                    random.pick(&["none", "", "a a"])
                } else {
                    random.pick(&NAMES)
                };
                text.push('}');
            }
            10 => *text += random.pick(&["'", "\"", "'x y'", "\"x y\"", "''", "\"\"", "'a\"b'", "\"a'b\""]),
            11 => *text += random.pick(&["\\", "\\ ", "\\\\", "\\'", "\\\"", "\\x", "\\="]),
            12 => *text += random.pick(&["$$", "$x", "$ ", "$#", "$'", "$\\", "$\n"]),
            13 => *text += random.pick(&["\\#", "\\\n", "\\\r\n", "\\\n  ", "\\\n\r"]),
            14 => *text += random.pick(&["=", ":", "a=b", "::"]),
            _ => {
                if random.below(3) == 0 {
                    comment(random, text);
                }
            }
        }
    }
}

/// One change at a random character.
fn damage(random: &mut Random, text: &mut String) {
    let mut characters: Vec<char> = text.chars().collect();
    let at = random.below(characters.len() + 1);
    let inserted = random.pick(&[
        &'\\', &'$', &'{', &'}', &'\'', &'"', &'#', &'=', &':', &' ', &'\t', &'\n', &'\r', &'a', &'-', &'é',
    ]);
    match random.below(5) {
        0 => characters.insert(at, *inserted),
        1 if at < characters.len() => characters[at] = *inserted,
        2 if at + 1 < characters.len() => characters.swap(at, at + 1),
        3 => characters.truncate(at),
        _ if at < characters.len() => {
            characters.remove(at);
        }
        _ => {}
    }
    *text = characters.into_iter().collect();
}
