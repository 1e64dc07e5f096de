//! The cases that document 01 decides, each with the answer written down from the document, not from a program.
//!
//! [`CASES`] are short texts; [`limit_cases`] are those around 67,108,864 bytes.

/// A text and what document 01 says about it.
pub struct Case {
    /// The text.
    pub text: &'static str,
    /// The answer.
    pub expected: Expected,
}

/// An answer as the document words it.
pub enum Expected {
    /// Accepted, with these fields.
    Fields(&'static [Field]),
    /// Refused: number, value, first and second name.
    Refused(u8, u32, &'static str, &'static str),
}

/// A field that is present.
pub enum Field {
    /// One of 1 to 7, by its number, with its value.
    Text(u16, &'static str),
    /// One of 8 to 10, by its number, with its arguments.
    List(u16, &'static [&'static str]),
}

use Expected::{Fields, Refused};
use Field::{List, Text};

const fn case(text: &'static str, expected: Expected) -> Case {
    Case { text, expected }
}

/// The sample of document 01's section on records and listing.
pub const SAMPLE: &str = "lib=segue
unit=-D${lib}_MS
Name: Segue timer
Libs: -L/opt/${lib} '-l a'  ${lib}
Cflags: ${unit} \"\"
";

/// What document 01 prints for [`SAMPLE`].
pub const SAMPLE_LISTING: &str = "pc 0 92
1 11 Segue timer
8 4 1
11 10 -Dsegue_MS
9 4 3
11 12 -L/opt/segue
11 4 -l a
11 5 segue
";

/// Short cases: the sample, both sides of each edge, and what the rules say that is easy to get wrong.
pub const CASES: &[Case] = &[
    case(
        SAMPLE,
        Fields(&[
            Text(1, "Segue timer"),
            List(8, &["-Dsegue_MS"]),
            List(9, &["-L/opt/segue", "-l a", "segue"]),
        ]),
    ),
    // "Both sides of each edge".
    case("", Fields(&[])),
    case("Name: a ", Fields(&[Text(1, "a ")])),
    case("Name: a \n", Fields(&[Text(1, "a")])),
    case("Name: a  \n", Fields(&[Text(1, "a ")])),
    case("Libs: ''", Fields(&[List(9, &[])])),
    case("e=\nLibs: ${e}", Fields(&[List(9, &[""])])),
    case("a=${b}\nb=1\nName: ${a}", Fields(&[Text(1, "1")])),
    case("a=${a}", Refused(15, 0, "a", "a")),
    case("b=${c}\nc=${b}\na=${b}", Refused(15, 0, "b", "a")),
    case("Name: ${}", Refused(15, 1, "", "")),
    case("Name: $\nx", Fields(&[Text(1, "$\nx")])),
    case("Name", Refused(9, 0, "", "")),
    case("Name\n", Refused(8, 9, "", "")),
    case("Foo: ${x", Refused(5, 0, "", "")),
    case("Libs: b\nLibs: 'a", Refused(14, 0, "", "")),
    case("Cflags: \"a\\\\\"", Refused(14, 0, "", "")),
    // Inputs that a literal reader of the rules gets wrong.
    case("Libs: \\${e}\ne=", Fields(&[List(9, &[""])])),
    case("Libs: \\", Fields(&[List(9, &[])])),
    case("Libs: a\\\n\n", Fields(&[List(9, &["a"])])),
    case("Libs: a$ b", Fields(&[List(9, &["a$ b"])])),
    case("Name: a$ \n", Fields(&[Text(1, "a$ ")])),
    case("Name: a #c\n", Fields(&[Text(1, "a")])),
    case("Name: a #c", Fields(&[Text(1, "a ")])),
    case("Name:$\n\r\nURL: x", Fields(&[Text(1, "$\n"), Text(3, "x")])),
    case("${a\n}", Refused(6, 10, "", "")),
    case("a$=b", Refused(9, 0, "", "")),
    case("\\\\#", Refused(7, 8, "", "")),
    // Lexing.
    case("Name: \\#x#y", Fields(&[Text(1, "#x")])),
    case("Name: a\\\nb", Fields(&[Text(1, "ab")])),
    case("Name: a\\\r\nb", Fields(&[Text(1, "ab")])),
    case("Name: a\\\n\rb", Fields(&[Text(1, "ab")])),
    case("Name: a\\\n\nURL: b", Fields(&[Text(1, "a"), Text(3, "b")])),
    case("Name: $$ $$$$", Fields(&[Text(1, "$ $$")])),
    case("Name: a$", Fields(&[Text(1, "a$")])),
    case("Name: $#x", Fields(&[Text(1, "$#x")])),
    case("Name: a#b\\\nURL: c", Fields(&[Text(1, "a"), Text(3, "c")])),
    case("Na#me\nme: x", Refused(8, 9, "", "")),
    case("#Name: ${\n", Fields(&[])),
    case("Name: ${a", Refused(5, 0, "", "")),
    case("Name: ${a-b}", Refused(6, 45, "", "")),
    case("Name: ${\u{10ffff}}", Refused(6, 0x10_ffff, "", "")),
    case("Name: ${é", Refused(6, 0xe9, "", "")),
    case("x\n${a", Refused(5, 0, "", "")),
    case("${ ${", Refused(6, 32, "", "")),
    case("Name: a\rURL: b\r\nVersion: c\n\rRequires: d\n\n\r\r\nConflicts: e", {
        Fields(&[Text(1, "a"), Text(3, "b"), Text(4, "c"), Text(5, "d"), Text(7, "e")])
    }),
    // Lines.
    case(" \t\n\n  ", Fields(&[])),
    case("\t Name \t:\t  x", Fields(&[Text(1, "x")])),
    case("${a} = b", Refused(7, 2, "a", "")),
    case("=b", Refused(7, 4, "", "")),
    case(" :b", Refused(7, 5, "", "")),
    case("'b", Refused(7, 6, "", "")),
    case("\"b", Refused(7, 7, "", "")),
    case("\\b", Refused(7, 8, "", "")),
    case("a b = c", Refused(8, 1, "b", "")),
    case("a $\n\"'=", Refused(8, 1, "$\n", "")),
    case("a $\"= c", Refused(8, 1, "$\"", "")),
    case("a\n=b", Refused(8, 9, "", "")),
    case("a${b}=c", Refused(8, 2, "b", "")),
    case("a ${}=c", Refused(8, 2, "", "")),
    case("a'=c", Refused(8, 6, "", "")),
    case("a\\=c", Refused(8, 8, "", "")),
    case("a \t", Refused(9, 0, "", "")),
    case("a-b=1", Refused(10, 0, "a-b", "")),
    case("é=1", Refused(10, 0, "é", "")),
    case("a=1\na-b=2\na=3", Refused(10, 0, "a-b", "")),
    case("a=1\na=2", Refused(11, 0, "a", "")),
    case("a.b_C9=1\na.b_C9=1", Refused(11, 0, "a.b_C9", "")),
    case("name: x", Refused(12, 0, "name", "")),
    case("Libs.Private: 'x", Refused(12, 0, "Libs.Private", "")),
    case("Name: x\nName: y", Refused(13, 0, "Name", "")),
    case("Libs: x\nLibs: y", Refused(13, 0, "Libs", "")),
    case("Url: x", Refused(12, 0, "Url", "")),
    case("Name: x\nName=y", Fields(&[Text(1, "x")])),
    case("Name=1\nName: ${Name}", Fields(&[Text(1, "1")])),
    case("Name:   ", Fields(&[Text(1, "")])),
    case("Name:   \n", Fields(&[Text(1, "")])),
    case("Name: a = b: 'c' \"d\" \\e", Fields(&[Text(1, "a = b: 'c' \"d\" \\e")])),
    case("a=x \nName: <${a}>", Fields(&[Text(1, "<x>")])),
    case("Name: <${a}>\na=x ", Fields(&[Text(1, "<x >")])),
    // Lists.
    case("Libs: a b\tc", Fields(&[List(9, &["a", "b", "c"])])),
    case("Libs: a\\ b", Fields(&[List(9, &["a b"])])),
    case("Libs: \\'a \\\"b \\\\c", Fields(&[List(9, &["'a", "\"b", "\\c"])])),
    case("Libs: \\ab\\ c", Fields(&[List(9, &["ab c"])])),
    case("Libs: a\\b c", Fields(&[List(9, &["ab", "c"])])),
    case("Libs: 'a\\'b'", Fields(&[List(9, &["a'b"])])),
    case("Libs: 'a\\\"b'", Fields(&[List(9, &["a\\\"b"])])),
    case("Libs: 'a\"b' \"c'd\"", Fields(&[List(9, &["a\"b", "c'd"])])),
    case("Libs: '\\\\'", Refused(14, 0, "", "")),
    case("Libs: '\\\\' '", Fields(&[List(9, &["\\' "])])),
    case("Libs: a '' b", Fields(&[List(9, &["a", "b"])])),
    case("Libs: a''b", Fields(&[List(9, &["ab"])])),
    case("Libs: a=b:c", Fields(&[List(9, &["a=b:c"])])),
    case("v=1 '2\nLibs: ${v}", Fields(&[List(9, &["1 '2"])])),
    case("Libs: 'a\nb'", Refused(14, 0, "", "")),
    case("Libs:\nCflags:\nLibs.private:", Fields(&[List(8, &[]), List(9, &[]), List(10, &[])])),
    // All fields, in the order of their numbers whatever the order of the lines.
    case(
        "Libs.private: j\nLibs: i\nCflags: h\nConflicts: g\nRequires.private: f\nRequires: e\nVersion: d\nURL: c\n\
         Description: b\nName: a\n",
        Fields(&[
            Text(1, "a"),
            Text(2, "b"),
            Text(3, "c"),
            Text(4, "d"),
            Text(5, "e"),
            Text(6, "f"),
            Text(7, "g"),
            List(8, &["h"]),
            List(9, &["i"]),
            List(10, &["j"]),
        ]),
    ),
    // Variables, then fields.
    case("a=${b}${c}\nb=1", Refused(15, 0, "c", "a")),
    case("z=${y}\ny=${x}\nx=1\nName: ${z}", Fields(&[Text(1, "1")])),
    case("a=${b}\nb=${c}\nc=1\nName: ${a}", Fields(&[Text(1, "1")])),
    case("Z=${n}\na=${m}", Refused(15, 0, "n", "Z")),
    case("a=${n}\nLibs: 'x'\nName: ${m}", Refused(15, 0, "n", "a")),
    case("Libs: ${m}\nName: ${n}", Refused(15, 1, "n", "")),
    case("Libs: a ${m} ${n}", Refused(15, 9, "m", "")),
    case("Libs.private: ${m}\nCflags: ${n}", Refused(15, 8, "n", "")),
    case("Requires.private: ${m}\nConflicts: ${n}", Refused(15, 6, "m", "")),
    case("Libs.private: ${m}", Refused(15, 10, "m", "")),
    case("Description: ${n}\nName: ${m}", Refused(15, 1, "m", "")),
    case("URL: ${n}\nDescription: ${m}", Refused(15, 2, "m", "")),
    case("Version: ${n}\nURL: ${m}", Refused(15, 3, "m", "")),
    case("Requires: ${n}\nVersion: ${m}", Refused(15, 4, "m", "")),
    case("Requires.private: ${n}\nRequires: ${m}", Refused(15, 5, "m", "")),
    case("Conflicts: ${n}\nRequires.private: ${m}", Refused(15, 6, "m", "")),
    case("Cflags: ${n}\nConflicts: ${m}", Refused(15, 7, "m", "")),
    case("Libs: ${n}\nCflags: ${m}", Refused(15, 8, "m", "")),
    case("Libs.private: ${n}\nLibs: ${m}", Refused(15, 9, "m", "")),
    case("a=1\nName: ${a}${}", Refused(15, 1, "", "")),
];

/// A case around the limit, made rather than written out.
pub struct LimitCase {
    /// The text.
    pub text: String,
    /// The answer.
    pub expected: LimitExpected,
}

/// The answer to a case around the limit.
pub enum LimitExpected {
    /// Accepted, with so many bytes of records.
    Bytes(u64),
    /// Refused: number, value, first and second name.
    Refused(u8, u32, &'static str, &'static str),
}

/// The limit of document 01.
const LIMIT: u64 = 67_108_864;

/// A value of 64 bytes, doubled twenty times: the variable `v20` has 67,108,864 bytes.
pub fn doubled() -> String {
    let mut text = format!("v00={}\n", "0123456789abcdef".repeat(4));
    for step in 1..=20 {
        text += &format!("v{step:02}=${{v{last:02}}}${{v{last:02}}}\n", last = step - 1);
    }
    text
}

/// Cases around 67,108,864 bytes.
pub fn limit_cases() -> Vec<LimitCase> {
    let refused = |number, field, first, second| LimitExpected::Refused(number, field, first, second);
    let cases = [
        ("", LimitExpected::Bytes(0)),
        ("Name: ${v20}", LimitExpected::Bytes(6 + LIMIT)),
        ("Name: ${v20}x", refused(16, 1, "", "")),
        ("Name: x${v20}", refused(16, 1, "", "")),
        ("Libs: ${v20} ${v20}", LimitExpected::Bytes(10 + 2 * (6 + LIMIT))),
        ("Libs: a ${v20}x", refused(16, 9, "", "")),
        ("w=${v20}x", refused(16, 0, "", "w")),
        ("w=x${v20}", refused(16, 0, "", "w")),
        ("w=${v20}x${none}", refused(16, 0, "", "w")),
        ("w=${none}${v20}x", refused(15, 0, "none", "w")),
        ("w=${v20}${none}x", refused(15, 0, "none", "w")),
        ("a=${v20}x${none}", refused(16, 0, "", "a")),
        ("a=${none}\nw=${v20}x", refused(16, 0, "", "w")),
        // `a` waits for `v20`; in the second pass, which finds nothing, it is too large. Without that pass, 15 for `A`.
        ("A=${none}\na=${v20}x${none}", refused(16, 0, "", "a")),
        ("a=${none}\nName: ${v20}x", refused(15, 0, "none", "a")),
        ("Name: ${v20}x${none}", refused(16, 1, "", "")),
        ("Name: ${none}${v20}x", refused(15, 1, "none", "")),
        ("w=${v20}${w}x", refused(15, 0, "w", "w")),
        ("w=${v20}x${w}", refused(16, 0, "", "w")),
        // `a` waits for `v20` until the second pass, so `w` is too large first; among `w` and `x` the smaller is.
        ("a=${v20}x\nw=${v20}x\nx=${v20}x", refused(16, 0, "", "w")),
        // Found and counted in one pass: `w` is too large in the first, `a` only in the second.
        ("a=${u}x\nu=${v20}\nw=${v20}x", refused(16, 0, "", "w")),
    ];
    let base = doubled();
    cases.into_iter().map(|(last, expected)| LimitCase { text: format!("{base}{last}"), expected }).collect()
}
