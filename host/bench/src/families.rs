//! The texts to time: families that each ask for one kind of work.

use std::fmt::Write;

/// The sizes of texts for families that grow: a quarter, a half and all of 65,535 bytes.
pub const SIZES: [usize; 3] = [16_383, 32_767, 65_535];

/// A family of texts.
pub struct Family {
    /// Its name.
    pub name: &'static str,
    /// What its texts are.
    pub about: &'static str,
    /// How many times as fast as the Rust the reader must be at the largest size, and how many it should be.
    pub bar: Option<(f64, f64)>,
    /// How many times the time may grow where the text doubles, if that is bounded.
    pub growth: Option<f64>,
    /// Makes its texts.
    pub texts: Texts,
}

/// How a family's texts are made.
pub enum Texts {
    /// At each of [`SIZES`], of at most so many bytes.
    Growing(fn(usize) -> String),
    /// One text.
    One(fn() -> String),
    /// Many texts, timed together.
    Many(fn() -> Vec<Vec<u8>>),
}

/// All families.
pub const FAMILIES: &[Family] = &[
    Family {
        name: "typical",
        about: "a real-looking file",
        bar: Some((3.0, 5.0)),
        growth: None,
        texts: Texts::One(|| include_str!("../../oracle/files/mixer.pc").to_owned()),
    },
    Family {
        name: "short",
        about: "many short names, rising",
        bar: Some((1.0, 3.0)),
        growth: Some(2.3),
        texts: Texts::Growing(|bytes| lines(bytes, "", |at| format!("n{at:05}=1\n"))),
    },
    Family {
        name: "descending",
        about: "many short names, falling",
        bar: Some((1.0, 3.0)),
        growth: Some(2.3),
        texts: Texts::Growing(|bytes| lines(bytes, "", |at| format!("n{:05}=1\n", 99_999 - at))),
    },
    Family {
        name: "forward",
        about: "a chain: each name refers to the one before, one pass",
        bar: Some((1.0, 3.0)),
        growth: Some(2.3),
        texts: Texts::Growing(|bytes| {
            lines(bytes, "n00000=x\n", |at| format!("n{:05}=${{n{at:05}}}\n", at + 1))
        }),
    },
    Family {
        name: "reversed",
        about: "a chain: each name refers to the one after, as many passes as names",
        bar: Some((20.0, 100.0)),
        growth: None,
        texts: Texts::Growing(|bytes| {
            lines(bytes, "n99999=x\n", |at| format!("n{:05}=${{n{:05}}}\n", 99_998 - at, 99_999 - at))
        }),
    },
    Family {
        name: "wide",
        about: "as reversed, each value with sixteen references before the one that waits",
        bar: Some((20.0, 100.0)),
        growth: None,
        texts: Texts::Growing(|bytes| {
            lines(bytes, "a=x\nn99999=x\n", |at| {
                format!("n{:05}={}${{n{:05}}}\n", 99_998 - at, "${a}".repeat(16), 99_999 - at)
            })
        }),
    },
    Family {
        name: "cycle",
        about: "a ring of names: none has a value",
        bar: None,
        growth: Some(2.3),
        texts: Texts::Growing(|bytes| {
            let chain = lines(bytes - 20, "", |at| format!("n{at:05}=${{n{:05}}}\n", at + 1));
            let next = chain.lines().count();
            format!("{chain}n{next:05}=${{n00000}}\n")
        }),
    },
    Family {
        name: "args",
        about: "a list of many arguments",
        bar: Some((1.0, 3.0)),
        growth: Some(2.3),
        texts: Texts::Growing(|bytes| lines(bytes, "Libs:", |_| " -la".to_owned())),
    },
    Family {
        name: "refs",
        about: "a string of many references",
        bar: Some((1.0, 3.0)),
        growth: Some(2.3),
        texts: Texts::Growing(|bytes| lines(bytes, "a=x\nName: ", |_| "${a}".to_owned())),
    },
    Family {
        name: "string",
        about: "one long string",
        bar: Some((0.5, 1.0)),
        growth: Some(2.3),
        texts: Texts::Growing(|bytes| lines(bytes, "Name: ", |_| "x".to_owned())),
    },
    Family {
        name: "comment",
        about: "one long comment",
        bar: Some((0.5, 1.0)),
        growth: Some(2.3),
        texts: Texts::Growing(|bytes| lines(bytes, "#", |_| "x".to_owned())),
    },
    Family {
        name: "joined",
        about: "a string over many joined lines",
        bar: None,
        growth: Some(2.3),
        texts: Texts::Growing(|bytes| lines(bytes, "Name: x", |_| "x\\\n".to_owned())),
    },
    Family {
        name: "deep",
        about: "a chain below a name that is doubled twenty times: 1 MiB of output",
        bar: Some((1.0, 3.0)),
        growth: Some(2.3),
        texts: Texts::Growing(|bytes| {
            let mut text = lines(bytes - 360, "n00000=x\n", |at| format!("n{:05}=${{n{at:05}}}\n", at + 1));
            let top = format!("n{:05}", text.lines().count() - 1);
            doubled(&mut text, &top);
            text
        }),
    },
    Family {
        name: "empties",
        about: "an empty value, doubled by each name: no output from ever more references",
        bar: None,
        growth: Some(2.3),
        texts: Texts::Growing(|bytes| {
            let text = lines(bytes - 20, "n00000=\n", |at| {
                format!("n{next:05}=${{n{at:05}}}${{n{at:05}}}\n", next = at + 1)
            });
            let top = text.lines().count() - 1;
            format!("{text}Name: ${{n{top:05}}}\n")
        }),
    },
    Family {
        name: "doubling",
        about: "64 bytes doubled twenty times: 64 MiB of output",
        bar: Some((1.0, 3.0)),
        growth: None,
        texts: Texts::One(|| {
            let mut text = format!("top={}\n", "0123456789abcdef".repeat(4));
            doubled(&mut text, "top");
            text
        }),
    },
    Family {
        name: "list",
        about: "the texts of the fixed list together, but those with values around the limit",
        bar: None,
        growth: None,
        texts: Texts::Many(|| {
            let around_the_limit: Vec<String> =
                oracle::document::limit_cases().into_iter().map(|case| case.text).collect();
            let usual = |entry: &oracle::list::Entry| {
                entry.generator != "limit"
                    && around_the_limit.iter().all(|text| text.as_bytes() != entry.text)
            };
            oracle::list::build().into_iter().filter(usual).map(|entry| entry.text).collect()
        }),
    },
];

/// A front, and as many pieces after it as fit.
fn lines(bytes: usize, front: &str, piece: impl Fn(usize) -> String) -> String {
    let mut text = front.to_owned();
    for at in 0.. {
        let piece = piece(at);
        if text.len() + piece.len() > bytes {
            break;
        }
        text += &piece;
    }
    text
}

/// Adds twenty names, each twice the one before, and a field with the last.
fn doubled(text: &mut String, from: &str) {
    let mut before = from.to_owned();
    for step in 1..=20 {
        let name = format!("z{step:02}");
        writeln!(text, "{name}=${{{before}}}${{{before}}}").expect("a string takes all");
        before = name;
    }
    writeln!(text, "Name: ${{{before}}}").expect("a string takes all");
}

#[cfg(test)]
mod tests {
    use super::*;
    use oracle::{Answer, Records, answer};

    #[test]
    fn texts_have_their_size() {
        for family in FAMILIES {
            if let Texts::Growing(make) = family.texts {
                for bytes in SIZES {
                    let length = make(bytes).len();
                    assert!(
                        bytes - 150 < length && length <= bytes,
                        "{} has {length} of {bytes}",
                        family.name
                    );
                }
            }
        }
    }

    /// The work that a family is about is really asked for: the Rust's answer shows it.
    #[test]
    fn texts_ask_for_their_work() {
        for family in FAMILIES {
            let Texts::Growing(make) = family.texts else {
                continue;
            };
            if ["reversed", "wide"].contains(&family.name) {
                continue;
            }
            let length = match answer(make(SIZES[0]).as_bytes()) {
                Answer::Accepted(Records::Exact(records)) => records.len() as u64,
                Answer::Accepted(Records::Long(long)) => long.length,
                Answer::Refused(refusal) => {
                    assert_eq!((family.name, refusal.number), ("cycle", 15));
                    continue;
                }
            };
            let expected = match family.name {
                "args" => 10 + 4_094 * 9,
                "refs" => 6 + 4_093,
                "string" => 6 + 16_377,
                "joined" => 6 + 1 + 5_458,
                "deep" => 6 + (1 << 20),
                "empties" => 6,
                _ => 0,
            };
            assert_eq!(length, expected, "{}", family.name);
        }
    }
}
