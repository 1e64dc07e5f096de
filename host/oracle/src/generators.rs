//! Families of texts, each with a name, a seed and a fixed number of texts. The same call gives the same texts.
//!
//! All texts have at most 65,535 bytes. All but some of `pairs` and `not-utf8` are UTF-8.

mod assignments;
mod grammar;
mod pieces;
mod random;
mod whole;

/// How much of a family to make.
#[derive(Clone, Copy, Debug, PartialEq, Eq)]
pub enum Scale {
    /// Enough for a test that must be quick.
    Small,
    /// All of it.
    Full,
}

/// Takes the texts one after another.
pub type Sink<'a> = &'a mut dyn FnMut(&[u8]);

/// A family of texts.
pub struct Generator {
    /// Its name.
    pub name: &'static str,
    /// What it makes.
    pub about: &'static str,
    /// Where its random choices start. Families without random choices do not use it.
    pub seed: u64,
    /// How many texts there are at [`Scale::Small`].
    pub small: u64,
    /// How many texts there are at [`Scale::Full`].
    pub full: u64,
    make: fn(u64, Scale, Sink),
}

impl Generator {
    /// Hands all texts of a scale to the sink, in order.
    pub fn each(&self, scale: Scale, sink: Sink) {
        (self.make)(self.seed, scale, sink);
    }

    /// How many texts there are at a scale.
    pub fn count(&self, scale: Scale) -> u64 {
        match scale {
            Scale::Small => self.small,
            Scale::Full => self.full,
        }
    }
}

/// Finds a generator by its name.
pub fn by_name(name: &str) -> Option<&'static Generator> {
    GENERATORS.iter().find(|generator| generator.name == name)
}

/// All generators.
pub const GENERATORS: &[Generator] = &[
    Generator {
        name: "document",
        about: "the cases of document 01, those around the limit too",
        seed: 0,
        small: 138,
        full: 138,
        make: whole::document,
    },
    Generator {
        name: "short",
        about: "all texts of up to 4 (full: 6) characters over 14 interesting ones",
        seed: 0,
        small: 41_371,
        full: 8_108_731,
        make: pieces::short,
    },
    Generator {
        name: "contexts",
        about: "all pieces of up to 3 (full: 4) symbols out of 16 in every context",
        seed: 0,
        small: 113_594,
        full: 1_817_530,
        make: pieces::contexts,
    },
    Generator {
        name: "pairs",
        about: "every pair of ASCII bytes (full: of all bytes) in every context",
        seed: 0,
        small: 425_984,
        full: 1_703_936,
        make: pieces::pairs,
    },
    Generator {
        name: "utf8",
        about: "code points at the edges in every context; every 97th (full: every) code point in three places",
        seed: 0,
        small: 38_971,
        full: 3_340_768,
        make: pieces::utf8,
    },
    Generator {
        name: "not-utf8",
        about: "all sequences of up to 3 (full: 4) bytes from the edges of the UTF-8 table, in three places",
        seed: 0,
        small: 48_828,
        full: 1_220_703,
        make: pieces::not_utf8,
    },
    Generator {
        name: "lines",
        about: "all texts of up to 2 (full: 3) lines out of a fixed choice, with each of the four line ends",
        seed: 0,
        small: 7_320,
        full: 115_320,
        make: whole::lines,
    },
    Generator {
        name: "grammar",
        about: "random texts by grammar, every second one damaged",
        seed: 20_261_031,
        small: 20_000,
        full: 1_000_000,
        make: grammar::grammar,
    },
    Generator {
        name: "systems",
        about: "assignments in systems of three and four names, with cycles and missing names",
        seed: 3_141_592,
        small: 34_192,
        full: 232_192,
        make: assignments::systems,
    },
    Generator {
        name: "limit",
        about: "systems of three and four names with values around 67,108,864 bytes",
        seed: 67_108_864,
        small: 60,
        full: 3_000,
        make: assignments::limit,
    },
    Generator {
        name: "chains",
        about: "chains of names in rising, falling and mixed order, whole, broken and closed to a ring",
        seed: 2_718_281,
        small: 96,
        full: 240,
        make: assignments::chains,
    },
    Generator {
        name: "lengths",
        about: "texts of 1,359 to 1,361 and 65,534 to 65,535 bytes (small: few of the latter)",
        seed: 0,
        small: 37,
        full: 55,
        make: whole::lengths,
    },
    Generator {
        name: "files",
        about: "real-looking files: whole, cut short, with a character dropped (full: everywhere, or replaced)",
        seed: 0,
        small: 1_021,
        full: 52_080,
        make: whole::files,
    },
];

#[cfg(test)]
mod tests {
    use super::*;

    /// `survey` does the same for the two generators that are left out here at full scale.
    #[test]
    fn counts_are_as_stated_and_texts_within_the_limit() {
        let mut wrong = Vec::new();
        for generator in GENERATORS {
            for scale in [Scale::Small, Scale::Full] {
                if scale == Scale::Full && ["short", "utf8"].contains(&generator.name) {
                    continue;
                }
                let utf8 = !["pairs", "not-utf8"].contains(&generator.name);
                let mut count = 0;
                generator.each(scale, &mut |text| {
                    assert!(text.len() <= 65_535);
                    assert!(!utf8 || std::str::from_utf8(text).is_ok(), "{}: {text:?}", generator.name);
                    count += 1;
                });
                if count != generator.count(scale) {
                    wrong.push(format!("{} {scale:?} makes {count}", generator.name));
                }
            }
        }
        assert!(wrong.is_empty(), "{wrong:#?}");
    }
}
