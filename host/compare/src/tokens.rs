//! Upstream's tokens: what the pool must hold, and where names must lie in it.

/// Upstream's file, unchanged: its crate keeps the lexer to itself. Included, for `cargo fmt` must not follow it.
#[allow(dead_code, clippy::all)]
mod lexer {
    include!("../../oracle/cuddld_pkg_config/src/lexer.rs");
}

use cabbagelute::raw::Name;
use lexer::{Lexer, Token, is_valid_identifier};
use oracle::Refusal;
use std::collections::BTreeSet;
use std::ops::Range;

/// The fields' keys, by their numbers from 1.
const FIELDS: [&str; 10] = [
    "Name",
    "Description",
    "URL",
    "Version",
    "Requires",
    "Requires.private",
    "Conflicts",
    "Cflags",
    "Libs",
    "Libs.private",
];

/// The tokens of a text, and the pool that they give.
pub struct Tokens {
    tokens: Vec<Token>,
    names: Vec<Name>,
    pool: Vec<u8>,
}

/// A line that has a key: the tokens that the rules look at.
struct Line {
    key: usize,
    /// The next token that is not blank, the newline too.
    sign: usize,
    value: Range<usize>,
}

impl Tokens {
    /// The tokens of a text, if upstream can lex it.
    pub fn of(text: &str) -> Option<Self> {
        let tokens = Lexer::new(text).lex().ok()?;
        let mut pool = Vec::new();
        let mut names = Vec::new();
        for token in &tokens {
            let text = match token {
                Token::Text(text) | Token::Variable(text) => text.as_bytes(),
                _ => &[],
            };
            names.push(Name { place: pool.len() as u64, length: text.len() as u64 });
            pool.extend_from_slice(text);
        }
        Some(Tokens { tokens, names, pool })
    }

    /// The text of all Text and Variable tokens.
    pub fn pool(&self) -> &[u8] {
        &self.pool
    }

    /// Where a refusal's two names lie, if upstream's refusal of this text it is. All that is not listed is 0.
    pub fn names(&self, refusal: &Refusal) -> [Name; 2] {
        let name = |token: Option<usize>| token.map_or(Name::default(), |token| self.names[token]);
        match refusal.number {
            7 | 8 if refusal.value <= 2 => [name(self.refused(refusal.number)), Name::default()],
            10..=13 => [name(self.refused(refusal.number)), Name::default()],
            15 | 16 => {
                let line = self.resolved(refusal);
                let reference = line.as_ref().and_then(|line| self.reference(line, &refusal.first));
                let key = line.map(|line| line.key);
                [name(reference.filter(|_| refusal.number == 15)), name(key.filter(|_| refusal.value == 0))]
            }
            _ => [Name::default(); 2],
        }
    }

    /// The token that the numbers 7, 8 and 10 to 13 are about. The lines before the refused one give no ground for any of
    /// them, so the first ground for the number is the one.
    fn refused(&self, number: u8) -> Option<usize> {
        let mut assigned = BTreeSet::new();
        let mut given = BTreeSet::new();
        self.lines().find_map(|Line { key, sign, .. }| {
            let Token::Text(text) = &self.tokens[key] else {
                return (number == 7).then_some(key);
            };
            match self.tokens.get(sign)? {
                Token::Equals => {
                    let again = !assigned.insert(text);
                    let ground = match number {
                        10 => !text.chars().all(is_valid_identifier),
                        11 => again,
                        _ => false,
                    };
                    ground.then_some(key)
                }
                Token::Colon => {
                    let again = !given.insert(text);
                    let ground = match number {
                        12 => !FIELDS.contains(&text.as_str()),
                        13 => again,
                        _ => false,
                    };
                    ground.then_some(key)
                }
                _ => (number == 8).then_some(sign),
            }
        })
    }

    /// The line whose value is resolved when 15 or 16 is given.
    fn resolved(&self, refusal: &Refusal) -> Option<Line> {
        let (sign, key) = match refusal.value {
            0 => (Token::Equals, refusal.second.as_slice()),
            field => (Token::Colon, FIELDS.get(field as usize - 1)?.as_bytes()),
        };
        self.lines().find(|line| {
            self.tokens.get(line.sign) == Some(&sign)
                && matches!(&self.tokens[line.key], Token::Text(text) if text.as_bytes() == key)
        })
    }

    /// The first reference to a name in a line's value.
    fn reference(&self, line: &Line, name: &[u8]) -> Option<usize> {
        line.value
            .clone()
            .find(|token| matches!(&self.tokens[*token], Token::Variable(text) if text.as_bytes() == name))
    }

    /// The lines that have a key.
    fn lines(&self) -> impl Iterator<Item = Line> {
        let mut start = 0;
        std::iter::from_fn(move || {
            while start < self.tokens.len() {
                let line = &self.tokens[start..];
                let end =
                    start + line.iter().position(|token| *token == Token::NewLine).unwrap_or(line.len());
                let key = self.after_blanks(start);
                start = end + 1;
                if key < end {
                    let sign = self.after_blanks(key + 1);
                    return Some(Line { key, sign, value: sign.min(end)..end });
                }
            }
            None
        })
    }

    /// The first token from here that is not blank.
    fn after_blanks(&self, from: usize) -> usize {
        let blanks = self.tokens[from..].iter().take_while(|token| matches!(token, Token::Whitespace(_)));
        from + blanks.count()
    }
}

#[cfg(test)]
mod tests {
    use super::*;
    use oracle::{Answer, answer};

    /// Places of the names in a text's pool, and the pool.
    fn places(text: &str) -> (Vec<(u64, u64)>, String) {
        let Answer::Refused(refusal) = answer(text.as_bytes()) else {
            panic!("{text:?} is accepted");
        };
        let tokens = Tokens::of(text).unwrap();
        let names = tokens.names(&refusal).map(|name| (name.place, name.length));
        (names.to_vec(), String::from_utf8(tokens.pool.clone()).unwrap())
    }

    #[test]
    fn a_name_lies_at_its_own_token() {
        let cases = [
            // 7 and 8, with a text and without.
            ("a=1\n${bc}=1", [(2, 2), (0, 0)], "a1bc1"),
            ("a=1\n:", [(0, 0), (0, 0)], "a1"),
            ("a=1\n a bc=1", [(3, 2), (0, 0)], "a1abc1"),
            ("a=1\nb", [(0, 0), (0, 0)], "a1b"),
            ("a=1\nb\n", [(0, 0), (0, 0)], "a1b"),
            // 10 to 13: the later key.
            ("a=1\na-b=1", [(2, 3), (0, 0)], "a1a-b1"),
            ("a=1\nb=a\na=2", [(4, 1), (0, 0)], "a1baa2"),
            ("a=1\nFoo: a", [(2, 3), (0, 0)], "a1Fooa"),
            ("URL: a\nName: URL\nURL: b", [(11, 3), (0, 0)], "URLaNameURLURLb"),
            // 15: the first reference in the value that is resolved; the key for a variable.
            ("b=${n}\na=x${b}${n}", [(4, 1), (2, 1)], "bnaxbn"),
            ("Name: a${n}${n}\na=1", [(5, 1), (0, 0)], "Nameanna1"),
            ("Name: ${}", [(4, 0), (0, 0)], "Name"),
            ("Libs: a\\${n}\nURL: ${n}", [(9, 1), (0, 0)], "LibsanURLn"),
        ];
        for (text, names, pool) in cases {
            assert_eq!(places(text), (names.to_vec(), pool.to_owned()), "{text:?}");
        }
    }
}
