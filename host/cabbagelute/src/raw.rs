//! The reader as it is: lent buffers in, a number, a detail and records out.
//!
//! [`read`], [`read_in`], [`packages`], [`compare_versions`] and [`version_meets`] are the calls of `include/cabbagelute.h`, which
//! says what the numbers mean and what is written where. [`outcome`] and [`outcome_in`] lend the detail themselves and give it back
//! with names to its numbers. [`records`] walks over the records of an accepted text, or over the items that [`packages`] writes.
//!
//! ```
//! use cabbagelute::raw;
//!
//! let text = b"Name: ${lib}";
//! let mut workspace = vec![0; raw::workspace_entries(text.len())];
//! let (mut pool, mut output) = (vec![0; text.len()], vec![0; 4096]);
//! let outcome = raw::outcome_in(text, &mut workspace, &mut pool, &mut output);
//! assert_eq!((outcome.number, outcome.detail.value), (15, 1));
//! assert_eq!(outcome.detail.first.of(&pool), Some(&b"lib"[..]));
//! ```

pub use crate::calls::{compare_versions, packages, read, read_in, version_meets};

/// The longest text that is read. Above it the number is 1.
pub const LONGEST_TEXT: usize = 65_535;

/// The longest text that [`read`] and [`outcome`] have the workspace for. Above it their number is 2.
pub const LONGEST_WITHOUT_WORKSPACE: usize = 1_360;

/// How many bytes a detail takes. Below it the number is 19.
pub const DETAIL_BYTES: usize = 48;

/// How many bytes the detail of [`packages`] takes. Below it the number is 19.
pub const PACKAGES_DETAIL_BYTES: usize = 24;

/// How many entries of workspace a text of so many bytes needs. Below it the number is 2.
pub const fn workspace_entries(text_bytes: usize) -> usize {
    text_bytes.saturating_mul(12).saturating_add(64)
}

/// What the reader says about a text.
#[derive(Clone, Copy, Debug, PartialEq, Eq)]
pub struct Outcome {
    /// 0 where the text is accepted, else the number of the refusal.
    pub number: u32,
    /// What there is to say about it.
    pub detail: Detail,
}

/// A number with two names. All that a number has no use for is 0.
#[derive(Clone, Copy, Debug, Default, PartialEq, Eq)]
pub struct Detail {
    /// The bytes of records (0, 17), the code point (6), the token's kind (7, 8), the field, or 0 for a variable (15, 16).
    pub value: u64,
    /// The token's text (7, 8 with kinds 1 and 2), the key (10 to 13), the reference (15).
    pub first: Name,
    /// The variable being resolved (15, 16).
    pub second: Name,
}

/// A name by its place in the pool.
#[derive(Clone, Copy, Debug, Default, PartialEq, Eq)]
pub struct Name {
    /// Where it starts.
    pub place: u64,
    /// How many bytes it has.
    pub length: u64,
}

impl Name {
    /// The name's bytes. There are none in a pool that is not the one of its call and too short.
    pub fn of<'a>(&self, pool: &'a [u8]) -> Option<&'a [u8]> {
        let start = usize::try_from(self.place).ok()?;
        let end = start.checked_add(usize::try_from(self.length).ok()?)?;
        pool.get(start..end)
    }
}

impl Outcome {
    /// Puts the number that a call gave and the detail that it wrote together.
    pub fn new(number: u32, detail: &[u8; DETAIL_BYTES]) -> Self {
        // The first says the number again.
        let [_, value, first_place, first_length, second_place, second_length] = numbers(detail);
        Outcome {
            number,
            detail: Detail {
                value,
                first: Name { place: first_place, length: first_length },
                second: Name { place: second_place, length: second_length },
            },
        }
    }
}

/// The 8-byte little-endian numbers that a detail begins with.
pub(crate) fn numbers<const COUNT: usize>(detail: &[u8]) -> [u64; COUNT] {
    let mut numbers = [0; COUNT];
    let mut rest = detail;
    for number in &mut numbers {
        if let Some((bytes, after)) = rest.split_first_chunk() {
            *number = u64::from_le_bytes(*bytes);
            rest = after;
        }
    }
    numbers
}

/// As [`read`], with the detail in words.
pub fn outcome(text: &[u8], pool: &mut [u8], output: &mut [u8]) -> Outcome {
    let mut detail = [0; DETAIL_BYTES];
    let number = read(text, pool, output, &mut detail);
    Outcome::new(number, &detail)
}

/// As [`read_in`], with the detail in words.
pub fn outcome_in(text: &[u8], workspace: &mut [u32], pool: &mut [u8], output: &mut [u8]) -> Outcome {
    let mut detail = [0; DETAIL_BYTES];
    let number = read_in(text, workspace, pool, output, &mut detail);
    Outcome::new(number, &detail)
}

/// Walks over records: of an accepted text, over as much of the output as [`Detail::value`] says.
pub fn records(bytes: &[u8]) -> Records<'_> {
    Records { rest: bytes }
}

/// A record: its kind and its payload.
#[derive(Clone, Copy, Debug, PartialEq, Eq)]
pub struct Record<'a> {
    /// 1 to 10 for the fields, 11 for an argument; of items 12 for field and operator, 13 for the name, 14 for the version.
    pub kind: u16,
    /// The value or the argument; for the kinds 8 to 10, how many arguments follow, in 4 little-endian bytes.
    pub payload: &'a [u8],
}

/// The records one after another. It ends where no whole record follows.
#[derive(Clone, Debug)]
pub struct Records<'a> {
    rest: &'a [u8],
}

impl<'a> Records<'a> {
    /// What has not been walked over. After the last record of an accepted text it is empty.
    pub fn rest(&self) -> &'a [u8] {
        self.rest
    }
}

impl<'a> Iterator for Records<'a> {
    type Item = Record<'a>;

    fn next(&mut self) -> Option<Record<'a>> {
        let (length, after) = self.rest.split_first_chunk()?;
        let (kind, after) = after.split_first_chunk()?;
        let length = usize::try_from(u32::from_le_bytes(*length)).ok()?;
        let (payload, after) = after.split_at_checked(length)?;
        self.rest = after;
        Some(Record { kind: u16::from_le_bytes(*kind), payload })
    }
}

#[cfg(test)]
mod tests {
    use super::*;

    #[test]
    fn records_end_where_no_whole_one_follows() {
        let bytes = b"\x01\x00\x00\x00\x01\x00a\x00\x00\x00\x00\x0b\x01";
        let both = [Record { kind: 1, payload: b"a" }, Record { kind: 0x10b, payload: b"" }];
        assert_eq!(records(bytes).collect::<Vec<_>>(), both);
        for end in 0..bytes.len() {
            let mut walk = records(&bytes[..end]);
            assert_eq!(walk.by_ref().count(), usize::from(end >= 7));
            assert_eq!(walk.rest().len(), if end >= 7 { end - 7 } else { end });
        }
    }

    #[test]
    fn a_detail_has_its_numbers_in_order() {
        let mut detail = [0; DETAIL_BYTES];
        for at in 0..6 {
            detail[8 * at] = at as u8;
            detail[8 * at + 7] = 1;
        }
        let high = 1 << 56;
        let Outcome { number, detail } = Outcome::new(9, &detail);
        assert_eq!((number, detail.value), (9, high + 1));
        assert_eq!(detail.first, Name { place: high + 2, length: high + 3 });
        assert_eq!(detail.second, Name { place: high + 4, length: high + 5 });
    }

    #[test]
    fn a_name_past_the_pool_has_no_bytes() {
        let name = |place, length| Name { place, length };
        assert_eq!(name(1, 2).of(b"abc"), Some(&b"bc"[..]));
        assert_eq!(name(3, 0).of(b"abc"), Some(&b""[..]));
        assert_eq!(name(2, 2).of(b"abc"), None);
        assert_eq!(name(u64::MAX, 2).of(b"abc"), None);
    }
}
