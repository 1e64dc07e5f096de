//! Lent memory that is dirty before a call, with guards on both sides.

use std::sync::LazyLock;

/// What entries of lent memory can be.
pub trait Entry: Copy + Default + PartialEq + 'static {
    /// Random entries, none of them 0, always the same.
    fn noise() -> &'static [Self];
}

/// How many random entries there are. A prime, so that no power of two falls on the same ones again.
const NOISE: usize = 65_537;

fn random() -> impl Iterator<Item = u32> {
    let mut state: u64 = 0x2545_f491_4f6c_dd1d;
    std::iter::repeat_with(move || {
        state ^= state << 13;
        state ^= state >> 7;
        state ^= state << 17;
        (state >> 32) as u32
    })
}

static BYTES: LazyLock<Vec<u8>> =
    LazyLock::new(|| random().map(|number| number as u8).filter(|byte| *byte != 0).take(NOISE).collect());
static WORDS: LazyLock<Vec<u32>> =
    LazyLock::new(|| random().filter(|number| *number != 0).take(NOISE).collect());

impl Entry for u8 {
    fn noise() -> &'static [u8] {
        &BYTES
    }
}

impl Entry for u32 {
    fn noise() -> &'static [u32] {
        &WORDS
    }
}

/// A lent buffer. Its entries, and some before and after it, are random before a call.
#[derive(Default)]
pub struct Memory<T> {
    entries: Vec<T>,
    guard: usize,
    length: usize,
    salt: usize,
}

impl<T: Entry> Memory<T> {
    /// Makes the buffer so long, and all of it dirty. The salt chooses the dirt, and how the buffer is aligned.
    pub fn dirty(&mut self, length: usize, salt: usize) {
        self.guard = 64 - salt % 8;
        self.length = length;
        self.salt = salt.wrapping_mul(7_919) % NOISE;
        self.entries.clear();
        let mut missing = length + 2 * self.guard;
        self.entries.reserve(missing);
        let mut noise = &T::noise()[self.salt..];
        while missing > 0 {
            let part = &noise[..missing.min(noise.len())];
            self.entries.extend_from_slice(part);
            missing -= part.len();
            noise = T::noise();
        }
    }

    /// The buffer to lend.
    pub fn lent(&mut self) -> &mut [T] {
        &mut self.entries[self.guard..self.guard + self.length]
    }

    /// The buffer's first entries.
    pub fn front(&self, length: usize) -> &[T] {
        &self.entries[self.guard..self.guard + length.min(self.length)]
    }

    /// Whether all is as it was before the call, but for so many entries at the buffer's front.
    pub fn untouched_from(&self, front: usize) -> bool {
        let front = front.min(self.length);
        self.as_before(0, self.guard) && self.as_before(self.guard + front, self.entries.len())
    }

    fn as_before(&self, from: usize, to: usize) -> bool {
        let mut rest = &self.entries[from..to];
        let mut noise = &T::noise()[(self.salt + from) % NOISE..];
        while !rest.is_empty() {
            let part = rest.len().min(noise.len());
            if rest[..part] != noise[..part] {
                return false;
            }
            rest = &rest[part..];
            noise = T::noise();
        }
        true
    }
}

#[cfg(test)]
mod tests {
    use super::*;

    #[test]
    fn every_touched_entry_is_seen() {
        let mut memory = Memory::<u32>::default();
        for (length, salt) in [(0, 0), (1, 7), (100, 65_500), (70_000, 3)] {
            memory.dirty(length, salt);
            assert!(memory.untouched_from(0) && memory.lent().len() == length);
            let guard = memory.guard;
            for at in [
                0,
                guard - 1,
                guard,
                guard + length / 2,
                guard + length - 1,
                guard + length,
                length + 2 * guard - 1,
            ] {
                let before = memory.entries[at];
                memory.entries[at] = 0;
                assert!(!memory.untouched_from(0), "{at} of {length}");
                // Only what is in the buffer may be let off.
                let inside = guard <= at && at < guard + length;
                assert_eq!(memory.untouched_from(length), inside);
                memory.entries[at] = before;
                assert!(memory.untouched_from(0));
            }
        }
    }

    #[test]
    fn other_salts_give_other_dirt() {
        let mut memory = Memory::<u8>::default();
        memory.dirty(100, 1);
        let before = memory.lent().to_vec();
        memory.dirty(100, 2);
        assert!(before != memory.lent() && !before.contains(&0));
    }
}
