//! Calls a reader in several ways and checks each call.

use crate::memory::Memory;
use crate::tokens::Tokens;
use cabbagelute::raw::{self, DETAIL_BYTES, LONGEST_TEXT, LONGEST_WITHOUT_WORKSPACE, Outcome};
use oracle::{Answer, LONGEST_EXACT, LongRecords, Records, Refusal};
use std::fmt;

/// The two calls of `include/cabbagelute.h`.
pub trait Reader {
    /// `cabbagelute_read`
    fn read(&mut self, text: &[u8], pool: &mut [u8], output: &mut [u8], detail: &mut [u8]) -> u32;

    /// `cabbagelute_read_in`
    fn read_in(
        &mut self,
        text: &[u8],
        workspace: &mut [u32],
        pool: &mut [u8],
        output: &mut [u8],
        detail: &mut [u8],
    ) -> u32;
}

/// The proved reader.
pub struct Archive;

impl Reader for Archive {
    fn read(&mut self, text: &[u8], pool: &mut [u8], output: &mut [u8], detail: &mut [u8]) -> u32 {
        raw::read(text, pool, output, detail)
    }

    fn read_in(
        &mut self,
        text: &[u8],
        workspace: &mut [u32],
        pool: &mut [u8],
        output: &mut [u8],
        detail: &mut [u8],
    ) -> u32 {
        raw::read_in(text, workspace, pool, output, detail)
    }
}

/// How long the lent buffers are in a call. Without a workspace, the reader's own is used.
#[derive(Clone, Copy)]
struct Room {
    workspace: Option<usize>,
    pool: usize,
    output: usize,
    detail: usize,
}

/// The entries of the workspace that the reader has of its own.
const OWN_WORKSPACE: usize = 16_384;

/// Above this, records are asked for in fewer ways: writing them takes its time.
const LONG_OUTPUT: usize = 1 << 20;

/// The longest records that are asked for.
const MOST_OUTPUT: u64 = 1 << 30;

/// How many broken promises are kept to be shown.
const KEPT: usize = 10;

/// A promise that a call did not keep.
pub struct Broken {
    /// The text.
    pub text: Vec<u8>,
    /// How the reader was called, and what is wrong.
    pub what: String,
}

impl fmt::Display for Broken {
    fn fmt(&self, f: &mut fmt::Formatter<'_>) -> fmt::Result {
        let shown = &self.text[..self.text.len().min(200)];
        write!(f, "{} bytes \"{}\": {}", self.text.len(), shown.escape_ascii(), self.what)
    }
}

/// Asks a reader about texts and keeps account of promises that it breaks.
pub struct Prober<R> {
    reader: R,
    text: Memory<u8>,
    workspace: Memory<u32>,
    pool: Memory<u8>,
    output: Memory<u8>,
    detail: Memory<u8>,
    salt: usize,
    /// How many calls were made.
    pub calls: u64,
    /// How many of them broke a promise.
    pub broken: u64,
    /// The first of those.
    pub first: Vec<Broken>,
}

/// What a text is, as far as the promises depend on it.
struct Asked<'a> {
    bytes: &'a [u8],
    utf8: bool,
    /// None where upstream cannot lex it.
    tokens: Option<Tokens>,
}

impl<R: Reader> Prober<R> {
    /// A prober for a reader.
    pub fn new(reader: R) -> Self {
        Prober {
            reader,
            text: Memory::default(),
            workspace: Memory::default(),
            pool: Memory::default(),
            output: Memory::default(),
            detail: Memory::default(),
            salt: 0,
            calls: 0,
            broken: 0,
            first: Vec::new(),
        }
    }

    /// The reader's answer to a text, after calls with buffers of exact length, with more than that, with the reader's own
    /// workspace, and with each buffer one entry short.
    pub fn ask(&mut self, text: &[u8]) -> Answer {
        let valid = std::str::from_utf8(text).ok();
        let asked = Asked { bytes: text, utf8: valid.is_some(), tokens: valid.and_then(Tokens::of) };
        let n = text.len();
        let exact =
            Room { workspace: Some(raw::workspace_entries(n)), pool: n, output: 0, detail: DETAIL_BYTES };
        let own = Room { workspace: None, ..exact };
        let spare = |output| Room {
            workspace: Some(raw::workspace_entries(n) + 37),
            pool: n + 29,
            output,
            detail: DETAIL_BYTES + 19,
        };

        let outcome = self.call(&asked, exact);
        self.shortages(&asked, exact, own);
        if outcome.number != 17 && outcome.number != 0 {
            self.same(&asked, own, outcome);
            self.same(&asked, Room { output: 50, ..exact }, outcome);
            self.same(&asked, spare(70), outcome);
            return self.refused(outcome);
        }

        let need = outcome.detail.value;
        if need > MOST_OUTPUT {
            self.report(&asked, exact, "more output is needed than can be compared");
            return self.refused(outcome);
        }
        let length = need as usize;
        let accepted = Outcome { number: 0, ..outcome };
        let short = Outcome { number: 17, ..outcome };
        if length > 0 {
            self.same(&asked, Room { output: length - 1, ..exact }, short);
            self.same(&asked, Room { output: length - 1, ..own }, short);
        }
        // The records of all the ways of calling are equal, since each equals those of the last.
        let mut answers = Vec::new();
        for room in [Room { output: length, ..own }, spare(length + 90), Room { output: length, ..exact }] {
            let own_is_short = room.workspace.is_none() && n > LONGEST_WITHOUT_WORKSPACE;
            let too_slow = length > LONG_OUTPUT && room.output > length;
            if own_is_short || too_slow {
                continue;
            }
            self.same(&asked, room, accepted);
            answers.push(self.accepted(length));
        }
        let answer = answers.pop().unwrap_or_else(|| self.refused(outcome));
        if answers.iter().any(|other| *other != answer) {
            self.report(&asked, exact, "the records depend on how the reader is called");
        }
        answer
    }

    /// Calls with one buffer too short.
    fn shortages(&mut self, asked: &Asked, exact: Room, own: Room) {
        let n = asked.bytes.len();
        self.call(asked, Room { detail: self.salt % DETAIL_BYTES, output: 9, ..exact });
        self.call(asked, Room { detail: DETAIL_BYTES - 1, output: 9, ..own });
        self.call(asked, Room { workspace: Some(raw::workspace_entries(n) - 1), output: 9, ..exact });
        if n > 0 {
            self.call(asked, Room { pool: n - 1, output: 9, ..exact });
            self.call(asked, Room { pool: n - 1, output: 9, ..own });
        }
    }

    /// Calls, and reports if the outcome is another than that, or than the one that the room decides.
    fn same(&mut self, asked: &Asked, room: Room, expected: Outcome) {
        let found = self.call(asked, room);
        if found != expected && shortage(asked, room).is_none() {
            self.report(asked, room, &format!("{found:?} in place of {expected:?}"));
        }
    }

    /// Calls once, with dirty buffers, and checks what can be checked.
    fn call(&mut self, asked: &Asked, room: Room) -> Outcome {
        self.calls += 1;
        self.salt += 1;
        let salt = self.salt;
        self.text.dirty(asked.bytes.len(), salt + 4);
        self.text.lent().copy_from_slice(asked.bytes);
        self.workspace.dirty(room.workspace.unwrap_or(0), salt);
        self.pool.dirty(room.pool, salt + 1);
        self.output.dirty(room.output, salt + 2);
        self.detail.dirty(room.detail, salt + 3);

        let text = &*self.text.lent();
        let (pool, output, detail) = (self.pool.lent(), self.output.lent(), self.detail.lent());
        let number = match room.workspace {
            Some(_) => self.reader.read_in(text, self.workspace.lent(), pool, output, detail),
            None => self.reader.read(text, pool, output, detail),
        };

        let mut detail = [0; DETAIL_BYTES];
        if number != 19 && room.detail >= DETAIL_BYTES {
            detail.copy_from_slice(self.detail.front(DETAIL_BYTES));
        }
        let outcome = Outcome::new(number, &detail);
        let says = u64::from_le_bytes([
            detail[0], detail[1], detail[2], detail[3], detail[4], detail[5], detail[6], detail[7],
        ]);
        if says != u64::from(number) && number != 19 {
            self.report(asked, room, &format!("the answer is {number}, and the detail says {says}"));
        } else if let Err(what) = self.check(asked, room, &outcome) {
            self.report(asked, room, &format!("{what} ({outcome:?})"));
        }
        outcome
    }

    /// What document 01 says about a call with this outcome, whatever upstream says of the text.
    fn check(&self, asked: &Asked, room: Room, outcome: &Outcome) -> Result<(), String> {
        let number = outcome.number;
        let detail = &outcome.detail;
        let n = asked.bytes.len();
        let expect = |kept: bool, what: &str| if kept { Ok(()) } else { Err(what.to_owned()) };

        match shortage(asked, room) {
            Some(due) => expect(number == due, "the room decides for another number")?,
            None => {
                let possible =
                    if asked.utf8 { number == 0 || (5..=17).contains(&number) } else { number == 4 };
                expect(possible, "the number is impossible here")?;
            }
        }

        let detail_written = if number == 19 { 0 } else { DETAIL_BYTES };
        expect(self.detail.untouched_from(detail_written), "the detail is touched")?;

        expect(self.text.untouched_from(n) && self.text.front(n) == asked.bytes, "the text is touched")?;

        let zeroed = if (1..=4).contains(&number) || number == 19 { 0 } else { raw::workspace_entries(n) };
        expect(self.workspace.untouched_from(zeroed), "the workspace is touched")?;
        expect(self.workspace.front(zeroed).iter().all(|entry| *entry == 0), "the workspace is not zero")?;

        let filled = match &asked.tokens {
            Some(tokens) if number == 0 || (7..=17).contains(&number) => tokens.pool(),
            _ => &[],
        };
        expect(self.pool.untouched_from(filled.len()), "the pool is touched")?;
        expect(self.pool.front(filled.len()) == filled, "the pool does not hold the tokens' text")?;

        let written = if number == 0 { detail.value as usize } else { 0 };
        expect(written <= room.output, "more is written than there is room")?;
        expect(self.output.untouched_from(written), "the output is touched")?;
        if number == 17 {
            expect(detail.value > room.output as u64, "there is room for what is needed")?;
        }

        // The names: places as upstream's tokens have them. Their bytes are the answer's, which is compared.
        let names = match &asked.tokens {
            Some(tokens) if (5..=16).contains(&number) => tokens.names(&self.refusal(outcome)),
            _ => Default::default(),
        };
        expect([detail.first, detail.second] == names, &format!("the names should be {names:?}"))?;
        let valued = matches!(number, 0 | 6 | 7 | 8 | 15 | 16 | 17);
        expect(valued || detail.value == 0, "the value should be 0")
    }

    fn accepted(&self, length: usize) -> Answer {
        let bytes = self.output.front(length);
        Answer::Accepted(if length <= LONGEST_EXACT {
            Records::Exact(bytes.to_vec())
        } else {
            let mut long = LongRecords::default();
            long.add(bytes);
            Records::Long(long)
        })
    }

    fn refused(&self, outcome: Outcome) -> Answer {
        Answer::Refused(self.refusal(&outcome))
    }

    /// A refusal in the oracle's terms. What does not fit into them becomes something that upstream never says.
    fn refusal(&self, outcome: &Outcome) -> Refusal {
        let name = |name: raw::Name| {
            name.of(self.pool.front(usize::MAX)).unwrap_or(b"\xff outside the pool").to_vec()
        };
        Refusal {
            number: u8::try_from(outcome.number).unwrap_or(u8::MAX),
            value: u32::try_from(outcome.detail.value).unwrap_or(u32::MAX),
            first: name(outcome.detail.first),
            second: name(outcome.detail.second),
        }
    }

    fn report(&mut self, asked: &Asked, room: Room, what: &str) {
        self.broken += 1;
        if self.first.len() < KEPT {
            let workspace = room.workspace.map_or("its own".to_owned(), |entries| entries.to_string());
            let Room { pool, output, detail, .. } = room;
            let what =
                format!("workspace {workspace}, pool {pool}, output {output}, detail {detail}: {what}");
            self.first.push(Broken { text: asked.bytes.to_vec(), what });
        }
    }
}

/// The number that the lengths alone decide for: 19, then 1 to 3 in their order.
fn shortage(asked: &Asked, room: Room) -> Option<u32> {
    let n = asked.bytes.len();
    if room.detail < DETAIL_BYTES {
        Some(19)
    } else if n > LONGEST_TEXT {
        Some(1)
    } else if room.workspace.unwrap_or(OWN_WORKSPACE) < raw::workspace_entries(n) {
        Some(2)
    } else if room.pool < n {
        Some(3)
    } else {
        None
    }
}
