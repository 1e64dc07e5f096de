//! Readers that break one promise each: the prober sees every one of them.

use compare::{Archive, Prober, Reader};
use oracle::generators::{Scale, by_name};

/// A call that was made right, for a faulty reader to spoil.
struct Call<'a> {
    number: &'a mut u32,
    text: &'a [u8],
    /// Empty where the reader has its own.
    workspace: &'a mut [u32],
    pool: &'a mut [u8],
    output: &'a mut [u8],
    detail: &'a mut [u8],
}

impl Call<'_> {
    /// One of the detail's numbers.
    fn get(&self, at: usize) -> u64 {
        u64::from_le_bytes(self.detail[8 * at..8 * at + 8].try_into().unwrap())
    }

    fn set(&mut self, at: usize, number: u64) {
        self.detail[8 * at..8 * at + 8].copy_from_slice(&number.to_le_bytes());
    }

    fn answer(&mut self, number: u32) {
        *self.number = number;
        self.set(0, number.into());
    }
}

/// What a faulty reader does to a call.
type Fault = fn(&mut Call);

struct Faulty(Fault);

impl Reader for Faulty {
    fn read(&mut self, text: &[u8], pool: &mut [u8], output: &mut [u8], detail: &mut [u8]) -> u32 {
        let mut number = Archive.read(text, pool, output, detail);
        (self.0)(&mut Call { number: &mut number, text, workspace: &mut [], pool, output, detail });
        number
    }

    fn read_in(
        &mut self,
        text: &[u8],
        workspace: &mut [u32],
        pool: &mut [u8],
        output: &mut [u8],
        detail: &mut [u8],
    ) -> u32 {
        let mut number = Archive.read_in(text, workspace, pool, output, detail);
        (self.0)(&mut Call { number: &mut number, text, workspace, pool, output, detail });
        number
    }
}

/// Changes a byte, if there is one.
fn spoil(byte: Option<&mut u8>) {
    if let Some(byte) = byte {
        *byte = byte.wrapping_add(1);
    }
}

/// Faults with their names.
const FAULTS: &[(&str, Fault)] = &[
    ("writes one byte after the records", |call| {
        if *call.number == 0 {
            let written = call.get(1) as usize;
            spoil(call.output.get_mut(written));
        }
    }),
    ("writes output on a refusal", |call| {
        if *call.number == 12 {
            spoil(call.output.last_mut());
        }
    }),
    ("writes what there is room for on 17", |call| {
        if *call.number == 17 {
            spoil(call.output.first_mut());
        }
    }),
    ("answers 17 where the output is just long enough", |call| {
        if *call.number == 0 && call.get(1) > 0 && call.get(1) == call.output.len() as u64 {
            call.output.fill(0);
            call.answer(17);
        }
    }),
    ("asks for a byte too many", |call| {
        if *call.number == 17 {
            let need = call.get(1) + 1;
            call.set(1, need);
        }
    }),
    ("touches the pool after the tokens' text", |call| {
        if *call.number == 0 {
            spoil(call.pool.last_mut());
        }
    }),
    ("puts a token's text into the pool wrong", |call| {
        if *call.number == 9 {
            spoil(call.pool.first_mut());
        }
    }),
    ("fills the pool on 5", |call| {
        if *call.number == 5 {
            spoil(call.pool.first_mut());
        }
    }),
    ("fills the pool on 4", |call| {
        if *call.number == 4 {
            spoil(call.pool.first_mut());
        }
    }),
    ("leaves the last entry of the workspace dirty", |call| {
        if *call.number == 5 {
            if let Some(entry) = call.workspace.get_mut(12 * call.text.len() + 63) {
                *entry = 1;
            }
        }
    }),
    ("zeroes one entry of the workspace too many", |call| {
        if *call.number == 0 {
            if let Some(entry) = call.workspace.get_mut(12 * call.text.len() + 64) {
                *entry = 0;
            }
        }
    }),
    ("zeroes the workspace on 3", |call| {
        if *call.number == 3 {
            call.workspace.fill(0);
        }
    }),
    ("zeroes the workspace on 4", |call| {
        if *call.number == 4 {
            call.workspace.fill(0);
        }
    }),
    ("touches the detail after its numbers", |call| {
        if *call.number == 0 {
            spoil(call.detail.get_mut(48));
        }
    }),
    ("writes a short detail on 19", |call| {
        if *call.number == 19 {
            spoil(call.detail.last_mut());
        }
    }),
    ("touches the output on 19", |call| {
        if *call.number == 19 {
            spoil(call.output.first_mut());
        }
    }),
    ("has another number in the detail", |call| {
        if *call.number == 8 {
            call.set(0, 7);
        }
    }),
    ("gives 11 with the earlier key", |call| {
        if *call.number == 11 {
            let (place, length) = (call.get(2) as usize, call.get(3) as usize);
            let name = &call.pool[place..place + length];
            let earlier = call.pool.windows(length).position(|part| part == name).unwrap();
            call.set(2, earlier as u64);
        }
    }),
    ("gives 15 for a field with a second name", |call| {
        if *call.number == 15 && call.get(1) != 0 {
            call.set(4, 1);
        }
    }),
    ("gives the empty name no place", |call| {
        if *call.number == 15 && call.get(3) == 0 {
            call.set(2, 0);
        }
    }),
    ("gives 14 with a value", |call| {
        if *call.number == 14 {
            call.set(1, 9);
        }
    }),
    ("answers by what the output held", |call| {
        if *call.number == 9 && call.output.first().is_some_and(|byte| byte % 2 == 0) {
            call.answer(14);
        }
    }),
    ("has too little workspace of its own", |call| {
        if *call.number == 9 && call.workspace.is_empty() && call.text.len() == 1_360 {
            let used = call.text.len();
            call.pool[..used].fill(0);
            call.answer(2);
        }
    }),
    ("tests the pool before the workspace", |call| {
        if *call.number == 2 && call.pool.len() <= call.text.len() {
            call.answer(3);
        }
    }),
];

fn broken(reader: impl Reader) -> u64 {
    let mut prober = Prober::new(reader);
    by_name("lines").unwrap().each(Scale::Small, &mut |text| {
        prober.ask(text);
    });
    for text in [&b"Name: \xff"[..], b"Name: ${}", b"a=1\nName: a${}", &[b'a'; 1_360], &[b'a'; 1_361]] {
        prober.ask(text);
    }
    prober.broken
}

#[test]
fn every_fault_is_seen() {
    assert_eq!(broken(Archive), 0);
    let unseen: Vec<_> =
        FAULTS.iter().filter(|(_, fault)| broken(Faulty(*fault)) == 0).map(|(name, _)| name).collect();
    assert!(unseen.is_empty(), "{unseen:#?}");
}
