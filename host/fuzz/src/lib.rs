//! The entry that libFuzzer calls: the proved reader beside upstream's Rust on each text.
//!
//! Upstream's Rust and the comparison are built with coverage, and new coverage there is what keeps a text. The archive has none:
//! its compiler offers no instrumentation.

use compare::{Archive, Prober};
use std::cell::RefCell;

thread_local! {
    static PROBER: RefCell<Prober<Archive>> = RefCell::new(Prober::new(Archive));
}

/// Where the reader differs from the Rust or breaks a promise, what is wrong.
pub fn judge(text: &[u8]) -> Result<(), String> {
    let expected = oracle::answer(text);
    PROBER.with_borrow_mut(|prober| {
        let found = prober.ask(text);
        match prober.first.first() {
            Some(broken) => Err(broken.to_string()),
            None if found != expected => Err(format!("Rust {expected:?}\nhere {found:?}")),
            None => Ok(()),
        }
    })
}

/// What libFuzzer calls with each text. It stops the process at the first difference, and libFuzzer keeps the text.
///
/// # Safety
///
/// `data` points to `size` bytes, which nobody writes during the call.
#[unsafe(no_mangle)]
pub unsafe extern "C" fn LLVMFuzzerTestOneInput(data: *const u8, size: usize) -> i32 {
    let text = if size == 0 {
        &[]
    } else {
        // SAFETY: the caller says so.
        unsafe { std::slice::from_raw_parts(data, size) }
    };
    if let Err(what) = judge(text) {
        eprintln!("{what}");
        std::process::abort();
    }
    0
}
