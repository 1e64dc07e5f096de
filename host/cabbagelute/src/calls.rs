//! The calls of `include/cabbagelute.h`, made safe. All unsafe code of this crate is here.
#![allow(unsafe_code)]

// SAFETY: these are the declarations of include/cabbagelute.h.
unsafe extern "C" {
    fn cabbagelute_read(
        text: *const u8,
        text_len: usize,
        pool: *mut u8,
        pool_len: usize,
        output: *mut u8,
        output_len: usize,
        detail: *mut u8,
        detail_len: usize,
    ) -> u32;

    fn cabbagelute_read_in(
        text: *const u8,
        text_len: usize,
        workspace: *mut u32,
        workspace_len: usize,
        pool: *mut u8,
        pool_len: usize,
        output: *mut u8,
        output_len: usize,
        detail: *mut u8,
        detail_len: usize,
    ) -> u32;

    fn cabbagelute_packages(
        records: *const u8,
        records_len: usize,
        output: *mut u8,
        output_len: usize,
        detail: *mut u8,
        detail_len: usize,
    ) -> u32;

    fn cabbagelute_compare_versions(a: *const u8, a_len: usize, b: *const u8, b_len: usize) -> u32;

    fn cabbagelute_version_meets(
        version: *const u8,
        version_len: usize,
        operator: u32,
        asked: *const u8,
        asked_len: usize,
    ) -> u32;
}

/// Reads a text of up to 1,360 bytes with a workspace of the reader's own, which takes 64 KiB of the caller's stack.
///
/// The answer is its number; `detail` gets the six numbers of `include/cabbagelute.h`, which says what is written where.
pub fn read(text: &[u8], pool: &mut [u8], output: &mut [u8], detail: &mut [u8]) -> u32 {
    // SAFETY: each pointer is a slice's, not null and valid for its length, the last three for writing too. No two
    // of the slices overlap, for three are borrowed mutably. The reader keeps no pointer.
    unsafe {
        cabbagelute_read(
            text.as_ptr(),
            text.len(),
            pool.as_mut_ptr(),
            pool.len(),
            output.as_mut_ptr(),
            output.len(),
            detail.as_mut_ptr(),
            detail.len(),
        )
    }
}

/// Reads a text of up to 65,535 bytes with a lent workspace. Otherwise as [`read`].
pub fn read_in(
    text: &[u8],
    workspace: &mut [u32],
    pool: &mut [u8],
    output: &mut [u8],
    detail: &mut [u8],
) -> u32 {
    // SAFETY: as in `read`; the workspace is a slice of aligned entries of 32 bits, and its length counts those.
    unsafe {
        cabbagelute_read_in(
            text.as_ptr(),
            text.len(),
            workspace.as_mut_ptr(),
            workspace.len(),
            pool.as_mut_ptr(),
            pool.len(),
            output.as_mut_ptr(),
            output.len(),
            detail.as_mut_ptr(),
            detail.len(),
        )
    }
}

/// Reads `Requires` and `Requires.private` of some records into items: records of the kinds 12 to 14.
///
/// The answer is its number; `detail` gets the three numbers of `include/cabbagelute.h`, which says what is written where.
pub fn packages(records: &[u8], output: &mut [u8], detail: &mut [u8]) -> u32 {
    // SAFETY: as in `read`.
    unsafe {
        cabbagelute_packages(
            records.as_ptr(),
            records.len(),
            output.as_mut_ptr(),
            output.len(),
            detail.as_mut_ptr(),
            detail.len(),
        )
    }
}

/// Compares two versions by their runs: 0 where they are equal, 1 where the first is lower, 2 where it is higher.
pub fn compare_versions(a: &[u8], b: &[u8]) -> u32 {
    // SAFETY: both pointers are a slice's, not null and valid for its length. Nothing is written.
    unsafe { cabbagelute_compare_versions(a.as_ptr(), a.len(), b.as_ptr(), b.len()) }
}

/// Whether a version meets an operator, by its number, and the version asked for: 1 where it does, 0 where it does not, and 2 where
/// there is no such operator.
pub fn version_meets(version: &[u8], operator: u32, asked: &[u8]) -> u32 {
    // SAFETY: as in `compare_versions`.
    unsafe {
        cabbagelute_version_meets(version.as_ptr(), version.len(), operator, asked.as_ptr(), asked.len())
    }
}
