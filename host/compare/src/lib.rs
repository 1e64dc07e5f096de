//! The proved reader beside upstream's Rust.
//!
//! [`Prober::ask`] calls a reader in several ways about one text and gives its answer in the oracle's terms, for
//! `oracle::compare`. On the way it checks every call for what else document 01 fixes: the detail's places, the pool, the
//! workspace, the output, and what stands around each of them. All lent memory is dirty before a call.

mod memory;
mod prober;
mod tokens;

pub use prober::{Archive, Broken, Prober, Reader};
