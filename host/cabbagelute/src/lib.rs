//! Reads pkg-config `.pc` files: text in, ten optional resolved fields out, or the first error.
//!
//! The reading is done by a reader whose every answer is proved (`libexport.a`, see `include/cabbagelute.h`). This crate lends
//! it buffers and puts its answers into the types of the crate cuddld_pkg_config, whose API and behaviour it has:
//! [`PkgConfig::parse`], [`ParseError`], [`LexError`] and [`discover`]. What differs is listed in `docs/DIFFERENCES.md`.
//!
//! ```
//! use cabbagelute::PkgConfig;
//!
//! let config = PkgConfig::parse("lib=segue\nName: Segue timer\nLibs: -L/opt/${lib} '-l a'\n")?;
//! assert_eq!(config.name.as_deref(), Some("Segue timer"));
//! assert_eq!(config.libs.unwrap(), ["-L/opt/segue", "-l a"]);
//!
//! let error = PkgConfig::parse("Name: ${lib}\n").unwrap_err();
//! assert_eq!(error.to_string(), "undefined variable while resolving field name: lib");
//! # Ok::<(), cabbagelute::ParseError>(())
//! ```
//!
//! Beyond that API, [`PkgConfig::requires`] gives the packages that `Requires` and `Requires.private` name, with the versions they
//! ask for, and [`compare_versions`] orders versions; both are done by the proved archive too.
//!
//! Callers who want the reader's own number, detail and records use [`raw`].

mod calls;
mod discover;
mod error;
mod pkg_config;
pub mod raw;
mod requires;

pub use crate::discover::{DiscoverError, PkgConfigEnv, discover};
pub use crate::error::{LexError, ParseError, WhileResolving};
pub use crate::pkg_config::PkgConfig;
pub use crate::requires::{Operator, Package, RequiresError, RequiresField, compare_versions, version_meets};
