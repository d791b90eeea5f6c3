//! Ignore files, such as `.gitignore`, by the rules of git.
//!
//! This crate has the module `gitignore` and the type [`Match`] of the crate `ignore` in names and shape. The rules are decided by
//! the crate `globset` beside it, over a C library whose functions are proved. This crate is tested, and not proved. `README.md`
//! lists the differences from the crate `ignore`.
//!
//! ```
//! use git_ignore::gitignore::GitignoreBuilder;
//!
//! let mut builder = GitignoreBuilder::new("");
//! builder.add_line(None, "*.o")?.add_line(None, "!keep.o")?;
//! let gitignore = builder.build()?;
//! assert!(gitignore.matched("src/a.o", false).is_ignore());
//! assert!(gitignore.matched("src/keep.o", false).is_whitelist());
//! assert!(gitignore.matched("src/a.c", false).is_none());
//! # Ok::<(), git_ignore::Error>(())
//! ```

#![deny(missing_docs, unsafe_code)]

mod error;
pub mod gitignore;
mod line;
mod matched;
mod reachability;

pub use crate::{error::Error, matched::Match, reachability::Reachability};

/// The examples of `README.md`.
#[cfg(doctest)]
#[doc = include_str!("../README.md")]
struct Readme;
