//! Globs and sets of globs, which match paths against patterns such as `src/**/*.{rs,toml}`.
//!
//! This is the crate globset 0.4.21 in names, traits and errors, over a C library. The functions of the library are written in
//! Rattle, Rust with contracts, and proved: for every path, a set returns what its globs return one by one, with one exception
//! that [`GlobSet`] names. This crate and the library's bridge to `malloc` are tested, and not proved. A program that uses
//! globset takes this crate by two lines in its `Cargo.toml`, as `README.md` says.
//!
//! ```
//! use globset::{Glob, GlobSetBuilder};
//!
//! let mut builder = GlobSetBuilder::new();
//! builder.add(Glob::new("*.rs")?);
//! builder.add(Glob::new("src/lib.rs")?);
//! builder.add(Glob::new("src/**/foo.rs")?);
//! let set = builder.build()?;
//! assert_eq!(set.matches("src/bar/baz/foo.rs"), [0, 2]);
//! # Ok::<(), globset::Error>(())
//! ```
//!
//! # What a glob matches
//!
//! A glob matches a whole path. A path is its bytes, and `/` is the one separator.
//!
//! | In a glob | Matches |
//! |---|---|
//! | `?` | any one byte |
//! | `*` | any bytes, or none; also `/` |
//! | `**/` at the start | any directories, or none |
//! | `/**` at the end | everything in a directory |
//! | `/**/` | a `/`, and any directories after it |
//! | `**` alone | every path |
//! | `{a,b}` | `a` or `b`, which are globs; braces nest |
//! | `[ab]`, `[a-z]` | one byte of the class |
//! | `[!ab]`, `[^ab]` | one byte that is not in the class |
//! | `\` | the character after it |
//!
//! [`GlobBuilder`] has options that change this: whether letters match in both cases, whether `?` and `*` match `/`, and more.
//! To match a special character as it is, put it into brackets, as [`escape`] does.
//!
//! # How it differs
//!
//! Results are those of globset, except where globset has a fault. In a set, too, `*.` and other globs that end in `.` match a
//! path that ends in `..`. [`GlobSet::matches_all`] is true exactly if all globs match. An escaped `,` or `{` in braces is
//! never lost. With [`GlobBuilder::allow_unclosed_class`] no range in an unclosed class is an error. No glob, no nesting and no
//! set is too large: there is no regular expression engine whose limits could be passed, so [`ErrorKind::Regex`] never occurs.
//! The features `log`, `simd-accel` and `arbitrary` are accepted and do nothing. The crate is for Linux on x86-64.
//!
//! # Memory and threads
//!
//! Globs, matchers and sets can be sent to other threads and shared between them. A clone is one more reference.
//!
//! **Running out of memory ends the program, as it does in Rust's own containers.** Memory for matching is kept from call to
//! call: a [`GlobSet`] keeps some for each thread. A matcher that needs an automaton keeps up to 16 MiB of rows for all
//! threads, until its last clone is dropped. An [`ext::Searcher`] allocates nothing for a single path.
//!
//! # Additions
//!
//! [`GlobBuilder::whole_character`] is an option that globset does not have. The modules [`ext`], [`relations`] and [`ignore`]
//! have the other additions: searchers; questions about all paths, such as whether two globs match some path in common; and ignore
//! files, by the rules of git.

#![deny(missing_docs, unsafe_code, unsafe_op_in_unsafe_fn, clippy::undocumented_unsafe_blocks)]

#[cfg(not(all(target_os = "linux", target_arch = "x86_64", target_pointer_width = "64")))]
compile_error!("globset: the C library under this crate is for Linux on x86-64");

mod candidate;
mod error;
pub mod ext;
#[allow(unsafe_code)]
mod ffi;
mod glob;
pub mod ignore;
mod per_thread;
pub mod relations;
mod set;
#[cfg(feature = "serde1")]
mod with_serde;

pub use crate::{
    candidate::Candidate,
    error::{Error, ErrorKind},
    glob::{Glob, GlobBuilder, GlobMatcher},
    set::{GlobSet, GlobSetBuilder},
};

/// The text with each of `?`, `*`, `[`, `]`, `{` and `}` in brackets: under the default options, a glob that matches this text
/// alone, if the text has no `\`.
///
/// # Examples
///
/// ```
/// use globset::{escape, Glob};
///
/// assert_eq!(escape("what?.txt"), "what[?].txt");
/// assert!(Glob::new(&escape("{a}"))?.compile_matcher().is_match("{a}"));
/// # Ok::<(), globset::Error>(())
/// ```
pub fn escape(s: &str) -> String {
    ffi::escape(s)
}

/// The examples of `README.md`.
#[cfg(doctest)]
#[doc = include_str!("../README.md")]
struct Readme;
