//! Judges shader modules by the rules of naga 30.0.1's validator, with a validator whose answers are proved.
//!
//! A module comes as a JSON document: settings, the module, and the facts that a type checker found of it. [`judge`]
//! answers its [`Verdict`], and [`explain`] the same for people. Both may be called by any number of threads at once,
//! and keep nothing between two calls.
//!
//! ```
//! use leafnurd::{Status, Verdict, judge};
//!
//! let verdict = judge("{}");
//! assert_eq!(verdict.status(), Status::Unreadable);
//! if let Verdict::Unreadable { pointer, expected, .. } = &verdict {
//!     assert_eq!(pointer, "");
//!     assert_eq!(expected, "the field \"flags\"");
//! }
//! ```
//!
//! What is proved of a verdict stands in the contract of `leafnurd_judge`: it is the verdict of this very text, or
//! there was no memory. This crate's own code, which reads the fields of a verdict from its JSON, is ordinary Rust.

#[cfg(feature = "heap")]
mod heap;
mod json;
mod raw;
mod verdict;

pub use verdict::{Part, Status, Verdict};

/// Judges a document.
///
/// Any text will do: one that is no document is [`Verdict::Unreadable`].
#[must_use]
pub fn judge(document: &str) -> Verdict {
    judge_bytes(document.as_bytes())
}

/// Judges a document that may not be UTF-8, as one that was read from a file. What isn't UTF-8 is
/// [`Verdict::Unreadable`].
#[must_use]
pub fn judge_bytes(document: &[u8]) -> Verdict {
    let (status, json) = raw::written(raw::leafnurd_judge, document);
    Verdict::read(status, json)
}

/// Judges a document and says the verdict for people: what the program `naga_judge` prints, without the end of the
/// last line.
#[must_use]
pub fn explain(document: &str) -> String {
    raw::written(raw::leafnurd_explain, document.as_bytes()).1
}

/// The version of the library that is linked, which need not be that of this crate.
#[must_use]
pub fn version() -> String {
    raw::version()
}

#[cfg(doctest)]
#[doc = include_str!("../README.md")]
struct Readme;
