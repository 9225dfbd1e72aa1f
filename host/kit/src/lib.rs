//! The proved encoder as a service uses it: a job is checked, or run and its listing read.
//!
//! ```
//! use kit::{Limits, Origin};
//!
//! // A name with two parts, a range of both, required by the root; the root is added and run.
//! let job = [
//!     &[1, 0][..],
//!     &[2, 0, 0, 0, 0, 0, 0, 0],
//!     &[2, 0, 0, 0, 0, 0, 0, 0],
//!     &[3, 0, 0],
//!     &[4, 0, 0, 0, 0],
//!     &[4, 0, 0, 1, 0],
//!     &[9, 255, 255, 0, 0, 0, 255, 255],
//!     &[32, 255, 255],
//!     &[34, 1, 0],
//! ]
//! .concat();
//! let listing = kit::run(&job, &Limits::KITLIST)?;
//! assert!(listing.as_str().starts_with("v 0 root\nv 1 part 0\nv 2 part 1\nv 3 forbid 0\n"));
//!
//! let helpers = listing.variables().filter(|v| matches!(v.origin, Origin::Forbid(_)));
//! assert_eq!(helpers.count(), 1);
//! let required = listing.clauses().nth(1).unwrap();
//! assert_eq!(required.to_string(), "c 1 requires -0 +1 +2");
//! # Ok::<(), kit::Refusal>(())
//! ```
//!
//! A job that is not in order is refused, with a number, a place and a sentence:
//!
//! ```
//! let refusal = kit::check(&[3, 7, 0], &kit::Limits::BRANCH).unwrap_err();
//! assert_eq!((refusal.number, refusal.place), (4, 0));
//! assert_eq!(refusal.sentence(), "a number names nothing given earlier");
//! ```
//!
//! [`check`] and [`run`] keep their work areas for the next call of the same thread; a [`Kit`] keeps
//! its own. [`lent`] has the two exported functions as they are. What they do is proved in
//! `crates/kit`; this crate only lends memory and reads text.

pub mod lent;
mod listing;
mod service;

pub use job::{
    answer::Refusal,
    catalogue::{Goal, Owner},
    limits::Limits,
    listing::{
        Assertion, Clause, Conflict, Decision, Fields, Line, Literal, OpenedName, OpenedOwner,
        Origin, Variable, Waiting, Word,
    },
};

pub use crate::{listing::Listing, service::Kit};

use std::cell::RefCell;

thread_local! {
    static KIT: RefCell<Kit> = RefCell::default();
}

/// Whether the job's catalogue is in order: refusals 1 to 7, up to the first record of the sheet.
///
/// ```
/// assert!(kit::check(&[1, 0, 3, 0, 0], &kit::Limits::KITLIST).is_ok());
/// ```
pub fn check(job: &[u8], limits: &Limits) -> Result<(), Refusal> {
    KIT.with_borrow_mut(|kit| kit.check(job, limits))
}

/// The listing of a job. One of over 16 MiB is refusal 10 at the job's end; a [`Kit`] may have another
/// listing area.
///
/// ```
/// let listing = kit::run(&[], &kit::Limits::KITLIST)?;
/// assert_eq!(listing.as_str(), "v 0 root\nc 0 install +0\n");
/// # Ok::<(), kit::Refusal>(())
/// ```
pub fn run(job: &[u8], limits: &Limits) -> Result<Listing, Refusal> {
    KIT.with_borrow_mut(|kit| kit.run(job, limits))
}
