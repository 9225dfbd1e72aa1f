//! The lines of a listing as values, read as they are asked for. Each prints as its line, without the
//! line feed.
//!
//! ```
//! use job::listing::{Clause, Literal, Word, values};
//!
//! let listing = "v 0 root\nc 0 install +0\n";
//! let clause: Clause = values(listing).next().unwrap();
//! assert_eq!(clause.word, Word::Install);
//! assert!(clause.literals.clone().eq([Literal { variable: 0, positive: true }]));
//! assert_eq!(clause.to_string(), "c 0 install +0");
//! ```

mod print;
mod read;

pub use read::{Fields, OfLine, lines, origins, values};

use crate::catalogue::{Goal, Owner};

/// What a variable stands for.
#[derive(Clone, Copy, Debug, PartialEq, Eq, Hash)]
pub enum Origin {
    Root,
    /// A part.
    Part(u16),
    /// A helper of a name.
    Forbid(u16),
    /// One of a name's tracked parts.
    One(u16),
    /// A part outside a range.
    Violation(u16),
    /// A goal with four candidates or more, for all its owners but the root.
    Gate(Goal),
}

/// `v`: a variable.
#[derive(Clone, Copy, Debug, PartialEq, Eq)]
pub struct Variable {
    pub number: u16,
    pub origin: Origin,
}

/// The word of a clause.
#[derive(Clone, Copy, Debug, PartialEq, Eq, Hash)]
pub enum Word {
    Install,
    Requires,
    Excluded { reason: u16 },
    Constrains,
    Forbid,
    AuxOut,
    AuxOwner,
    Lock,
    Any,
}

/// A signed variable.
#[derive(Clone, Copy, Debug, PartialEq, Eq, Hash)]
pub struct Literal {
    pub variable: u16,
    pub positive: bool,
}

/// `c`: a clause.
#[derive(Clone, Debug, PartialEq, Eq)]
pub struct Clause<'a> {
    pub number: u16,
    pub word: Word,
    pub literals: Fields<'a, Literal>,
}

/// `o`: an opened owner.
#[derive(Clone, Copy, Debug, PartialEq, Eq)]
pub struct OpenedOwner(pub Owner);

/// `p`: an opened name.
#[derive(Clone, Copy, Debug, PartialEq, Eq)]
pub struct OpenedName(pub u16);

/// `x`: a clause that conflicts, and the run that made it, counted from 1.
#[derive(Clone, Copy, Debug, PartialEq, Eq)]
pub struct Conflict {
    pub run: u16,
    pub clause: u16,
}

/// `n`: a variable that a clause asserts false.
#[derive(Clone, Copy, Debug, PartialEq, Eq)]
pub struct Assertion {
    pub variable: u16,
    pub clause: u16,
}

/// `d`: a decision; without a clause it is the sheet's.
#[derive(Clone, Copy, Debug, PartialEq, Eq)]
pub struct Decision {
    pub variable: u16,
    pub value: bool,
    pub level: u16,
    pub clause: Option<u16>,
}

/// `w`: a disjunct that waits for its ranges to hold.
#[derive(Clone, Debug, PartialEq, Eq)]
pub struct Waiting<'a> {
    pub condition: u16,
    pub owner: Owner,
    pub goal: Goal,
    pub ranges: Fields<'a, u16>,
}

/// Any line.
#[derive(Clone, Debug, PartialEq, Eq)]
pub enum Line<'a> {
    Variable(Variable),
    Clause(Clause<'a>),
    OpenedOwner(OpenedOwner),
    OpenedName(OpenedName),
    Conflict(Conflict),
    Assertion(Assertion),
    Decision(Decision),
    Waiting(Waiting<'a>),
}
