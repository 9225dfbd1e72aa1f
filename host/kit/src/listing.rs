//! The listing of a job.

use std::fmt;

use job::listing::{
    Assertion, Clause, Conflict, Decision, Line, OpenedName, OpenedOwner, Variable, Waiting, lines,
    values,
};

/// The listing of a job: its text, and its lines as values. They are read from the text as they are
/// asked for; a clause's literals and an entry's ranges too.
///
/// ```
/// use kit::{Kit, Limits, Line};
///
/// let listing = Kit::new().run(&[], &Limits::KITLIST)?;
/// assert_eq!(listing.clause_count(), 1);
/// for line in listing.lines() {
///     match line {
///         Line::Variable(variable) => assert_eq!(variable.number, 0),
///         Line::Clause(clause) => assert!(clause.literals.eq(["+0".parse().unwrap()])),
///         _ => unreachable!("nothing is run"),
///     }
/// }
/// # Ok::<(), kit::Refusal>(())
/// ```
#[derive(Clone, Debug, PartialEq, Eq)]
pub struct Listing {
    text: String,
    variables: usize,
    clauses: usize,
}

impl Listing {
    pub(crate) fn new(printed: &[u8], variables: usize, clauses: usize) -> Self {
        let text = std::str::from_utf8(printed).expect("a listing is text");
        Listing { text: text.to_string(), variables, clauses }
    }

    /// As `kitlist` prints it.
    pub fn as_str(&self) -> &str {
        &self.text
    }

    /// How many variables there are.
    pub fn variable_count(&self) -> usize {
        self.variables
    }

    /// How many clauses there are.
    pub fn clause_count(&self) -> usize {
        self.clauses
    }

    /// All lines.
    pub fn lines(&self) -> impl Iterator<Item = Line<'_>> {
        lines(&self.text)
    }

    /// The variables, by number.
    pub fn variables(&self) -> impl Iterator<Item = Variable> {
        values(&self.text)
    }

    /// The clauses, by number.
    pub fn clauses(&self) -> impl Iterator<Item = Clause<'_>> {
        values(&self.text)
    }

    /// The opened owners, in order of opening.
    pub fn opened_owners(&self) -> impl Iterator<Item = OpenedOwner> {
        values(&self.text)
    }

    /// The opened names, in order of opening.
    pub fn opened_names(&self) -> impl Iterator<Item = OpenedName> {
        values(&self.text)
    }

    /// The conflicts, by clause.
    pub fn conflicts(&self) -> impl Iterator<Item = Conflict> {
        values(&self.text)
    }

    /// The variables that clauses assert false, by clause.
    pub fn assertions(&self) -> impl Iterator<Item = Assertion> {
        values(&self.text)
    }

    /// The decisions, oldest first.
    pub fn decisions(&self) -> impl Iterator<Item = Decision> {
        values(&self.text)
    }

    /// The waiting entries, by condition and within one in order of arrival.
    pub fn waiting(&self) -> impl Iterator<Item = Waiting<'_>> {
        values(&self.text)
    }
}

impl fmt::Display for Listing {
    fn fmt(&self, f: &mut fmt::Formatter<'_>) -> fmt::Result {
        f.write_str(&self.text)
    }
}
