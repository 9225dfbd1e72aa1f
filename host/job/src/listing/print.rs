//! Values to text.

use std::fmt::{self, Display, Formatter};

use super::{
    Assertion, Clause, Conflict, Decision, Line, Literal, OpenedName, OpenedOwner, Origin,
    Variable, Waiting, Word,
};
use crate::catalogue::{Goal, Owner};

impl Display for Origin {
    fn fmt(&self, f: &mut Formatter<'_>) -> fmt::Result {
        match self {
            Origin::Root => write!(f, "root"),
            Origin::Part(part) => write!(f, "part {part}"),
            Origin::Forbid(name) => write!(f, "forbid {name}"),
            Origin::One(name) => write!(f, "one {name}"),
            Origin::Violation(range) => write!(f, "violation {range}"),
            Origin::Gate(goal) => write!(f, "gate {goal}"),
        }
    }
}

impl Display for Word {
    fn fmt(&self, f: &mut Formatter<'_>) -> fmt::Result {
        f.write_str(match self {
            Word::Install => "install",
            Word::Requires => "requires",
            Word::Excluded { reason } => return write!(f, "excluded {reason}"),
            Word::Constrains => "constrains",
            Word::Forbid => "forbid",
            Word::AuxOut => "aux-out",
            Word::AuxOwner => "aux-owner",
            Word::Lock => "lock",
            Word::Any => "any",
        })
    }
}

impl Display for Literal {
    fn fmt(&self, f: &mut Formatter<'_>) -> fmt::Result {
        let sign = if self.positive { '+' } else { '-' };
        write!(f, "{sign}{}", self.variable)
    }
}

impl Display for Variable {
    fn fmt(&self, f: &mut Formatter<'_>) -> fmt::Result {
        write!(f, "v {} {}", self.number, self.origin)
    }
}

impl Display for Clause<'_> {
    fn fmt(&self, f: &mut Formatter<'_>) -> fmt::Result {
        write!(f, "c {} {}", self.number, self.word)?;
        self.literals.clone().try_for_each(|literal| write!(f, " {literal}"))
    }
}

impl Display for OpenedOwner {
    fn fmt(&self, f: &mut Formatter<'_>) -> fmt::Result {
        write!(f, "o {}", OwnerField(self.0))
    }
}

impl Display for OpenedName {
    fn fmt(&self, f: &mut Formatter<'_>) -> fmt::Result {
        write!(f, "p {}", self.0)
    }
}

impl Display for Conflict {
    fn fmt(&self, f: &mut Formatter<'_>) -> fmt::Result {
        write!(f, "x {} {}", self.run, self.clause)
    }
}

impl Display for Assertion {
    fn fmt(&self, f: &mut Formatter<'_>) -> fmt::Result {
        write!(f, "n {} {}", self.variable, self.clause)
    }
}

impl Display for Decision {
    fn fmt(&self, f: &mut Formatter<'_>) -> fmt::Result {
        write!(f, "d {} {} {} ", self.variable, u8::from(self.value), self.level)?;
        match self.clause {
            Some(clause) => write!(f, "{clause}"),
            None => write!(f, "-"),
        }
    }
}

impl Display for Waiting<'_> {
    fn fmt(&self, f: &mut Formatter<'_>) -> fmt::Result {
        write!(f, "w {} {} {}", self.condition, OwnerField(self.owner), self.goal)?;
        self.ranges.clone().try_for_each(|range| write!(f, " {range}"))
    }
}

impl Display for Line<'_> {
    fn fmt(&self, f: &mut Formatter<'_>) -> fmt::Result {
        match self {
            Line::Variable(line) => line.fmt(f),
            Line::Clause(line) => line.fmt(f),
            Line::OpenedOwner(line) => line.fmt(f),
            Line::OpenedName(line) => line.fmt(f),
            Line::Conflict(line) => line.fmt(f),
            Line::Assertion(line) => line.fmt(f),
            Line::Decision(line) => line.fmt(f),
            Line::Waiting(line) => line.fmt(f),
        }
    }
}

impl Display for Goal {
    fn fmt(&self, f: &mut Formatter<'_>) -> fmt::Result {
        match self {
            Goal::Range(range) => write!(f, "range {range}"),
            Goal::Union(union) => write!(f, "union {union}"),
        }
    }
}

struct OwnerField(Owner);

impl Display for OwnerField {
    fn fmt(&self, f: &mut Formatter<'_>) -> fmt::Result {
        match self.0 {
            Some(part) => write!(f, "{part}"),
            None => write!(f, "root"),
        }
    }
}
