//! Text to values.

use std::{marker::PhantomData, str::FromStr};

use super::{
    Assertion, Clause, Conflict, Decision, Line, Literal, OpenedName, OpenedOwner, Origin,
    Variable, Waiting, Word,
};
use crate::catalogue::{Goal, Owner};

/// A kind of line.
pub trait OfLine<'a>: Sized {
    const LETTER: char;

    /// The value of a line of which this is what follows letter and space.
    fn read(fields: &'a str) -> Option<Self>;
}

/// The values of one kind: its lines stand together.
///
/// # Panics
/// The iterator does, at a line that is none of a listing.
pub fn values<'a, T: OfLine<'a>>(listing: &'a str) -> impl Iterator<Item = T> {
    let of_kind = |line: &&str| line.starts_with(T::LETTER);
    let lines = listing.lines().skip_while(move |line| !of_kind(line)).take_while(of_kind);
    lines.map(|line| value(line).unwrap_or_else(|| no_line(line)))
}

/// All lines.
///
/// # Panics
/// The iterator does, at a line that is none of a listing.
pub fn lines(listing: &str) -> impl Iterator<Item = Line<'_>> {
    listing.lines().map(|line| any_value(line).unwrap_or_else(|| no_line(line)))
}

/// The origins by variable.
pub fn origins(listing: &[u8]) -> Vec<Origin> {
    let text = std::str::from_utf8(listing).expect("a listing is text");
    values(text).map(|variable: Variable| variable.origin).collect()
}

fn value<'a, T: OfLine<'a>>(line: &'a str) -> Option<T> {
    T::read(line.strip_prefix(T::LETTER)?.strip_prefix(' ')?)
}

fn any_value(line: &str) -> Option<Line<'_>> {
    match line.chars().next()? {
        Variable::LETTER => value(line).map(Line::Variable),
        Clause::LETTER => value(line).map(Line::Clause),
        OpenedOwner::LETTER => value(line).map(Line::OpenedOwner),
        OpenedName::LETTER => value(line).map(Line::OpenedName),
        Conflict::LETTER => value(line).map(Line::Conflict),
        Assertion::LETTER => value(line).map(Line::Assertion),
        Decision::LETTER => value(line).map(Line::Decision),
        Waiting::LETTER => value(line).map(Line::Waiting),
        _ => None,
    }
}

fn no_line(line: &str) -> ! {
    panic!("{line:?} is no line of a listing")
}

/// The fields that are left of a line; `None` behind the last.
#[derive(Clone, Copy, Debug, PartialEq, Eq)]
struct Rest<'a>(Option<&'a str>);

impl<'a> Rest<'a> {
    fn word(&mut self) -> Option<&'a str> {
        let text = self.0?;
        let (field, rest) =
            text.split_once(' ').map_or((text, None), |(field, rest)| (field, Some(rest)));
        self.0 = rest;
        Some(field)
    }

    fn number(&mut self) -> Option<u16> {
        self.word()?.parse().ok()
    }

    fn owner(&mut self) -> Option<Owner> {
        match self.word()? {
            "root" => Some(None),
            part => part.parse().ok().map(Some),
        }
    }

    fn goal(&mut self) -> Option<Goal> {
        match self.word()? {
            "range" => self.number().map(Goal::Range),
            "union" => self.number().map(Goal::Union),
            _ => None,
        }
    }

    fn values<T>(self) -> Fields<'a, T> {
        Fields { rest: self, kind: PhantomData }
    }
}

/// Fields up to a line's end, read one after another.
#[derive(Clone, Debug, PartialEq, Eq)]
pub struct Fields<'a, T> {
    rest: Rest<'a>,
    kind: PhantomData<T>,
}

impl<T: FromStr> Iterator for Fields<'_, T> {
    type Item = T;

    /// # Panics
    /// At a field that is none of a listing.
    fn next(&mut self) -> Option<T> {
        let field = self.rest.word()?;
        Some(field.parse().unwrap_or_else(|_| panic!("{field:?} is no field of a listing")))
    }
}

impl OfLine<'_> for Variable {
    const LETTER: char = 'v';

    fn read(fields: &str) -> Option<Self> {
        let mut fields = Rest(Some(fields));
        let number = fields.number()?;
        let origin = match fields.word()? {
            "root" => Origin::Root,
            "part" => Origin::Part(fields.number()?),
            "forbid" => Origin::Forbid(fields.number()?),
            "one" => Origin::One(fields.number()?),
            "violation" => Origin::Violation(fields.number()?),
            "gate" => Origin::Gate(fields.goal()?),
            _ => return None,
        };
        Some(Variable { number, origin })
    }
}

impl<'a> OfLine<'a> for Clause<'a> {
    const LETTER: char = 'c';

    fn read(fields: &'a str) -> Option<Self> {
        let mut fields = Rest(Some(fields));
        let number = fields.number()?;
        let word = match fields.word()? {
            "install" => Word::Install,
            "requires" => Word::Requires,
            "excluded" => Word::Excluded { reason: fields.number()? },
            "constrains" => Word::Constrains,
            "forbid" => Word::Forbid,
            "aux-out" => Word::AuxOut,
            "aux-owner" => Word::AuxOwner,
            "lock" => Word::Lock,
            "any" => Word::Any,
            _ => return None,
        };
        Some(Clause { number, word, literals: fields.values() })
    }
}

impl OfLine<'_> for OpenedOwner {
    const LETTER: char = 'o';

    fn read(fields: &str) -> Option<Self> {
        Rest(Some(fields)).owner().map(OpenedOwner)
    }
}

impl OfLine<'_> for OpenedName {
    const LETTER: char = 'p';

    fn read(fields: &str) -> Option<Self> {
        Rest(Some(fields)).number().map(OpenedName)
    }
}

impl OfLine<'_> for Conflict {
    const LETTER: char = 'x';

    fn read(fields: &str) -> Option<Self> {
        let mut fields = Rest(Some(fields));
        Some(Conflict { run: fields.number()?, clause: fields.number()? })
    }
}

impl OfLine<'_> for Assertion {
    const LETTER: char = 'n';

    fn read(fields: &str) -> Option<Self> {
        let mut fields = Rest(Some(fields));
        Some(Assertion { variable: fields.number()?, clause: fields.number()? })
    }
}

impl OfLine<'_> for Decision {
    const LETTER: char = 'd';

    fn read(fields: &str) -> Option<Self> {
        let mut fields = Rest(Some(fields));
        let variable = fields.number()?;
        let value = fields.word()? == "1";
        let level = fields.number()?;
        let clause = match fields.word()? {
            "-" => None,
            number => Some(number.parse().ok()?),
        };
        Some(Decision { variable, value, level, clause })
    }
}

impl<'a> OfLine<'a> for Waiting<'a> {
    const LETTER: char = 'w';

    fn read(fields: &'a str) -> Option<Self> {
        let mut fields = Rest(Some(fields));
        let (condition, owner, goal) = (fields.number()?, fields.owner()?, fields.goal()?);
        Some(Waiting { condition, owner, goal, ranges: fields.values() })
    }
}

impl FromStr for Literal {
    type Err = ();

    fn from_str(field: &str) -> Result<Self, ()> {
        let (positive, variable) = match field.split_at_checked(1) {
            Some(("+", variable)) => (true, variable),
            Some(("-", variable)) => (false, variable),
            _ => return Err(()),
        };
        Ok(Literal { variable: variable.parse().map_err(drop)?, positive })
    }
}
