//! Text to bytes.

use std::{collections::HashMap, fmt};

use super::{Known, RESERVED, Variables};
use crate::{
    catalogue::{EXCLUDED, FAVOURED, Goal, LOCKED, READY, UNKNOWN},
    listing::Origin,
    record::{NO_CONDITION, ROOT, Record},
};

/// What is wrong, and in which line (from 1).
#[derive(Debug, PartialEq, Eq)]
pub struct Error {
    pub line: usize,
    pub message: String,
}

impl fmt::Display for Error {
    fn fmt(&self, f: &mut fmt::Formatter<'_>) -> fmt::Result {
        write!(f, "line {}: {}", self.line, self.message)
    }
}

/// The job of a text.
pub fn read(text: &str, variables: &mut dyn Variables) -> Result<Vec<u8>, Error> {
    let mut reader = Reader {
        job: Vec::new(),
        last_run: 0,
        names: Things::new("name"),
        parts: Things::new("part"),
        goals: HashMap::new(),
        ranges: 0,
        unions: 0,
        conditions: Things::new("condition"),
        known: Known::new(variables),
    };
    for (index, line) in text.lines().enumerate() {
        let mut words = Words::new(line);
        reader
            .line(&mut words)
            .and_then(|()| words.end())
            .map_err(|message| Error { line: index + 1, message })?;
    }
    Ok(reader.job)
}

type Read<T> = Result<T, String>;

/// The words of a line, up to a comment.
struct Words<'a> {
    words: Vec<&'a str>,
    at: usize,
}

impl<'a> Words<'a> {
    fn new(line: &'a str) -> Self {
        let before_comment = line.split("//").next().unwrap_or("");
        Words { words: before_comment.split_whitespace().collect(), at: 0 }
    }

    fn next(&mut self) -> Option<&'a str> {
        let word = self.words.get(self.at).copied();
        self.at += 1;
        word
    }

    /// The next word; `what` says what it should be.
    fn word(&mut self, what: &str) -> Read<&'a str> {
        self.next().ok_or_else(|| format!("{what} is missing"))
    }

    fn number(&mut self, what: &str) -> Read<u16> {
        number(self.word(what)?, what)
    }

    /// Takes the word if it stands next.
    fn took(&mut self, word: &str) -> bool {
        let stands = self.words.get(self.at) == Some(&word);
        self.at += usize::from(stands);
        stands
    }

    fn expect(&mut self, word: &str) -> Read<()> {
        if self.took(word) { Ok(()) } else { Err(format!("\"{word}\" is missing")) }
    }

    /// The next word as a number, if it is one.
    fn took_number(&mut self) -> Option<u16> {
        let found = self.words.get(self.at)?.parse().ok()?;
        self.at += 1;
        Some(found)
    }

    fn end(&mut self) -> Read<()> {
        match self.next() {
            Some(word) => Err(format!("\"{word}\" is too much")),
            None => Ok(()),
        }
    }
}

fn number(word: &str, what: &str) -> Read<u16> {
    word.parse().map_err(|_| format!("{what} should be a number up to 65535, not \"{word}\""))
}

/// A thing given by its number, as `#7`.
fn numbered(word: &str) -> Option<Read<u16>> {
    word.strip_prefix('#').map(|digits| number(digits, "what follows #"))
}

/// What things of one kind are called.
struct Things {
    kind: &'static str,
    called: HashMap<String, u16>,
    given: u16,
}

impl Things {
    fn new(kind: &'static str) -> Self {
        Things { kind, called: HashMap::new(), given: 0 }
    }

    fn give(&mut self, word: &str) -> Read<()> {
        fitting(word)?;
        if self.called.insert(word.to_string(), self.given).is_some() {
            return Err(format!("a {} is already called \"{word}\"", self.kind));
        }
        self.given += 1;
        Ok(())
    }

    fn find(&self, word: &str) -> Read<u16> {
        let called = || self.called.get(word).copied();
        let missing = || format!("no {} is called \"{word}\" here", self.kind);
        numbered(word).unwrap_or_else(|| called().ok_or_else(missing))
    }
}

/// Whether a thing can be called this.
fn fitting(word: &str) -> Read<()> {
    if RESERVED.contains(&word) || word.starts_with('#') {
        return Err(format!("nothing can be called \"{word}\""));
    }
    Ok(())
}

struct Reader<'a> {
    job: Vec<u8>,
    /// The job's length behind its last run.
    last_run: usize,
    names: Things,
    parts: Things,
    /// Ranges and unions: a requirement speaks of either.
    goals: HashMap<String, Goal>,
    ranges: u16,
    unions: u16,
    conditions: Things,
    known: Known<'a>,
}

impl Reader<'_> {
    fn line(&mut self, words: &mut Words) -> Read<()> {
        let Some(word) = words.next() else {
            return Ok(());
        };
        let record = match word {
            "name" => self.name(words)?,
            "part" => self.part(words)?,
            "range" => self.range(words)?,
            "member" => self.member(words)?,
            "union" => self.union(words)?,
            "union-member" => self.union_member(words)?,
            "condition" => self.condition(words)?,
            "require" => self.require(words)?,
            "constrain" => self.constrain(words)?,
            "add" => Record::Add { owner: self.owner(words)? },
            "draw" => Record::Draw { condition: self.conditions.find(words.word("a condition")?)? },
            "run" => Record::Run { level: words.number("a level")? },
            "decide" => self.decide(words)?,
            "undo" => Record::Undo { level: words.number("a level")? },
            "bytes" => return self.bytes(words),
            _ => return Err(format!("no record begins with \"{word}\"")),
        };
        self.job.extend(record.to_bytes());
        if let Record::Run { .. } = record {
            self.last_run = self.job.len();
        }
        Ok(())
    }

    fn name(&mut self, words: &mut Words) -> Read<Record> {
        self.names.give(words.word("what the name is called")?)?;
        Ok(Record::Name { flags: u8::from(words.took("several")) })
    }

    fn part(&mut self, words: &mut Words) -> Read<Record> {
        let called = words.word("what the part is called")?;
        words.expect("of")?;
        let name = self.names.find(words.word("a name")?)?;
        let (mut flags, mut unknown_reason, mut exclusion_reason) = (0, 0, 0);
        while let Some(word) = words.next() {
            match word {
                "ready" => flags |= READY,
                "locked" => flags |= LOCKED,
                "favoured" => flags |= FAVOURED,
                "unknown" => {
                    flags |= UNKNOWN;
                    unknown_reason = words.took_number().unwrap_or(0);
                }
                "excluded" => {
                    flags |= EXCLUDED;
                    exclusion_reason = words.took_number().unwrap_or(0);
                }
                "unknown-reason" => unknown_reason = words.number("a reason")?,
                "exclusion-reason" => exclusion_reason = words.number("a reason")?,
                _ => return Err(format!("a part cannot be \"{word}\"")),
            }
        }
        self.parts.give(called)?;
        Ok(Record::Part { name, flags, unknown_reason, exclusion_reason })
    }

    fn range(&mut self, words: &mut Words) -> Read<Record> {
        let called = words.word("what the range is called")?;
        words.expect("of")?;
        let name = self.names.find(words.word("a name")?)?;
        self.give_goal(called, Goal::Range(self.ranges))?;
        self.ranges += 1;
        Ok(Record::Range { name })
    }

    fn member(&mut self, words: &mut Words) -> Read<Record> {
        let part = self.parts.find(words.word("a part")?)?;
        words.expect("of")?;
        let range = self.find_range(words.word("a range")?)?;
        Ok(Record::Member { range, part })
    }

    fn union(&mut self, words: &mut Words) -> Read<Record> {
        self.give_goal(words.word("what the union is called")?, Goal::Union(self.unions))?;
        self.unions += 1;
        Ok(Record::Union)
    }

    fn union_member(&mut self, words: &mut Words) -> Read<Record> {
        let range = self.find_range(words.word("a range")?)?;
        words.expect("of")?;
        let union = self.find_union(words.word("a union")?)?;
        Ok(Record::UnionMember { union, range })
    }

    fn condition(&mut self, words: &mut Words) -> Read<Record> {
        let called = words.word("what the condition is called")?;
        let record = match words.word("\"on\" or \"of\"")? {
            "on" => Record::Leaf { range: self.find_range(words.word("a range")?)? },
            "of" => {
                let left = self.conditions.find(words.word("a condition")?)?;
                let operator = match words.word("\"and\" or \"or\"")? {
                    "and" => 0,
                    "or" => 1,
                    word => return Err(format!("\"{word}\" should be \"and\" or \"or\"")),
                };
                let right = self.conditions.find(words.word("a condition")?)?;
                Record::Joined { operator, left, right }
            }
            word => return Err(format!("\"{word}\" should be \"on\" or \"of\"")),
        };
        self.conditions.give(called)?;
        Ok(record)
    }

    fn require(&mut self, words: &mut Words) -> Read<Record> {
        let (form, number) = match self.goal(words)? {
            Goal::Range(range) => (0, range),
            Goal::Union(union) => (1, union),
        };
        let owner = self.by(words)?;
        let condition = match words.took("if") {
            true => self.conditions.find(words.word("a condition")?)?,
            false => NO_CONDITION,
        };
        Ok(Record::Requirement { owner, form, number, condition })
    }

    fn constrain(&mut self, words: &mut Words) -> Read<Record> {
        let range = self.find_range(words.word("a range")?)?;
        let owner = self.by(words)?;
        Ok(Record::Constraint { owner, range })
    }

    fn by(&mut self, words: &mut Words) -> Read<u16> {
        if words.took("by") { self.owner(words) } else { Ok(ROOT) }
    }

    fn owner(&mut self, words: &mut Words) -> Read<u16> {
        match words.word("a part or \"root\"")? {
            "root" => Ok(ROOT),
            part => self.parts.find(part),
        }
    }

    fn give_goal(&mut self, word: &str, goal: Goal) -> Read<()> {
        fitting(word)?;
        match self.goals.insert(word.to_string(), goal) {
            Some(_) => Err(format!("a range or union is already called \"{word}\"")),
            None => Ok(()),
        }
    }

    fn find_goal(&self, word: &str) -> Read<Goal> {
        let goal = self.goals.get(word).copied();
        goal.ok_or_else(|| format!("no range or union is called \"{word}\" here"))
    }

    fn find_range(&self, word: &str) -> Read<u16> {
        numbered(word).unwrap_or_else(|| match self.find_goal(word)? {
            Goal::Range(range) => Ok(range),
            Goal::Union(_) => Err(format!("\"{word}\" is a union, not a range")),
        })
    }

    fn find_union(&self, word: &str) -> Read<u16> {
        numbered(word).unwrap_or_else(|| match self.find_goal(word)? {
            Goal::Union(union) => Ok(union),
            Goal::Range(_) => Err(format!("\"{word}\" is a range, not a union")),
        })
    }

    /// What a range or union is called, or `range` or `union` and its number.
    fn goal(&mut self, words: &mut Words) -> Read<Goal> {
        match words.word("a range or union")? {
            "range" => Ok(Goal::Range(self.find_range(words.word("a range")?)?)),
            "union" => Ok(Goal::Union(self.find_union(words.word("a union")?)?)),
            word => self.find_goal(word),
        }
    }

    fn decide(&mut self, words: &mut Words) -> Read<Record> {
        let variable = self.variable(words)?;
        let value = match words.word("\"true\" or \"false\"")? {
            "false" => 0,
            "true" => 1,
            word => return Err(format!("\"{word}\" should be \"true\" or \"false\"")),
        };
        words.expect("at")?;
        Ok(Record::Decide { variable, value, level: words.number("a level")? })
    }

    fn variable(&mut self, words: &mut Words) -> Read<u16> {
        let word = words.word("a variable")?;
        let mut earlier = 0;
        let origin = match word {
            "root" => Origin::Root,
            "forbid" => {
                let name = self.names.find(words.word("a name")?)?;
                earlier = words.number("which helper, from 0,")?;
                Origin::Forbid(name)
            }
            "one" => Origin::One(self.names.find(words.word("a name")?)?),
            "violation" => Origin::Violation(self.find_range(words.word("a range")?)?),
            "gate" => Origin::Gate(self.goal(words)?),
            _ => match numbered(word) {
                Some(number) => return number,
                None => Origin::Part(self.parts.find(word)?),
            },
        };
        let origins = self.known.origins(&self.job, self.last_run).iter().enumerate();
        let mut of_origin = origins.filter(|(_, other)| **other == origin);
        let found = of_origin.nth(earlier.into()).map(|(variable, _)| variable as u16);
        found.ok_or_else(|| format!("\"{word}\" has no variable here"))
    }

    fn bytes(&mut self, words: &mut Words) -> Read<()> {
        while let Some(word) = words.next() {
            let bytes = crate::recorded::bytes_of_hex(word);
            self.job.extend(bytes.ok_or_else(|| format!("\"{word}\" is not hexadecimal"))?);
        }
        Ok(())
    }
}
