//! Bytes to text.

use super::{Known, Variables};
use crate::{
    catalogue::{EXCLUDED, FAVOURED, Goal, LOCKED, READY, UNKNOWN},
    listing::Origin,
    reader::Reader,
    record::{NO_CONDITION, ROOT, Record},
    recorded::hex,
};

/// The text of any bytes whatever. From the first record that has no words (it is refused, and what
/// follows is never looked at) the text gives bytes.
pub fn write(job: &[u8], variables: &mut dyn Variables) -> String {
    let mut writer = Writer { known: Known::new(variables), counts: Counts::default() };
    let mut reader = Reader::new(job);
    let mut text = String::new();
    let mut last_run = 0;
    loop {
        let place = reader.place();
        let Some(record) = reader.next_record() else {
            return text;
        };
        let line = record.ok().and_then(|record| writer.line(record, job, last_run));
        let Some(line) = line else {
            return text + &bytes_line(&job[place..]);
        };
        if let Ok(Record::Run { .. }) = record {
            last_run = reader.place();
        }
        text += &line;
        text += "\n";
    }
}

fn bytes_line(bytes: &[u8]) -> String {
    format!("bytes {}\n", hex(bytes))
}

struct Writer<'a> {
    known: Known<'a>,
    counts: Counts,
}

/// How many things of each kind the lines so far have named.
#[derive(Default)]
struct Counts {
    names: u16,
    parts: u16,
    ranges: u16,
    unions: u16,
    conditions: u16,
}

fn reference(letter: char, number: u16, given: u16) -> String {
    if number < given { format!("{letter}{number}") } else { format!("#{number}") }
}

fn next(letter: char, given: &mut u16) -> String {
    *given += 1;
    format!("{letter}{}", *given - 1)
}

impl Writer<'_> {
    /// `None` if there are no words for the record.
    fn line(&mut self, record: Record, job: &[u8], last_run: usize) -> Option<String> {
        self.catalogue_line(record).or_else(|| self.sheet_line(record, job, last_run))
    }

    fn catalogue_line(&mut self, record: Record) -> Option<String> {
        Some(match record {
            Record::Name { flags } => {
                let several = ["", " several"].get(usize::from(flags))?;
                format!("name {}{several}", next('n', &mut self.counts.names))
            }
            Record::Part { name, flags, unknown_reason, exclusion_reason } => {
                let flags = flag_words(flags, unknown_reason, exclusion_reason)?;
                let name = self.name(name);
                format!("part {} of {name}{flags}", next('p', &mut self.counts.parts))
            }
            Record::Range { name } => {
                let name = self.name(name);
                format!("range {} of {name}", next('r', &mut self.counts.ranges))
            }
            Record::Member { range, part } => {
                format!("member {} of {}", self.part(part), self.range(range))
            }
            Record::Union => format!("union {}", next('u', &mut self.counts.unions)),
            Record::UnionMember { union, range } => {
                format!("union-member {} of {}", self.range(range), self.union(union))
            }
            Record::Leaf { range } => {
                let range = self.range(range);
                format!("condition {} on {range}", next('c', &mut self.counts.conditions))
            }
            Record::Joined { operator, left, right } => {
                let operator = ["and", "or"].get(usize::from(operator))?;
                let (left, right) = (self.condition(left), self.condition(right));
                let condition = next('c', &mut self.counts.conditions);
                format!("condition {condition} of {left} {operator} {right}")
            }
            Record::Requirement { owner, form, number, condition } => {
                let goal = self.goal(form, number)?;
                format!("require {goal}{}{}", self.by(owner), self.condition_of(condition))
            }
            Record::Constraint { owner, range } => {
                format!("constrain {}{}", self.range(range), self.by(owner))
            }
            _ => return None,
        })
    }

    fn sheet_line(&mut self, record: Record, job: &[u8], last_run: usize) -> Option<String> {
        Some(match record {
            Record::Add { owner: ROOT } => "add root".to_string(),
            Record::Add { owner } => format!("add {}", self.part(owner)),
            Record::Draw { condition } => format!("draw {}", self.condition(condition)),
            Record::Run { level } => format!("run {level}"),
            Record::Decide { variable, value, level } => {
                let value = ["false", "true"].get(usize::from(value))?;
                let variable = self.variable(variable, job, last_run);
                format!("decide {variable} {value} at {level}")
            }
            Record::Undo { level } => format!("undo {level}"),
            _ => return None,
        })
    }

    fn name(&self, number: u16) -> String {
        reference('n', number, self.counts.names)
    }

    fn part(&self, number: u16) -> String {
        reference('p', number, self.counts.parts)
    }

    fn range(&self, number: u16) -> String {
        reference('r', number, self.counts.ranges)
    }

    fn union(&self, number: u16) -> String {
        reference('u', number, self.counts.unions)
    }

    fn condition(&self, number: u16) -> String {
        reference('c', number, self.counts.conditions)
    }

    fn goal(&self, form: u8, number: u16) -> Option<String> {
        let (word, goal) = match form {
            0 => ("range", self.range(number)),
            1 => ("union", self.union(number)),
            _ => return None,
        };
        Some(if goal.starts_with('#') { format!("{word} {goal}") } else { goal })
    }

    fn by(&self, owner: u16) -> String {
        if owner == ROOT { String::new() } else { format!(" by {}", self.part(owner)) }
    }

    fn condition_of(&self, condition: u16) -> String {
        if condition == NO_CONDITION {
            return String::new();
        }
        format!(" if {}", self.condition(condition))
    }

    fn variable(&mut self, number: u16, job: &[u8], last_run: usize) -> String {
        let words = self.variable_words(number, job, last_run);
        words.filter(|words| !words.contains('#')).unwrap_or_else(|| format!("#{number}"))
    }

    fn variable_words(&mut self, number: u16, job: &[u8], last_run: usize) -> Option<String> {
        let origins = self.known.origins(job, last_run);
        let &origin = origins.get(usize::from(number))?;
        let earlier = &origins[..usize::from(number)];
        Some(match origin {
            Origin::Root => "root".to_string(),
            Origin::Part(part) => self.part(part),
            Origin::Forbid(name) => {
                let index = earlier.iter().filter(|&&other| other == origin).count();
                format!("forbid {} {index}", self.name(name))
            }
            Origin::One(name) => format!("one {}", self.name(name)),
            Origin::Violation(range) => format!("violation {}", self.range(range)),
            Origin::Gate(Goal::Range(range)) => format!("gate {}", self.range(range)),
            Origin::Gate(Goal::Union(union)) => format!("gate {}", self.union(union)),
        })
    }
}

fn flag_words(flags: u8, unknown_reason: u16, exclusion_reason: u16) -> Option<String> {
    if flags > 31 {
        return None;
    }
    let is = |flag: u8| flags & flag != 0;
    let plain = |word: &str, flag: u8| if is(flag) { format!(" {word}") } else { String::new() };
    let reasoned = |word: &str, unused: &str, flag: u8, reason: u16| match (is(flag), reason) {
        (true, 0) => format!(" {word}"),
        (true, _) => format!(" {word} {reason}"),
        (false, 0) => String::new(),
        (false, _) => format!(" {unused} {reason}"),
    };
    Some(
        [
            plain("ready", READY),
            reasoned("unknown", "unknown-reason", UNKNOWN, unknown_reason),
            plain("locked", LOCKED),
            plain("favoured", FAVOURED),
            reasoned("excluded", "exclusion-reason", EXCLUDED, exclusion_reason),
        ]
        .concat(),
    )
}
