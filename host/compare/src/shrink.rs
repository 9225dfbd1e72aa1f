//! Making a job smaller while it keeps a property. Records are taken out with all that speaks of
//! them, and what is left is numbered anew.

use std::ops::Range;

use job::{
    answer::Request,
    catalogue::Goal,
    listing::Origin,
    record::{NO_CONDITION, ROOT, Record, job_of},
    text::Variables,
};
use oracle::Rust;

use crate::generate::damaged::records_of;

/// The smallest request found that still `differs`.
pub fn smallest(request: Request, differs: &mut dyn FnMut(&Request) -> bool) -> Request {
    let mut best = request;
    let kitlist = Request::kitlist(best.job.clone());
    if differs(&kitlist) {
        best = kitlist;
    }
    while let Some(smaller) = first_that(&best, differs, smaller_jobs(&best.job)) {
        best = smaller;
    }
    best
}

fn first_that(
    request: &Request,
    differs: &mut dyn FnMut(&Request) -> bool,
    jobs: impl Iterator<Item = Vec<u8>>,
) -> Option<Request> {
    let with_job = |job| Request { job, ..request.clone() };
    jobs.map(with_job).find(|smaller| differs(smaller))
}

/// Jobs that are smaller in some respect, the smallest first.
fn smaller_jobs(job: &[u8]) -> impl Iterator<Item = Vec<u8>> + use<> {
    let records = records_of(job);
    let tail = job[job_of(records.iter().copied()).len()..].to_vec();
    let shorter_tails: Vec<Vec<u8>> =
        (0..tail.len()).map(|length| with_tail(&records, &tail[..length])).collect();
    let (kept, kept_tail) = (records.clone(), tail.clone());
    let fewer = spans(records.len()).map(move |span| with_tail(&without(&kept, &span), &kept_tail));
    let simpler = (0..records.len()).flat_map(move |at| {
        let (records, tail) = (records.clone(), tail.clone());
        simpler(records[at]).into_iter().map(move |record| {
            let mut changed = records.clone();
            changed[at] = record;
            with_tail(&changed, &tail)
        })
    });
    shorter_tails.into_iter().chain(fewer).chain(simpler)
}

fn with_tail(records: &[Record], tail: &[u8]) -> Vec<u8> {
    [job_of(records.iter().copied()), tail.to_vec()].concat()
}

/// Spans of records to take out: long ones first, later ones first.
fn spans(records: usize) -> impl Iterator<Item = Range<usize>> {
    let lengths = std::iter::successors(Some(records), |length| Some(length / 2));
    lengths.take_while(|&length| length > 0).flat_map(move |length| {
        (0..=records - length).rev().step_by(length).map(move |start| start..start + length)
    })
}

/// Records with less in them, or with lower numbers.
fn simpler(record: Record) -> Vec<Record> {
    match record {
        Record::Name { flags } => fewer_bits(flags).map(|flags| Record::Name { flags }).collect(),
        Record::Part { name, flags, unknown_reason, exclusion_reason } => {
            let part = |name, flags, unknown_reason, exclusion_reason| Record::Part {
                name,
                flags,
                unknown_reason,
                exclusion_reason,
            };
            lower(name)
                .map(|name| part(name, flags, unknown_reason, exclusion_reason))
                .chain(fewer_bits(flags).map(|f| part(name, f, unknown_reason, exclusion_reason)))
                .chain(lower(unknown_reason).map(|r| part(name, flags, r, exclusion_reason)))
                .chain(lower(exclusion_reason).map(|r| part(name, flags, unknown_reason, r)))
                .collect()
        }
        Record::Range { name } => lower(name).map(|name| Record::Range { name }).collect(),
        Record::Leaf { range } => lower(range).map(|range| Record::Leaf { range }).collect(),
        Record::UnionMember { union, range } => {
            lower(range).map(|range| Record::UnionMember { union, range }).collect()
        }
        Record::Requirement { owner, form, number, condition } => {
            let requirement =
                |owner, number, condition| Record::Requirement { owner, form, number, condition };
            lower_or_none(condition)
                .map(|condition| requirement(owner, number, condition))
                .chain(lower_or_none(owner).map(|owner| requirement(owner, number, condition)))
                .chain(lower(number).map(|number| requirement(owner, number, condition)))
                .collect()
        }
        Record::Constraint { owner, range } => lower_or_none(owner)
            .map(|owner| Record::Constraint { owner, range })
            .chain(lower(range).map(|range| Record::Constraint { owner, range }))
            .collect(),
        Record::Run { level } => lower(level).map(|level| Record::Run { level }).collect(),
        Record::Undo { level } => lower(level).map(|level| Record::Undo { level }).collect(),
        Record::Decide { variable, value, level } => {
            lower(level).map(|level| Record::Decide { variable, value, level }).collect()
        }
        _ => Vec::new(),
    }
}

fn fewer_bits(flags: u8) -> impl Iterator<Item = u8> {
    (0..8).map(|bit| 1 << bit).filter(move |bit| flags & bit != 0).map(move |bit| flags - bit)
}

/// 0 and the number before, below `number`.
fn lower(number: u16) -> impl Iterator<Item = u16> {
    let before = number.checked_sub(1);
    (number > 1).then_some(0).into_iter().chain(before)
}

/// As [`lower`], for owners and conditions: none of them (the root) comes before 0.
fn lower_or_none(number: u16) -> impl Iterator<Item = u16> {
    const { assert!(ROOT == NO_CONDITION) };
    let some = (number != ROOT).then_some(number);
    some.into_iter().flat_map(|number| std::iter::once(ROOT).chain(lower(number)))
}

/// The records without those of the span and those that speak of them.
fn without(records: &[Record], span: &Range<usize>) -> Vec<Record> {
    let old_origins = Rust.origins(&job_of(up_to_last_run(records).iter().copied()));
    let mut kept: Vec<Record> = Vec::new();
    let mut numbers = Numbers::default();
    for (at, &record) in records.iter().enumerate() {
        let renumbered = match record {
            Record::Decide { variable, value, level } => numbers
                .variable(variable, &old_origins, &kept)
                .map(|variable| Record::Decide { variable, value, level }),
            _ => numbers.renumbered(record),
        };
        let staying = renumbered.filter(|_| !span.contains(&at));
        numbers.note(record, staying.is_some());
        kept.extend(staying);
    }
    kept
}

fn up_to_last_run(records: &[Record]) -> &[Record] {
    let last = records.iter().rposition(|record| matches!(record, Record::Run { .. }));
    &records[..last.map_or(0, |at| at + 1)]
}

/// The new numbers of things of a kind, by their old ones; `None` for what is gone.
#[derive(Default)]
struct Renumbering {
    new: Vec<Option<u16>>,
    staying: u16,
}

impl Renumbering {
    fn note(&mut self, stays: bool) {
        self.new.push(stays.then_some(self.staying));
        self.staying += u16::from(stays);
    }

    /// A number that names nothing stays as it is.
    fn of(&self, old: u16) -> Option<u16> {
        self.new.get(usize::from(old)).copied().unwrap_or(Some(old))
    }
}

#[derive(Default)]
struct Numbers {
    names: Renumbering,
    parts: Renumbering,
    ranges: Renumbering,
    unions: Renumbering,
    conditions: Renumbering,
}

impl Numbers {
    fn note(&mut self, record: Record, stays: bool) {
        match record {
            Record::Name { .. } => self.names.note(stays),
            Record::Part { .. } => self.parts.note(stays),
            Record::Range { .. } => self.ranges.note(stays),
            Record::Union => self.unions.note(stays),
            Record::Leaf { .. } | Record::Joined { .. } => self.conditions.note(stays),
            _ => {}
        }
    }

    /// The record with its new numbers; `None` if it speaks of what is gone.
    fn renumbered(&self, record: Record) -> Option<Record> {
        Some(match record {
            Record::Part { name, flags, unknown_reason, exclusion_reason } => {
                let name = self.names.of(name)?;
                Record::Part { name, flags, unknown_reason, exclusion_reason }
            }
            Record::Range { name } => Record::Range { name: self.names.of(name)? },
            Record::Member { range, part } => {
                Record::Member { range: self.ranges.of(range)?, part: self.parts.of(part)? }
            }
            Record::UnionMember { union, range } => {
                Record::UnionMember { union: self.unions.of(union)?, range: self.ranges.of(range)? }
            }
            Record::Leaf { range } => Record::Leaf { range: self.ranges.of(range)? },
            Record::Joined { operator, left, right } => Record::Joined {
                operator,
                left: self.conditions.of(left)?,
                right: self.conditions.of(right)?,
            },
            Record::Requirement { owner, form, number, condition } => Record::Requirement {
                owner: self.owner(owner)?,
                form,
                number: if form == 1 { self.unions.of(number)? } else { self.ranges.of(number)? },
                condition: self.condition(condition)?,
            },
            Record::Constraint { owner, range } => {
                Record::Constraint { owner: self.owner(owner)?, range: self.ranges.of(range)? }
            }
            Record::Add { owner } => Record::Add { owner: self.owner(owner)? },
            Record::Draw { condition } => Record::Draw { condition: self.condition(condition)? },
            _ => record,
        })
    }

    fn owner(&self, owner: u16) -> Option<u16> {
        if owner == ROOT { Some(ROOT) } else { self.parts.of(owner) }
    }

    fn condition(&self, condition: u16) -> Option<u16> {
        if condition == NO_CONDITION { Some(NO_CONDITION) } else { self.conditions.of(condition) }
    }

    fn origin(&self, origin: Origin) -> Option<Origin> {
        Some(match origin {
            Origin::Root => Origin::Root,
            Origin::Part(part) => Origin::Part(self.parts.of(part)?),
            Origin::Forbid(name) => Origin::Forbid(self.names.of(name)?),
            Origin::One(name) => Origin::One(self.names.of(name)?),
            Origin::Violation(range) => Origin::Violation(self.ranges.of(range)?),
            Origin::Gate(Goal::Range(range)) => Origin::Gate(Goal::Range(self.ranges.of(range)?)),
            Origin::Gate(Goal::Union(union)) => Origin::Gate(Goal::Union(self.unions.of(union)?)),
        })
    }

    /// The variable that has the same origin in the records kept; a variable that was none stays.
    fn variable(&self, old: u16, old_origins: &[Origin], kept: &[Record]) -> Option<u16> {
        let Some(&old_origin) = old_origins.get(usize::from(old)) else {
            return Some(old);
        };
        let same = |origins: &[Origin]| origins.iter().filter(|&&o| o == old_origin).count();
        let earlier = same(&old_origins[..usize::from(old)]);
        let origin = self.origin(old_origin)?;
        let origins = Rust.origins(&job_of(up_to_last_run(kept).iter().copied()));
        let mut of_origin = origins.iter().enumerate().filter(|(_, other)| **other == origin);
        of_origin.nth(earlier).map(|(variable, _)| variable as u16)
    }
}
