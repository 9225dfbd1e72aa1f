//! Jobs at every limit and one past it, and jobs that strain one rule.

use job::{
    answer::{Answer, Request, Side},
    limits::{KITLIST_LISTING, Limits},
    reader::{Reader, read_catalogue},
    record::{NO_CONDITION, ROOT, Record, job_of},
};
use oracle::{Rust, sheet::Sheet};

use super::{catalogue::Shape, structured};
use crate::random::Random;

const PLAIN_PART: Record =
    Record::Part { name: 0, flags: 0, unknown_reason: 0, exclusion_reason: 0 };

/// A job with each limit, and the listing area, at what it needs and one below.
pub fn around(random: &mut Random) -> Vec<Request> {
    let job = structured(random, Shape::small());
    let needed = most_counts(&job);
    let at = Request { job, limits: Limits::from_array(needed), listing_area: KITLIST_LISTING };
    let mut requests = vec![at.clone()];
    for limit in 0..needed.len() {
        let mut limits = needed;
        limits[limit] -= 1;
        requests.push(Request { limits: Limits::from_array(limits), ..at.clone() });
    }
    if let Answer::Accepted { listing, .. } = Rust.answer(&at) {
        for listing_area in [listing.len(), listing.len() - 1] {
            requests.push(Request { listing_area, ..at.clone() });
        }
    }
    requests
}

/// Conditions joined until they have about 64 disjuncts or 16 ranges, required by the root.
pub fn joined_conditions(random: &mut Random) -> Request {
    let mut records = vec![Record::Name { flags: 0 }, PLAIN_PART, PLAIN_PART];
    records.push(Record::Range { name: 0 });
    records.extend([Record::Member { range: 0, part: 0 }, Record::Leaf { range: 0 }]);
    let joined = random.between(4, 10) as u16;
    let or_percent = random.pick(&[20, 50, 80]);
    for last in 0..joined {
        let operator = u8::from(random.chance(or_percent));
        let left = last - random.below(usize::from(last.min(1)) + 1) as u16;
        records.push(Record::Joined { operator, left, right: last });
    }
    let owner = ROOT;
    records.push(Record::Requirement { owner, form: 0, number: 0, condition: joined });
    records.extend([Record::Add { owner: 0 }, Record::Add { owner }, Record::Run { level: 1 }]);
    Request { limits: Limits::CEILINGS, ..Request::kitlist(job_of(records)) }
}

/// A union that names its ranges over and over, required by several owners.
pub fn repeated_ranges(random: &mut Random) -> Request {
    let parts = random.between(1, 6) as u16;
    let mut records = vec![Record::Name { flags: 0 }, Record::Range { name: 0 }];
    records.extend([Record::Range { name: 0 }, Record::Union]);
    records.extend((0..parts).map(|_| PLAIN_PART));
    records.extend((0..parts).map(|part| Record::Member { range: part % 2, part }));
    for _ in 0..random.between(2, 60) {
        records.push(Record::UnionMember { union: 0, range: random.below(2) as u16 });
    }
    for _ in 0..random.between(1, 6) {
        let owner = random.pick(&[0, ROOT]);
        let (form, number, condition) = (1, 0, NO_CONDITION);
        records.push(Record::Requirement { owner, form, number, condition });
    }
    records.extend([Record::Add { owner: 0 }, Record::Add { owner: ROOT }]);
    records.push(Record::Run { level: 1 });
    Request::kitlist(job_of(records))
}

/// Jobs whose last run ends at the ceiling of clauses, condition literals or waiting entries, each
/// followed by one that ends one past it. No job has as many variables as their ceiling.
pub fn at_ceilings() -> Vec<Request> {
    [clauses(), condition_literals(), waiting()].into_iter().flat_map(EndOfRun::requests).collect()
}

/// A catalogue that reaches a ceiling, and the rule that passes it.
struct EndOfRun {
    catalogue: Vec<Record>,
    passing: Record,
    before: Vec<Record>,
}

impl EndOfRun {
    fn requests(self) -> [Request; 2] {
        let run = [Record::Add { owner: ROOT }, Record::Run { level: 1 }];
        [&[][..], &[self.passing]].map(|passing| {
            let records = [&self.catalogue, passing, &self.before, &run].concat();
            let (job, limits) = (job_of(records), Limits::CEILINGS);
            Request { job, limits, listing_area: 64 * KITLIST_LISTING }
        })
    }
}

fn required_by_root(condition: u16) -> Record {
    Record::Requirement { owner: ROOT, form: 0, number: 0, condition }
}

/// Condition 0 on range 0, and conditions 1 to 6, each twice the one before: the last has 64
/// disjuncts.
fn doubled_conditions() -> impl Iterator<Item = Record> {
    let joined = (0..6).map(|last| Record::Joined { operator: 1, left: last, right: last });
    std::iter::once(Record::Leaf { range: 0 }).chain(joined)
}

/// A constraint with 1,000 parts outside its range gives 1,001 clauses, with 366 it gives 367, with
/// one, one: with the install clause the first 17 make 16,384.
fn clauses() -> EndOfRun {
    let mut catalogue = vec![Record::Name { flags: 0 }];
    catalogue.extend([PLAIN_PART; 1_000]);
    for (range, outside) in [1_000; 16].into_iter().chain([366, 1]).enumerate() {
        let range = range as u16;
        catalogue.push(Record::Range { name: 0 });
        catalogue.extend((outside..1_000).map(|part| Record::Member { range, part }));
    }
    let constraint = |range| Record::Constraint { owner: ROOT, range };
    catalogue.extend((0..17).map(constraint));
    EndOfRun { catalogue, passing: constraint(17), before: Vec::new() }
}

/// Part 0 is decided true, so that all disjuncts fire: 64 times 64 of two literals, then one of one.
fn condition_literals() -> EndOfRun {
    let mut catalogue = vec![Record::Name { flags: 0 }, PLAIN_PART, PLAIN_PART, PLAIN_PART];
    catalogue.extend([Record::Range { name: 0 }, Record::Range { name: 0 }]);
    let members = [(0, 0), (1, 0), (1, 1)];
    catalogue.extend(members.map(|(range, part)| Record::Member { range, part }));
    catalogue.extend(doubled_conditions());
    catalogue.push(Record::Leaf { range: 1 });
    catalogue.push(Record::Constraint { owner: 0, range: 0 });
    catalogue.extend([required_by_root(6); 64]);
    let decide = Record::Decide { variable: 1, value: 1, level: 1 };
    let before = vec![Record::Add { owner: 0 }, Record::Run { level: 1 }, decide];
    EndOfRun { catalogue, passing: required_by_root(7), before }
}

/// Nothing is decided, so that all disjuncts wait: 32 times 64, then one.
fn waiting() -> EndOfRun {
    let mut catalogue = vec![Record::Name { flags: 0 }, PLAIN_PART, Record::Range { name: 0 }];
    catalogue.extend(doubled_conditions());
    catalogue.extend([required_by_root(6); 32]);
    EndOfRun { catalogue, passing: required_by_root(0), before: Vec::new() }
}

/// The highest counts that the job's runs end with, none below 1.
fn most_counts(job: &[u8]) -> [u32; 4] {
    let mut reader = Reader::new(job);
    let mut most = [1; 4];
    let Ok(catalogue) = read_catalogue(&mut reader) else {
        return most;
    };
    let mut sheet = Sheet::new(catalogue);
    while let Some(Ok(record)) = reader.next_record() {
        if sheet.take(record, Limits::CEILINGS).is_err() {
            break;
        }
        for (most, count) in most.iter_mut().zip(sheet.counts()) {
            *most = (*most).max(count as u32);
        }
    }
    most
}
