//! Jobs of the bench changed at random, record by record: to look for slow ones, where a change stays
//! if the job takes longer with it, for those on which we are behind the Rust, where it stays if we take
//! longer beside it, and to compare long sheets with the Rust.

use std::{ops::Range, time::Duration};

use compare::random::Random;
use job::{
    answer::{Request, Side as _},
    limits::JOB_CEILING,
    record::body_length,
};
use kit::{Kit, Limits};
use oracle::Rust;

use crate::{jobs, measure::timed};

/// The first kind of a sheet record.
const SHEET: u8 = 32;
/// The kind of a union.
const UNION: u8 = 5;
/// A job that takes less is not timed again.
const SHORT: Duration = Duration::from_micros(200);
/// A job that takes the Rust less says little of the job itself: clearing the areas takes a tenth of it.
const TOLD: Duration = Duration::from_micros(100);
/// One that takes it longer is passed over,
const PATIENCE: Duration = Duration::from_millis(20);

/// Jobs of long sheets that the Rust carries out in milliseconds.
const LONG_SHEETS: [&str; 7] = [
    "draws of watched parts",
    "draws of a deep condition",
    "decisions",
    "a draw a decision",
    "eight draws a decision",
    "draws after decisions",
    "small runs",
];

/// A job that seems heavier is timed so many times again, and its least weight counts: among many noisy
/// times some are far off.
const AGAIN: usize = 4;

/// The records of a job, each with its kind first.
pub type Records = Vec<Vec<u8>>;

/// So many jobs, each one of long sheets with up to four changes.
pub fn changed(seed: u64, count: usize) -> impl Iterator<Item = Request> {
    let all = jobs::all().into_iter().filter(|job| LONG_SHEETS.contains(&job.name.as_str()));
    let sheets: Vec<Records> = all.map(|job| records_of(&job.request.job)).collect();
    (0..count).map(move |at| {
        let mut random = Random::new(seed, at as u64);
        let mut records = sheets[at % sheets.len()].clone();
        (0..random.between(1, 4)).for_each(|_| change(&mut records, &mut random));
        Request { job: records.concat(), limits: Limits::CEILINGS, listing_area: 1 << 20 }
    })
}

/// What is looked for.
#[derive(Clone, Copy, Debug, PartialEq, Eq)]
pub enum Sought {
    /// A job that takes long.
    Slow,
    /// A job that takes long beside the Rust.
    Behind,
}

/// A job that was found, and the job of the bench that it comes of: how long it takes in nanoseconds, or
/// how many times as long as the Rust.
pub struct Found {
    pub name: String,
    pub records: Records,
    pub weight: f64,
}

pub struct Search {
    sought: Sought,
    kit: Kit,
    random: Random,
    /// The heaviest first.
    pub found: Vec<Found>,
}

impl Search {
    /// From the jobs of the bench; beside the Rust only from those without unions, which can take it
    /// minutes.
    pub fn new(sought: Sought, seed: u64) -> Self {
        let mut search = Search {
            sought,
            kit: Kit::with_listing_area(jobs::LISTING),
            random: Random::new(seed, 0),
            found: Vec::new(),
        };
        for job in jobs::all() {
            let records = records_of(&job.request.job);
            if sought == Sought::Slow || records.iter().all(|record| record[0] != UNION) {
                let weight = search.weight(&records);
                search.found.push(Found { name: job.name, records, weight });
            }
        }
        search.sort();
        search
    }

    /// One job is changed; a heavy one rather than a light one.
    pub fn step(&mut self) {
        let count = self.found.len();
        let at = self.random.below(count).min(self.random.below(count));
        let mut records = self.found[at].records.clone();
        for _ in 0..self.random.between(1, 3) {
            change(&mut records, &mut self.random);
        }
        let before = self.found[at].weight * 1.01;
        let mut weight = self.weight(&records);
        for _ in 0..AGAIN {
            if weight > before {
                weight = weight.min(self.weight(&records));
            }
        }
        if weight > before {
            self.found[at].weight = weight;
            self.found[at].records = records;
            self.sort();
        }
    }

    fn weight(&mut self, records: &Records) -> f64 {
        let request = Request {
            job: records.concat(),
            limits: Limits::CEILINGS,
            listing_area: jobs::LISTING,
        };
        let ours = best(|| drop(self.kit.run(&request.job, &request.limits)));
        match self.sought {
            Sought::Slow => ours.as_nanos() as f64,
            Sought::Behind => {
                let rust = best(|| drop(Rust.answer(&request)));
                if rust < TOLD || rust > PATIENCE {
                    0.0
                } else {
                    ours.as_secs_f64() / rust.as_secs_f64()
                }
            }
        }
    }

    fn sort(&mut self) {
        self.found.sort_by(|one, other| other.weight.total_cmp(&one.weight));
    }
}

/// The best time of a few calls.
fn best(mut call: impl FnMut()) -> Duration {
    let mut taken = || timed(&mut call).0;
    let first = taken();
    if first < SHORT || first > PATIENCE { first } else { first.min(taken()).min(taken()) }
}

/// The whole records that a job begins with.
pub fn records_of(job: &[u8]) -> Records {
    let mut records = Vec::new();
    let mut rest = job;
    while let Some(length) = rest.first().and_then(|&kind| body_length(kind)) {
        if rest.len() <= length {
            break;
        }
        let (record, behind) = rest.split_at(1 + length);
        records.push(record.to_vec());
        rest = behind;
    }
    records
}

/// One change within the catalogue or, more often, within the sheet. No job becomes overlong.
pub fn change(records: &mut Records, random: &mut Random) {
    let sheet = records.iter().position(|record| record[0] >= SHEET).unwrap_or(records.len());
    let part = if random.chance(67) { sheet..records.len() } else { 0..sheet };
    if part.is_empty() {
        return;
    }
    let from = random.between(part.start, part.end - 1);
    let stretch = from..part.end.min(from + 1 + up_to_power(random, 8));
    match random.below(8) {
        0 => drop(records.drain(stretch)),
        1 | 2 => {
            let times = 1 + up_to_power(random, 10);
            repeat(records, stretch, times);
        }
        3..=5 => change_numbers(records, stretch, random),
        6 => records.swap(from, random.between(part.start, part.end - 1)),
        _ => repeat(records, stretch, usize::MAX),
    }
}

/// A number below a power of two up to this one: small ones are as likely as large ones.
fn up_to_power(random: &mut Random, power: usize) -> usize {
    let end = 1 << random.below(power);
    random.below(end)
}

/// The stretch once more, so many times or until the job is full.
fn repeat(records: &mut Records, stretch: Range<usize>, times: usize) {
    let repeated = records[stretch.clone()].to_vec();
    let bytes = |records: &[Vec<u8>]| records.iter().map(Vec::len).sum::<usize>();
    let room = JOB_CEILING.saturating_sub(bytes(records)) / bytes(&repeated);
    let copies = std::iter::repeat_n(repeated, times.min(room)).flatten();
    records.splice(stretch.end..stretch.end, copies);
}

/// One byte of the first record's body, there and in the records of its kind in the stretch.
fn change_numbers(records: &mut Records, stretch: Range<usize>, random: &mut Random) {
    let (kind, length) = (records[stretch.start][0], records[stretch.start].len());
    if length == 1 {
        return;
    }
    let (at, way, byte) = (random.between(1, length - 1), random.below(3), random.byte());
    for record in records[stretch].iter_mut().filter(|record| record[0] == kind) {
        record[at] = match way {
            0 => byte,
            1 => record[at].wrapping_add(1),
            _ => random.below(8) as u8,
        };
    }
}

#[cfg(test)]
mod tests {
    use super::*;

    #[test]
    fn changed_jobs_are_records_and_not_overlong() {
        let mut random = Random::new(1, 0);
        let mut changed = 0;
        for job in jobs::all() {
            let mut records = records_of(&job.request.job);
            assert_eq!(records.concat(), job.request.job, "{}", job.name);
            for _ in 0..20 {
                change(&mut records, &mut random);
                let bytes = records.concat();
                assert!(bytes.len() <= JOB_CEILING, "{}: {} bytes", job.name, bytes.len());
                assert_eq!(records_of(&bytes), records, "{}", job.name);
            }
            changed += usize::from(records.concat() != job.request.job);
        }
        assert_eq!(changed, jobs::all().len(), "every job changes in twenty steps");
    }
}
