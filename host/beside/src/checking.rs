//! `check` beside the host's own reading of jobs.

use std::time::{Duration, Instant};

use compare::{
    generate::{self, catalogue, damaged},
    random::Random,
};
use job::{
    answer::{Refusal, Request},
    catalogue::{CONDITIONS, CONSTRAINTS, Catalogue, NAMES, PARTS, RANGES, REQUIREMENTS, UNIONS},
    limits::{JOB_CEILING, Limits},
    reader::{Reader, before_reading, read_catalogue},
    record::{NO_CONDITION, ROOT, Record, job_of},
    recorded::hex,
};

use kit::lent::{self, Answer, needed};

use crate::areas::Areas;

/// What was compared.
#[derive(Debug, Default)]
pub struct Outcome {
    pub compared: usize,
    /// How many answers had each number.
    pub numbers: [usize; 8],
    pub slowest: Duration,
}

/// Jobs of one step: generated ones, and catalogues that are damaged more often than those.
pub fn step(seed: u64, step: u64) -> Vec<Request> {
    let mut random = Random::new(seed, step);
    match random.below(100) {
        0..40 => generate::step(seed, step),
        40..70 => vec![with_any_records(&mut random)],
        70..79 => vec![generate::edges::joined_conditions(&mut random)],
        79 => vec![edge_with_a_changed_byte(&mut random)],
        _ => {
            let job = generate::structured(&mut random, catalogue::Shape::small());
            damaged::bytes_changed(&mut random, &job)
        }
    }
}

fn edge_with_a_changed_byte(random: &mut Random) -> Request {
    let mut edges = edges();
    let mut request = edges.swap_remove(random.below(edges.len()));
    if !request.job.is_empty() {
        let at = random.below(request.job.len());
        request.job[at] = random.byte();
    }
    request
}

/// A catalogue with records of any numbers put in.
fn with_any_records(random: &mut Random) -> Request {
    let shape = random.pick(&[catalogue::Shape::small(), catalogue::Shape::repeating()]);
    let mut records = catalogue::draft(random, shape).records;
    for _ in 0..random.between(1, 4) {
        let at = random.below(records.len() + 1);
        records.insert(at, any_catalogue_record(random));
    }
    Request::kitlist(job_of(records))
}

fn any_catalogue_record(random: &mut Random) -> Record {
    let mut number = || match random.below(6) {
        0..4 => random.below(8) as u16,
        4 => random.pick(&[31, 32, 255, 256, 1_023, 1_024, 65_534, 65_535]),
        _ => random.below(65_536) as u16,
    };
    let (a, b, c) = (number(), number(), number());
    match random.below(10) {
        0 => Record::Name { flags: a as u8 },
        1 => Record::Part { name: a, flags: c as u8, unknown_reason: b, exclusion_reason: c },
        2 => Record::Range { name: a },
        3 => Record::Member { range: a, part: b },
        4 => Record::Union,
        5 => Record::UnionMember { union: a, range: b },
        6 => Record::Leaf { range: a },
        7 => Record::Joined { operator: c as u8, left: a, right: b },
        8 => Record::Requirement { owner: a, form: random.below(3) as u8, number: b, condition: c },
        _ => Record::Constraint { owner: a, range: b },
    }
}

/// Catalogues at each ceiling and one past it; the empty job; jobs as long as is allowed and one
/// byte longer.
pub fn edges() -> Vec<Request> {
    let name = Record::Name { flags: 0 };
    let part = Record::Part { name: 0, flags: 0, unknown_reason: 0, exclusion_reason: 0 };
    let range = Record::Range { name: 0 };
    let leaf = Record::Leaf { range: 0 };
    let joined = Record::Joined { operator: 0, left: 0, right: 0 };
    let requirement =
        Record::Requirement { owner: ROOT, form: 0, number: 0, condition: NO_CONDITION };
    let constraint = Record::Constraint { owner: ROOT, range: 0 };
    let repeated: [(&[Record], Record, usize); 8] = [
        (&[], name, NAMES),
        (&[name], part, PARTS),
        (&[name], range, RANGES),
        (&[], Record::Union, UNIONS),
        (&[name, range], leaf, CONDITIONS),
        (&[name, range, leaf], joined, CONDITIONS - 1),
        (&[name, range], requirement, REQUIREMENTS),
        (&[name, range], constraint, CONSTRAINTS),
    ];
    let catalogues = repeated.into_iter().flat_map(|(before, record, ceiling)| {
        [ceiling, ceiling + 1].map(|count| job_of([before, &vec![record; count]].concat()))
    });
    let long = [JOB_CEILING, JOB_CEILING + 1].map(|length| vec![5; length]);
    let doubled = (5..=7).flat_map(|joins| [0, 1].map(|operator| doubled(operator, joins)));
    let jobs = catalogues.chain(long).chain(doubled).chain([Vec::new()]);
    jobs.map(Request::kitlist).collect()
}

/// A condition joined with itself so many times: 2, 4, 8 .. disjuncts under "or" (1), ranges of one
/// disjunct under "and" (0).
fn doubled(operator: u8, joins: u16) -> Vec<u8> {
    let before = [Record::Name { flags: 0 }, Record::Range { name: 0 }, Record::Leaf { range: 0 }];
    let joined = (0..joins).map(|last| Record::Joined { operator, left: last, right: last });
    job_of(before.into_iter().chain(joined))
}

/// All limits at 0, 1, their ceilings and one more, in every combination.
pub fn all_limits() -> impl Iterator<Item = Limits> {
    (0..256).map(|at| {
        let mut place = 1;
        let values = Limits::CEILINGS.to_array().map(|ceiling| {
            let value = [0, 1, ceiling, ceiling + 1][at / place % 4];
            place *= 4;
            value
        });
        Limits::from_array(values)
    })
}

impl Outcome {
    /// Checks a job in areas of these lengths.
    ///
    /// # Panics
    /// Where the answer is not the host's own, or an area is not left zero.
    pub fn compare(&mut self, request: &Request, lengths: [usize; 6], junk: u8) {
        let mut areas = Areas::new(lengths, junk);
        let start = Instant::now();
        let ours = lent::check(&request.job, &request.limits, areas.lent());
        self.slowest = self.slowest.max(start.elapsed());
        let told = || format!("{:?} {lengths:?} {}", request.limits.to_array(), hex(&request.job));
        assert_eq!(ours, expected(request, areas.lengths()), "{}", told());
        assert!(areas.left_zero(), "an area is not left zero: {}", told());
        self.compared += 1;
        self.numbers[ours.number as usize] += 1;
    }

    /// Checks a job in areas that are exact, or longer, or of which one is a byte too short.
    pub fn compare_in_some_areas(&mut self, request: &Request, random: &mut Random) {
        let mut lengths = needed(&request.limits);
        match random.below(10) {
            0..6 => (),
            6..8 => lengths = lengths.map(|length| length + random.below(200)),
            _ => {
                let at = random.below(6);
                lengths[at] = lengths[at].saturating_sub(1);
            }
        }
        self.compare(request, lengths, random.byte());
    }
}

/// The answer by the host's own reading.
fn expected(request: &Request, lengths: [usize; 6]) -> Answer {
    let read = covered(&request.limits, lengths)
        .and_then(|()| before_reading(request))
        .and_then(|()| read_catalogue(&mut Reader::new(&request.job)));
    let (number, place) = match read {
        Ok(Catalogue { .. }) => (0, 0),
        Err(Refusal { number, place }) => (u64::from(number), place as u64),
    };
    Answer { number, place, length: 0, variables: 0, clauses: 0 }
}

/// Refusal 7 for the areas.
fn covered(limits: &Limits, lengths: [usize; 6]) -> Result<(), Refusal> {
    let short = needed(limits).into_iter().zip(lengths).any(|(needed, lent)| lent < needed);
    if short { Err(Refusal { number: 7, place: 0 }) } else { Ok(()) }
}
