//! Jobs to compare: seeded, and repeatable step by step.

pub mod catalogue;
pub mod damaged;
pub mod edges;
pub mod limits;
pub mod sheet;
pub mod short;

use job::{
    answer::Request,
    limits::{KITLIST_LISTING, Limits},
    record::Record,
};

use self::catalogue::Shape;
use crate::random::Random;

/// So many jobs under a seed.
pub fn random(seed: u64, count: usize) -> impl Iterator<Item = Request> {
    (0..).flat_map(move |at| step(seed, at)).take(count)
}

/// As [`random`], most of them under other limits or with other listing areas.
pub fn varied(seed: u64, count: usize) -> impl Iterator<Item = Request> {
    let jobs = random(seed, count).zip(0..);
    jobs.map(move |(request, at)| limits::varied(&mut Random::new(!seed, at), request))
}

/// The jobs of one step; a step that damages a job gives many.
pub fn step(seed: u64, step: u64) -> Vec<Request> {
    let mut random = Random::new(seed, step);
    match random.below(1_000) {
        0..500 => vec![with_limits(&mut random, Shape::small())],
        500..720 => vec![with_limits(&mut random, Shape::repeating())],
        720..770 => vec![with_limits(&mut random, Shape::medium())],
        770..771 => vec![at_ceilings(&mut random)],
        771..810 => edges::around(&mut random),
        810..820 => vec![edges::repeated_ranges(&mut random)],
        820..830 => vec![edges::joined_conditions(&mut random)],
        830..833 => damaged::cut_everywhere(&structured(&mut random, Shape::small())),
        833..837 => {
            let job = structured(&mut random, Shape::small());
            damaged::bytes_changed(&mut random, &job)
        }
        837..841 => damaged::records_swapped(&structured(&mut random, Shape::small())),
        841..871 => vec![damaged::any_bytes(&mut random)],
        871..911 => vec![damaged::any_records(&mut random)],
        911..951 => vec![short::in_order(&mut random)],
        _ => vec![with_faulty_end(&mut random)],
    }
}

/// A job that is accepted unless a run passes a ceiling.
pub fn structured(random: &mut Random, shape: Shape) -> Vec<u8> {
    job::record::job_of(structured_records(random, shape))
}

fn structured_records(random: &mut Random, shape: Shape) -> Vec<Record> {
    let draft = catalogue::draft(random, shape);
    let sheet = sheet::draft(random, &draft.catalogue, shape.steps);
    draft.records.into_iter().chain(sheet).collect()
}

fn with_limits(random: &mut Random, shape: Shape) -> Request {
    let job = structured(random, shape);
    let limits = match random.below(10) {
        0..8 => Limits::KITLIST,
        8 => Limits::CEILINGS,
        _ => Limits::from_array([
            random.between(1, 40) as u32,
            random.between(1, 80) as u32,
            random.between(1, 20) as u32,
            random.between(1, 8) as u32,
        ]),
    };
    Request { job, limits, listing_area: KITLIST_LISTING }
}

fn at_ceilings(random: &mut Random) -> Request {
    let shape = Shape::large(random);
    let job = structured(random, shape);
    Request { job, limits: Limits::CEILINGS, listing_area: 16 * KITLIST_LISTING }
}

/// A good job with one sheet record behind it that is likely to be refused.
fn with_faulty_end(random: &mut Random) -> Request {
    let mut records = structured_records(random, Shape::small());
    records.push(sheet::any_record(random));
    if random.chance(50) {
        records.push(sheet::any_record(random));
    }
    Request::kitlist(job::record::job_of(records))
}
