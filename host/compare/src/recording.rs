//! The jobs that are recorded: the model's witnesses, those written by hand in recorded/by-hand.txt,
//! every ceiling and every cut, and a spread of generated ones.

use std::fs;

use job::{
    answer::{Answer, Request, Side},
    catalogue::{CONDITIONS, CONSTRAINTS, NAMES, PARTS, RANGES, REQUIREMENTS, UNIONS},
    limits::{JOB_CEILING, Limits},
    record::{FIRST_SHEET_KIND, NO_CONDITION, ROOT, Record, body_length, job_of},
    recorded::RecordedJob,
    text,
};
use oracle::Rust;

use crate::{
    generate::{self, catalogue::Shape},
    paths,
    random::Random,
};

const GENERATED: usize = 120;
const GENERATED_SEED: u64 = 4;
const MOST_BYTES: usize = 260;
const MOST_LISTING: usize = 1_200;
/// No longer job is replayed: so all of them together fit into 64 KiB.
const MOST_REPLAYED: usize = 4_096;

pub fn jobs() -> Vec<RecordedJob> {
    let mut jobs = witnesses();
    jobs.extend(by_hand());
    jobs.extend(kinds());
    jobs.extend(ceilings());
    jobs.extend(generated());
    jobs
}

/// What the program `replay` reads, and what it prints: the recorded jobs that are run as `kitlist`
/// runs them, each behind its length in four bytes, and their answers.
pub fn replay<'a>(
    answered: impl Iterator<Item = (&'a RecordedJob, &'a Answer)>,
) -> (Vec<u8>, String) {
    let (mut input, mut output) = (Vec::new(), String::new());
    for (RecordedJob { request, .. }, answer) in answered {
        let job = &request.job;
        if job.len() <= MOST_REPLAYED && *request == Request::kitlist(job.clone()) {
            input.extend((job.len() as u32).to_le_bytes());
            input.extend(job);
            output += &answer.to_string();
        }
    }
    (input, output)
}

fn kitlist(name: impl Into<String>, job: Vec<u8>) -> RecordedJob {
    RecordedJob { name: name.into(), request: Request::kitlist(job) }
}

fn witnesses() -> Vec<RecordedJob> {
    let directory = fs::read_dir(paths::model().join("witness")).expect("the model's witnesses");
    let mut files: Vec<_> = directory.map(|entry| entry.expect("an entry").path()).collect();
    files.retain(|file| file.extension().is_some_and(|extension| extension == "job"));
    files.sort();
    files
        .into_iter()
        .map(|file| {
            let name = file.file_stem().expect("a name").to_string_lossy().into_owned();
            kitlist(format!("witness-{name}"), fs::read(file).expect("a witness"))
        })
        .collect()
}

fn by_hand() -> Vec<RecordedJob> {
    let file = paths::repository().join("recorded/by-hand.txt");
    let text = fs::read_to_string(file).expect("the jobs written by hand");
    let mut sections = text.split("\n= ");
    sections.next();
    sections.map(section).collect()
}

/// The first line is the job's name and perhaps its limits and listing area.
fn section(section: &str) -> RecordedJob {
    let (heading, text) = section.split_once('\n').unwrap_or((section, ""));
    let mut words = heading.split(' ');
    let name = words.next().unwrap_or_default().to_string();
    let numbers: Vec<u32> = words.map(|word| word.parse().expect("a limit")).collect();
    let job = text::read(text, &mut Rust).unwrap_or_else(|error| panic!("{name}, {error}"));
    let request = match numbers[..] {
        [] => Request::kitlist(job),
        [variables, clauses, condition_literals, waiting, area] => Request {
            job,
            limits: Limits::from_array([variables, clauses, condition_literals, waiting]),
            listing_area: area as usize,
        },
        _ => panic!("{name} has four limits and a listing area, or none"),
    };
    RecordedJob { name, request }
}

/// Refusals 1 and 2: each kind cut short, each that is none, each out of place.
fn kinds() -> Vec<RecordedJob> {
    let mut jobs = Vec::new();
    for kind in 0..=255 {
        match body_length(kind) {
            None if [0, 11, 31, 37, 255].contains(&kind) => {
                jobs.push(kitlist(format!("refusal-2-kind-{kind}"), vec![kind]));
            }
            Some(length) => {
                let record = [vec![kind], vec![0; length]].concat();
                if length > 0 {
                    let cut = record[..length].to_vec();
                    jobs.push(kitlist(format!("refusal-1-kind-{kind}"), cut));
                }
                if kind < FIRST_SHEET_KIND {
                    let run = Record::Run { level: 1 }.to_bytes();
                    let name = format!("refusal-2-kind-{kind}-in-sheet");
                    jobs.push(kitlist(name, [run, record].concat()));
                }
            }
            None => {}
        }
    }
    jobs
}

/// Refusal 3: each ceiling of the catalogue and of the job's length, reached and passed.
fn ceilings() -> Vec<RecordedJob> {
    let name = Record::Name { flags: 0 };
    let part = Record::Part { name: 0, flags: 0, unknown_reason: 0, exclusion_reason: 0 };
    let range = Record::Range { name: 0 };
    let leaf = Record::Leaf { range: 0 };
    let requirement =
        Record::Requirement { owner: ROOT, form: 0, number: 0, condition: NO_CONDITION };
    let constraint = Record::Constraint { owner: ROOT, range: 0 };
    let repeated = [
        ("names", vec![], name, NAMES),
        ("parts", vec![name], part, PARTS),
        ("ranges", vec![name], range, RANGES),
        ("unions", vec![], Record::Union, UNIONS),
        ("conditions", vec![name, range], leaf, CONDITIONS),
        ("requirements", vec![name, range], requirement, REQUIREMENTS),
        ("constraints", vec![name, range], constraint, CONSTRAINTS),
    ];
    let mut jobs = Vec::new();
    for (things, before, record, ceiling) in repeated {
        let job =
            |count: usize| job_of(before.iter().copied().chain(std::iter::repeat_n(record, count)));
        jobs.push(kitlist(format!("refusal-3-{things}-pass"), job(ceiling)));
        jobs.push(kitlist(format!("refusal-3-{things}"), job(ceiling + 1)));
    }
    let joined = Record::Joined { operator: 2, left: 65_535, right: 0 };
    let leaves = std::iter::repeat_n(leaf, CONDITIONS);
    let both = [name, range].into_iter().chain(leaves).chain([joined]);
    jobs.push(kitlist("refusal-3-before-4-and-5", job_of(both)));
    jobs.extend(lengths());
    jobs
}

fn lengths() -> [RecordedJob; 2] {
    let before = [Record::Name { flags: 0 }, Record::Range { name: 0 }, Record::Union];
    let member = Record::UnionMember { union: 0, range: 0 };
    let mut longest = job_of(before);
    while longest.len() < JOB_CEILING {
        longest.extend(member.to_bytes());
    }
    let overlong = [longest.clone(), vec![0]].concat();
    [kitlist("refusal-3-length-passes", longest), kitlist("refusal-3-length", overlong)]
}

/// Small jobs with runs, under limits like those of the other recorded jobs.
fn generated() -> Vec<RecordedJob> {
    (0..)
        .filter_map(generated_job)
        .take(GENERATED)
        .enumerate()
        .map(|(number, job)| kitlist(format!("generated-{number}"), job))
        .collect()
}

fn generated_job(step: u64) -> Option<Vec<u8>> {
    let mut random = Random::new(GENERATED_SEED, step);
    let shape = random.pick(&[Shape::small(), Shape::small(), Shape::repeating()]);
    let job = generate::structured(&mut random, shape);
    let Answer::Accepted { listing, clauses, .. } = Rust.answer(&Request::kitlist(job.clone()))
    else {
        return None;
    };
    let telling = clauses > 3 && listing.len() <= MOST_LISTING && job.len() <= MOST_BYTES;
    telling.then_some(job)
}
