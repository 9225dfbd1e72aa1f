//! The jobs of `bench`: plain ones, jobs built to be slow to run, and families of rising size.

use std::{
    fs,
    iter::{once, repeat_n},
    ops::{Range, RangeInclusive},
};

use compare::{generate::edges, paths};
use job::{
    answer::Request,
    catalogue::{CONDITIONS, PARTS, RANGES, READY, REQUIREMENTS},
    limits::{JOB_CEILING, Limits},
    record::{NO_CONDITION, ROOT, Record, job_of},
    recorded::read_jobs,
};

use crate::slow;

/// Room for the listings of all these jobs that are not refused.
pub const LISTING: usize = 16 << 20;

pub struct Job {
    pub name: String,
    pub request: Request,
}

fn job(name: &str, records: Vec<Record>) -> Job {
    of_bytes(name, job_of(records))
}

fn of_bytes(name: &str, job: Vec<u8>) -> Job {
    within(Limits::CEILINGS, name, job)
}

fn within(limits: Limits, name: &str, job: Vec<u8>) -> Job {
    assert!(job.len() <= JOB_CEILING, "{name} has {} bytes", job.len());
    Job { name: name.to_string(), request: Request { job, limits, listing_area: LISTING } }
}

/// The job as `kitlist` runs it.
fn as_kitlist(name: &str, job: Vec<u8>) -> Job {
    Job { name: name.to_string(), request: Request::kitlist(job) }
}

/// All but the growing families.
pub fn all() -> Vec<Job> {
    let mut jobs = vec![worked(), example("sorter-kit"), example("scanning-arch")];
    jobs.push(job("16 KB", chain(CHAIN_OF_16_KB)));
    jobs.extend(at_ceilings());
    jobs.push(job("small runs", small_runs(1_000)));
    jobs.extend(slow_jobs());
    jobs
}

/// Each family by rising size.
pub fn growing() -> Vec<(&'static str, Vec<Job>)> {
    let family = |name: &'static str, sizes: &[usize], records: fn(usize) -> Vec<Record>| {
        let jobs = sizes.iter().map(|&size| job(&format!("{name} {size}"), records(size)));
        (name, jobs.collect())
    };
    vec![
        family("chain", &[1, 2, 4, 8, 16, 32, 63], chain),
        family("small runs", &[15, 31, 62, 125, 250, 500, 1_000], small_runs),
        family("repeated union", &[70, 140, 280, 562, 1_125, 2_250, 4_500, 9_000], repeated_union),
        family("wide union", &[16, 32, 64, 128, 256, 512], wide_union),
        family("draws", &[1, 2, 4, 8, 16, 32, 64], |draws| drawing(200, 64, draws)),
    ]
}

// ---- plain jobs

fn worked() -> Job {
    let list = fs::read_to_string(paths::repository().join("recorded/jobs.txt")).expect("the list");
    let worked = read_jobs(&list).into_iter().find(|job| job.name == "starred-worked");
    Job { name: "document 01".to_string(), request: worked.expect("the worked job").request }
}

fn example(name: &str) -> Job {
    let file = paths::repository().join("examples").join(name).with_extension("bytes");
    as_kitlist(name, fs::read(file).expect("an example"))
}

fn at_ceilings() -> Vec<Job> {
    let names = ["ceiling of clauses", "ceiling of literals", "ceiling of waiting"];
    let accepted = edges::at_ceilings().into_iter().step_by(2);
    let named = names.into_iter().zip(accepted);
    let mut jobs: Vec<Job> =
        named.map(|(name, Request { job, .. })| of_bytes(name, job)).collect();
    // An owner is added and not run: the clauses are made and not listed.
    let mut refused = jobs[0].request.job.clone();
    refused.extend(job_of(vec![Record::Add { owner: ROOT }]));
    jobs.insert(1, of_bytes("ceiling of clauses, refused", refused));
    jobs
}

const CHAIN_OF_16_KB: usize = 22;
const CHAIN_PARTS: usize = 16;
const CHAIN_RANGES: usize = 8;

/// So many names of 16 parts. Each part requires a range of the next name; four of a name's parts are
/// constrained to ranges of it. All of it is opened in one run.
fn chain(names: usize) -> Vec<Record> {
    let mut records = vec![Record::Name { flags: 0 }; names];
    let number = |name: usize, at: usize, of: usize| (name % names * of + at) as u16;
    for name in 0..names {
        records.extend(repeat_n(part(name as u16, READY), CHAIN_PARTS));
        records.extend(repeat_n(Record::Range { name: name as u16 }, CHAIN_RANGES));
    }
    for name in 0..names {
        for range in 0..CHAIN_RANGES {
            let outside = range..range + 5;
            let members = (0..CHAIN_PARTS).filter(|at| !outside.contains(at));
            records.extend(members.map(|at| Record::Member {
                range: number(name, range, CHAIN_RANGES),
                part: number(name, at, CHAIN_PARTS),
            }));
        }
    }
    for name in 0..names {
        for at in 0..CHAIN_PARTS {
            let owner = number(name, at, CHAIN_PARTS);
            let range = number(name + 1, at % CHAIN_RANGES, CHAIN_RANGES);
            records.push(requirement(owner, range));
            if at < 4 {
                records.push(Record::Constraint { owner, range });
            }
        }
    }
    records.push(requirement(ROOT, 0));
    records.extend(run_of_root());
    records
}

/// So many parts of 64 names that do not open by themselves; each is added and run by itself, and a
/// decision made and taken back.
fn small_runs(parts: usize) -> Vec<Record> {
    let names = 64.min(parts);
    let mut records = vec![Record::Name { flags: 0 }; names];
    records.extend((0..parts).map(|at| part((at % names) as u16, 0)));
    records.extend((0..names).map(|name| Record::Range { name: name as u16 }));
    let member = |at: usize| Record::Member { range: (at % names) as u16, part: at as u16 };
    records.extend((0..parts).map(member));
    let next = |at: usize| requirement(at as u16, ((at + 1) % names) as u16);
    records.extend((0..parts).map(next));
    for owner in 0..parts as u16 {
        records.push(Record::Add { owner });
        records.push(Record::Run { level: 1 });
        records.push(Record::Decide { variable: 1, value: 1, level: 1 });
        records.push(Record::Undo { level: 0 });
    }
    records
}

// ---- jobs built to be slow

fn slow_jobs() -> Vec<Job> {
    let again = job("repeated union", repeated_union(9_000));
    let mut jobs = vec![as_kitlist("repeated union, kitlist", again.request.job.clone()), again];
    jobs.push(job("empty union, 10 times", empty_union(10)));
    jobs.push(job("empty union", empty_union(1_000)));
    jobs.push(job("wide union", wide_union(RANGES)));
    jobs.push(job("wide union, several", wide_union_of_several()));
    jobs.push(job("many candidates", many_candidates()));
    jobs.push(job("many owners", many_owners()));
    jobs.push(job("wide conditions", drawing(PARTS, 2_048, 0)));
    jobs.push(job("10 draws", drawing(PARTS, 2_048, 10)));
    jobs.push(job("18,000 draws", drawing(PARTS, 2_048, 18_000)));
    jobs.push(job("alternating draws", alternating_draws(3_600)));
    jobs.push(job("draws with runs", draws_with_runs()));
    jobs.push(job("runs of one owner", runs_of_one_owner()));
    jobs.push(job("runs of one entry", runs_of_one_entry(false)));
    jobs.push(job("runs of false candidates", runs_of_one_entry(true)));
    jobs.push(job("runs in batches", batches(4, 200, 1)));
    jobs.push(job("runs of a wide union", batches(3, 400, 400)));
    jobs.push(job("judged to the last member", judged_to_the_last_member()));
    jobs.push(job("fired by the last member", fired_by_the_last_member()));
    jobs.push(job("fired, one part outside", fired_with_one_outside(1)));
    jobs.push(job("fired, two names in turn", fired_with_one_outside(2)));
    jobs.push(job("constraints, three parts outside", constraints_with_three_outside()));
    jobs.push(job("draws after runs", draws_of_many_members(&[Record::Run { level: 1 }], &[])));
    let decide = |value| Record::Decide { variable: 1, value, level: 1 };
    jobs.push(job(
        "draws after decisions",
        draws_of_many_members(&[decide(1)], &[Record::Undo { level: 0 }]),
    ));
    jobs.push(job("draws of a deep condition", draws_of_a_deep_condition()));
    jobs.push(job("draws of watched parts", draws_of_watched_parts()));
    jobs.push(job("decisions", decided_in_turn(0)));
    jobs.push(job("a draw a decision", decided_in_turn(1)));
    jobs.push(job("eight draws a decision", decided_in_turn(8)));
    jobs.push(job("two ranges a part", decided_of_two_ranges()));
    jobs.push(job("waiting of all conditions", waiting_of_all_conditions()));
    jobs.push(job("adds", adds()));
    // What follows makes no clause: a branch's limits do.
    let empty_runs = job_of(vec![Record::Run { level: 1 }; 21_845]);
    jobs.push(within(Limits::BRANCH, "empty runs", empty_runs));
    jobs.extend(slow::jobs().into_iter().map(|(name, job)| within(Limits::BRANCH, name, job)));
    jobs
}

fn part(name: u16, flags: u8) -> Record {
    Record::Part { name, flags, unknown_reason: 0, exclusion_reason: 0 }
}

fn requirement(owner: u16, range: u16) -> Record {
    Record::Requirement { owner, form: 0, number: range, condition: NO_CONDITION }
}

fn of_union(union: u16) -> Record {
    Record::Requirement { owner: ROOT, form: 1, number: union, condition: NO_CONDITION }
}

fn run_of_root() -> [Record; 2] {
    [Record::Add { owner: ROOT }, Record::Run { level: 1 }]
}

/// A union that names a range of 500 parts so many times, required 1,000 times by the root: at 9,000
/// the 59,512 bytes of DIFFERENCES.md.
fn repeated_union(times: usize) -> Vec<Record> {
    let mut records = vec![Record::Name { flags: 0 }];
    records.extend(repeat_n(part(0, 0), 500));
    records.push(Record::Range { name: 0 });
    records.extend((0..500).map(|part| Record::Member { range: 0, part }));
    records.push(Record::Union);
    records.extend(repeat_n(Record::UnionMember { union: 0, range: 0 }, times));
    records.extend(repeat_n(of_union(0), 1_000));
    records.extend(run_of_root());
    records
}

/// A union that names a range without members 9,900 times, in a name of 1,000 parts; the root requires
/// it so many times.
fn empty_union(times: usize) -> Vec<Record> {
    let mut records = vec![Record::Name { flags: 0 }];
    records.extend(repeat_n(part(0, 0), 1_000));
    records.extend([Record::Range { name: 0 }, Record::Union]);
    records.extend(repeat_n(Record::UnionMember { union: 0, range: 0 }, 9_900));
    records.extend(repeat_n(of_union(0), times));
    records.extend(run_of_root());
    records
}

/// A union of so many ranges of one part each, out of a name of twice as many, required as many times
/// as there are parts.
fn wide_union(ranges: usize) -> Vec<Record> {
    let mut records = vec![Record::Name { flags: 0 }];
    records.extend(repeat_n(part(0, 0), 2 * ranges));
    records.extend(repeat_n(Record::Range { name: 0 }, ranges));
    let numbers = 0..ranges as u16;
    records.extend(numbers.clone().map(|range| Record::Member { range, part: 2 * range }));
    records.push(Record::Union);
    records.extend(numbers.map(|range| Record::UnionMember { union: 0, range }));
    records.extend(repeat_n(of_union(0), 2 * ranges));
    records.extend(run_of_root());
    records
}

/// A union of 512 ranges of 16 parts each; the 64 names allow several.
fn wide_union_of_several() -> Vec<Record> {
    let mut records = vec![Record::Name { flags: 1 }; 64];
    records.extend((0..PARTS).map(|at| part((at % 64) as u16, 0)));
    records.extend((0..RANGES).map(|range| Record::Range { name: (range % 64) as u16 }));
    for range in 0..RANGES as u16 {
        let members = (0..16).map(|at| at * 64 + range % 64);
        records.extend(members.map(|part| Record::Member { range, part }));
    }
    records.push(Record::Union);
    let ranges = 0..RANGES as u16;
    records.extend(ranges.map(|range| Record::UnionMember { union: 0, range }));
    records.extend(repeat_n(of_union(0), 300));
    records.extend(run_of_root());
    records
}

/// 1,024 clauses of 1,000 candidates each.
fn many_candidates() -> Vec<Record> {
    let mut records = vec![Record::Name { flags: 1 }];
    records.extend(repeat_n(part(0, 0), 1_000));
    records.push(Record::Range { name: 0 });
    records.extend((0..1_000).map(|part| Record::Member { range: 0, part }));
    records.extend(repeat_n(requirement(ROOT, 0), 1_024));
    records.extend(run_of_root());
    records
}

/// 1,023 parts that open by themselves, each with a requirement, every other with a constraint.
fn many_owners() -> Vec<Record> {
    let owners = 0..(PARTS - 1) as u16;
    let mut records = vec![Record::Name { flags: 1 }; 64];
    records.extend(owners.clone().map(|owner| part(owner % 64, READY)));
    records.extend((0..64).map(|name| Record::Range { name }));
    records.extend(owners.clone().map(|part| Record::Member { range: part % 64, part }));
    records.push(requirement(ROOT, 0));
    records.extend(owners.clone().map(|owner| requirement(owner, (owner + 1) % 64)));
    let constraint = |owner| Record::Constraint { owner, range: (owner + 2) % 64 };
    records.extend(owners.step_by(2).map(constraint));
    records.extend(run_of_root());
    records
}

/// So many entries wait for a condition, 64 for a requirement, each on 16 ranges of a name of so many
/// parts. Fifteen of them hold by the name's last part, the last does not. With the condition's number.
fn waiting_on_one(parts: usize, entries: usize) -> (Vec<Record>, u16) {
    let mut records = vec![Record::Name { flags: 1 }];
    records.extend(repeat_n(part(0, 0), parts));
    records.extend([Record::Range { name: 0 }; 2]);
    records.push(Record::Member { range: 0, part: (parts - 1) as u16 });
    records.push(Record::Member { range: 1, part: 0 });
    let conditions = sixty_four_disjuncts(Record::Leaf { range: 0 }, Record::Leaf { range: 1 });
    let condition = (conditions.len() - 1) as u16;
    records.extend(conditions);
    records.push(requirement(ROOT, 0));
    let waiting = Record::Requirement { owner: 0, form: 0, number: 0, condition };
    records.extend(repeat_n(waiting, entries / 64));
    records.extend(run_of_root());
    // Variable 1 is the root's only candidate, the last part.
    records.push(Record::Decide { variable: 1, value: 1, level: 1 });
    records.extend([Record::Add { owner: 0 }, Record::Run { level: 1 }]);
    (records, condition)
}

/// Then so many draws.
fn drawing(parts: usize, entries: usize, draws: usize) -> Vec<Record> {
    let (mut records, condition) = waiting_on_one(parts, entries);
    records.extend(repeat_n(Record::Draw { condition }, draws));
    records
}

/// Or so many times a decision, a draw, an undo and a draw.
fn alternating_draws(times: usize) -> Vec<Record> {
    let (mut records, condition) = waiting_on_one(PARTS, 2_048);
    let round = [
        Record::Decide { variable: 1, value: 1, level: 1 },
        Record::Draw { condition },
        Record::Undo { level: 0 },
        Record::Draw { condition },
    ];
    records.extend(repeat_n(round, times).flatten());
    records
}

/// The parts of so many names in turn, 1,000 in all. Ranges of the first name have all of its parts but
/// the first one; eight requirements fire with 64 disjuncts of 16 of these ranges, which gives 8,192
/// condition literals.
fn fired_with_one_outside(names: u16) -> Vec<Record> {
    let (parts, ranges) = (1_000, 11 * names);
    let mut records = vec![Record::Name { flags: 0 }; names.into()];
    records.extend((0..parts).map(|at| part(at % names, 0)));
    for range in 0..ranges {
        records.push(Record::Range { name: 0 });
        let members = (0..parts).step_by(names.into()).skip(1);
        records.extend(members.map(|part| Record::Member { range, part }));
    }
    // A goal without candidates, behind the others.
    records.push(Record::Range { name: 0 });
    records.extend((0..ranges).map(|range| Record::Leaf { range }));
    let joined = (0..15).map(|at| Record::Joined {
        operator: 0,
        left: if at == 0 { 0 } else { ranges + at - 1 },
        right: (at + 1) % ranges,
    });
    records.extend(joined);
    let doubled = (14..20).map(|last| ranges + last);
    records.extend(doubled.map(|last| Record::Joined { operator: 1, left: last, right: last }));
    let condition = ranges + 20;
    let fired = Record::Requirement { owner: ROOT, form: 0, number: ranges, condition };
    records.extend(repeat_n(fired, 8));
    // The owner of a constraint is a member of all the ranges, and gets variable 1.
    let owner = 5 * names;
    records.extend([Record::Constraint { owner, range: 0 }, Record::Add { owner }]);
    records.push(Record::Run { level: 1 });
    records.push(Record::Decide { variable: 1, value: 1, level: 1 });
    records.extend(run_of_root());
    records
}

/// 512 constraints of the root, to ten ranges that have all of 1,000 parts but the first three.
fn constraints_with_three_outside() -> Vec<Record> {
    let mut records = vec![Record::Name { flags: 0 }];
    records.extend(repeat_n(part(0, 0), 1_000));
    for range in 0..10 {
        records.push(Record::Range { name: 0 });
        records.extend((3..1_000).map(|part| Record::Member { range, part }));
    }
    records.extend((0..512).map(|at| Record::Constraint { owner: ROOT, range: at % 10 }));
    records.extend(run_of_root());
    records
}

/// Conditions of which the last has 64 disjuncts, each fifteen times the first and once the second.
fn sixty_four_disjuncts(first: Record, second: Record) -> Vec<Record> {
    let and = |left, right| Record::Joined { operator: 0, left, right };
    let or = |both| Record::Joined { operator: 1, left: both, right: both };
    let fifteen = [and(0, 0), and(1, 1), and(2, 2), and(3, 2), and(4, 1), and(5, 0)];
    let mut conditions = vec![first];
    conditions.extend(fifteen);
    conditions.extend([second, and(6, 7)]);
    conditions.extend((8..14).map(or));
    conditions
}

/// 1,024 requirements of a union of all parts wait, four for each of 256 conditions. These hold, and
/// are drawn and run one after another.
fn draws_with_runs() -> Vec<Record> {
    let mut records = vec![Record::Name { flags: 0 }; 64];
    records.extend((0..PARTS as u16).map(|at| part(at % 64, 0)));
    records.extend((0..64).map(|name| Record::Range { name }));
    records.extend((0..PARTS as u16).map(|part| Record::Member { range: part % 64, part }));
    records.push(Record::Union);
    records.extend((0..64).map(|range| Record::UnionMember { union: 0, range }));
    records.extend(repeat_n(Record::Leaf { range: 0 }, CONDITIONS));
    let waiting = |condition| Record::Requirement { owner: ROOT, form: 1, number: 0, condition };
    records.extend((0..REQUIREMENTS).map(|at| waiting((at % CONDITIONS) as u16)));
    // The constraint makes no clause, but gives its owner variable 1.
    records.push(Record::Constraint { owner: 0, range: 1 });
    records.extend([Record::Add { owner: 0 }, Record::Add { owner: ROOT }]);
    records.push(Record::Run { level: 1 });
    records.push(Record::Decide { variable: 1, value: 1, level: 1 });
    for condition in 0..CONDITIONS as u16 {
        records.extend([Record::Draw { condition }, Record::Run { level: 1 }]);
    }
    records
}

/// Parts that require the range of all of them, each added and run by itself.
fn runs_of_one_owner() -> Vec<Record> {
    let owners = 0..1_000u16;
    let mut records = vec![Record::Name { flags: 0 }];
    records.extend(owners.clone().map(|_| part(0, 0)));
    records.push(Record::Range { name: 0 });
    records.extend(owners.clone().map(|part| Record::Member { range: 0, part }));
    records.extend(owners.clone().map(|owner| requirement(owner, 0)));
    records.extend(owners.flat_map(|owner| [Record::Add { owner }, Record::Run { level: 1 }]));
    records
}

/// Conditions of a disjunct for each of these ranges, under so many numbers; with these numbers.
fn or_of_all(ranges: Range<u16>, numbers: usize) -> (Vec<Record>, Range<u16>) {
    // Each joins the next two, up to the two halves.
    let halves = 2 * ranges.len() as u16 - 4;
    let or = |left| Record::Joined { operator: 1, left, right: left + 1 };
    let mut conditions: Vec<Record> = ranges.map(|range| Record::Leaf { range }).collect();
    conditions.extend((0..halves).step_by(2).map(or));
    conditions.extend(repeat_n(or(halves), numbers));
    (conditions, halves + 2..halves + 2 + numbers as u16)
}

/// The variables from 1 on, so many, are decided true one after another, and after each the conditions
/// are drawn and run one by one.
fn drawn_one_by_one(variables: u16, conditions: Range<u16>) -> Vec<Record> {
    let drawn = |condition| [Record::Draw { condition }, Record::Run { level: 1 }];
    let decided = |variable| {
        let decide = Record::Decide { variable, value: 1, level: 1 };
        [decide].into_iter().chain(conditions.clone().flat_map(drawn))
    };
    (1..=variables).flat_map(decided).collect()
}

/// A condition of 32 disjuncts, one for each of 32 parts, under 64 numbers; a requirement of a range of
/// 990 parts waits for each. The parts are decided true one after another, and after each the conditions
/// are drawn and run one after another. Where `falsified`, the 990 parts are decided false before.
fn runs_of_one_entry(falsified: bool) -> Vec<Record> {
    const CANDIDATES: u16 = 990;
    const DISJUNCTS: u16 = 32;
    let mut records = vec![Record::Name { flags: 0 }; 1 + DISJUNCTS as usize];
    records.extend(repeat_n(part(0, 0), CANDIDATES as usize));
    records.extend((1..=DISJUNCTS).map(|name| part(name, 0)));
    records.extend((0..=DISJUNCTS).map(|name| Record::Range { name }));
    records.extend((0..CANDIDATES).map(|part| Record::Member { range: 0, part }));
    let members = (0..DISJUNCTS).map(|at| Record::Member { range: 1 + at, part: CANDIDATES + at });
    records.extend(members);
    records.push(Record::Union);
    let ranges = 1..1 + DISJUNCTS;
    records.extend(ranges.clone().map(|range| Record::UnionMember { union: 0, range }));
    let (joined, conditions) = or_of_all(ranges, 64);
    records.extend(joined);
    // The union gives its parts the variables 1 to 32, the range those from 33 on.
    records.push(of_union(0));
    if falsified {
        records.push(requirement(ROOT, 0));
    }
    let waiting = |condition| Record::Requirement { owner: ROOT, form: 0, number: 0, condition };
    records.extend(conditions.clone().map(waiting));
    records.extend(run_of_root());
    if falsified {
        let candidates = DISJUNCTS + 1..=DISJUNCTS + CANDIDATES;
        records.extend(candidates.map(|variable| Record::Decide { variable, value: 0, level: 1 }));
    }
    records.extend(drawn_one_by_one(DISJUNCTS, conditions));
    records
}

/// 253 conditions of eight disjuncts, one requirement waiting for each.
fn waiting_of_all_conditions() -> Vec<Record> {
    let or = |both| Record::Joined { operator: 1, left: both, right: both };
    let mut records = vec![Record::Name { flags: 0 }, part(0, 0), Record::Range { name: 0 }];
    records.extend([Record::Leaf { range: 0 }, or(0), or(1)]);
    let of_eight = 3..CONDITIONS as u16;
    records.extend(of_eight.clone().map(|_| or(2)));
    let waiting = |condition| Record::Requirement { owner: ROOT, form: 0, number: 0, condition };
    records.extend(of_eight.map(waiting));
    records.extend(run_of_root());
    records
}

/// 242 conditions of eight disjuncts, one for each of eight parts. So many owners, one after another,
/// bring a requirement for each condition, all of one union: so many parts in so many ranges. The eight
/// parts are decided true one after another, and after each the conditions are drawn and run one by one.
fn batches(owners: u16, parts: u16, ranges: u16) -> Vec<Record> {
    const DISJUNCTS: u16 = 8;
    let mut records = vec![Record::Name { flags: 0 }; 1 + DISJUNCTS as usize];
    records.extend(repeat_n(part(0, 0), parts as usize));
    records.extend((1..=DISJUNCTS).map(|name| part(name, 0)));
    records.extend((1..=DISJUNCTS).map(|name| Record::Range { name }));
    records.extend((0..DISJUNCTS).map(|at| Record::Member { range: at, part: parts + at }));
    records.extend(repeat_n(Record::Range { name: 0 }, ranges as usize));
    let member = |part| Record::Member { range: DISJUNCTS + part % ranges, part };
    records.extend((0..parts).map(member));
    records.extend([Record::Union, Record::Union]);
    records.extend((0..DISJUNCTS).map(|range| Record::UnionMember { union: 0, range }));
    let wide = DISJUNCTS..DISJUNCTS + ranges;
    records.extend(wide.map(|range| Record::UnionMember { union: 1, range }));
    let (joined, conditions) = or_of_all(0..DISJUNCTS, CONDITIONS - 14);
    records.extend(joined);
    // The first union gives its parts the variables 1 to 8.
    records.push(of_union(0));
    for owner in 0..owners {
        let waiting = |condition| Record::Requirement { owner, form: 1, number: 1, condition };
        records.extend(conditions.clone().map(waiting));
    }
    records.extend(run_of_root());
    for owner in 0..owners {
        records.extend([Record::Add { owner }, Record::Run { level: 1 }]);
        records.extend(drawn_one_by_one(DISJUNCTS, conditions.clone()));
        records.push(Record::Undo { level: 0 });
    }
    records
}

/// A name of 1,000 parts that allows several; its ranges 0 of all of them, 1 of the first, 2 of the
/// last, which the root requires: so it has variable 1.
fn last_of_a_thousand() -> Vec<Record> {
    let parts = 1_000;
    let mut records = vec![Record::Name { flags: 1 }];
    records.extend(repeat_n(part(0, 0), parts as usize));
    records.extend([Record::Range { name: 0 }; 3]);
    records.extend((0..parts).map(|part| Record::Member { range: 0, part }));
    records.push(Record::Member { range: 1, part: 0 });
    records.push(Record::Member { range: 2, part: parts - 1 });
    records.push(requirement(ROOT, 2));
    records
}

/// The last part is decided true, and then the first added.
fn first_added() -> Vec<Record> {
    let mut records = run_of_root().to_vec();
    records.push(Record::Decide { variable: 1, value: 1, level: 1 });
    records.extend([Record::Add { owner: 0 }, Record::Run { level: 1 }]);
    records
}

/// 32 requirements on 64 disjuncts, each fifteen times a range that holds by its last member and once
/// one that does not.
fn judged_to_the_last_member() -> Vec<Record> {
    let mut records = last_of_a_thousand();
    let conditions = sixty_four_disjuncts(Record::Leaf { range: 0 }, Record::Leaf { range: 1 });
    let condition = (conditions.len() - 1) as u16;
    records.extend(conditions);
    let waiting = Record::Requirement { owner: 0, form: 0, number: 2, condition };
    records.extend(repeat_n(waiting, 32));
    records.extend(first_added());
    records
}

/// 1,023 requirements on a range that holds by its last member.
fn fired_by_the_last_member() -> Vec<Record> {
    let mut records = last_of_a_thousand();
    records.push(Record::Leaf { range: 0 });
    let fired = Record::Requirement { owner: 0, form: 0, number: 2, condition: 0 };
    records.extend(repeat_n(fired, REQUIREMENTS - 1));
    records.extend(first_added());
    records
}

/// An entry for each of five ranges of 1,000 parts, none of which is true, waits; they are drawn, with
/// these records before and behind each draw, as often as a job has room for.
fn draws_of_many_members(before: &[Record], behind: &[Record]) -> Vec<Record> {
    let mut records = vec![Record::Name { flags: 1 }; 2];
    records.extend(repeat_n(part(0, 0), 1_000));
    records.push(part(1, 0));
    records.extend([Record::Range { name: 0 }; 5]);
    records.push(Record::Range { name: 1 });
    let members = |range| (0..1_000).map(move |part| Record::Member { range, part });
    records.extend((0..5).flat_map(members));
    records.push(Record::Member { range: 5, part: 1_000 });
    records.extend((0..5).map(|range| Record::Leaf { range }));
    let or = |left, right| Record::Joined { operator: 1, left, right };
    records.extend([or(0, 1), or(5, 2), or(6, 3), or(7, 4)]);
    // The part that is decided is no member of the five ranges.
    records.push(requirement(ROOT, 5));
    records.push(Record::Requirement { owner: ROOT, form: 0, number: 5, condition: 8 });
    records.extend(run_of_root());
    filled_up(records, [before, &[Record::Draw { condition: 8 }], behind].concat())
}

/// Behind the records a round of others, as often as a job has room for it.
fn filled_up(mut records: Vec<Record>, round: Vec<Record>) -> Vec<Record> {
    let times = (JOB_CEILING - job_of(records.clone()).len()) / job_of(round.clone()).len();
    records.extend(repeat_n(round, times).flatten());
    records
}

/// 64 entries wait, each on sixteen ranges of one part: one of the first 64 and then fifteen times the
/// last. The root requires `ranges`, whose parts get the variables from 1 on. The records, and the
/// condition's number.
fn deep_condition(ranges: RangeInclusive<u16>) -> (Vec<Record>, u16) {
    let mut records = vec![Record::Name { flags: 1 }; 2];
    records.extend(repeat_n(part(0, 0), 64));
    records.push(part(1, 0));
    records.extend(repeat_n(Record::Range { name: 0 }, 64));
    records.push(Record::Range { name: 1 });
    records.extend((0..=64).map(|at| Record::Member { range: at, part: at }));
    let (joined, one_of_each) = or_of_all(0..64, 1);
    records.extend(joined);
    let (joined, leaf) = (one_of_each.start, one_of_each.end);
    records.push(Record::Leaf { range: 64 });
    let and = |left| Record::Joined { operator: 0, left, right: leaf };
    records.push(and(joined));
    let condition = leaf + 15;
    records.extend((leaf + 1..condition).map(and));
    records.extend(ranges.map(|range| requirement(ROOT, range)));
    records.push(Record::Requirement { owner: ROOT, form: 0, number: 64, condition });
    records.extend(run_of_root());
    (records, condition)
}

/// The last range is decided to hold, drawn and taken back: no entry's first range ever holds.
fn draws_of_a_deep_condition() -> Vec<Record> {
    let (records, condition) = deep_condition(64..=64);
    filled_up(records, drawn_and_undone(1, condition).into())
}

/// The last range is decided to hold, drawn and taken back, and then one of the first: each decision is
/// one that the draw before it waited for.
fn draws_of_watched_parts() -> Vec<Record> {
    let (records, condition) = deep_condition(0..=64);
    let both = |first| [65, first].map(|variable| drawn_and_undone(variable, condition));
    filled_up(records, (1..=64).flat_map(both).flatten().collect())
}

/// 64 entries wait, each on two ranges of one part. One part after another is decided to be in the kit,
/// so many conditions are drawn, its own first, and the decision is taken back: no entry ever holds.
fn decided_in_turn(draws: u16) -> Vec<Record> {
    let records = waiting_on_pairs(OF_PAIRS);
    let round = |at: u16| {
        let drawn = (0..draws).map(move |next| OF_PAIRS + (at / 2 + next) % PAIRS);
        decided_and_drawn(at, drawn)
    };
    filled_up(records, (0..OF_PAIRS).flat_map(round).collect())
}

/// The same with each part in two ranges, and both conditions of a part that is decided are drawn: it is
/// watched for both.
fn decided_of_two_ranges() -> Vec<Record> {
    let records = waiting_on_pairs(PAIRS);
    let round =
        |at: u16| decided_and_drawn(at, [0, PAIRS / 2].map(|next| OF_PAIRS + at / 2 + next));
    filled_up(records, (0..PAIRS).flat_map(round).collect())
}

const PAIRS: u16 = 64;
const OF_PAIRS: u16 = 2 * PAIRS;

/// So many parts, in turn the only one of a range; an entry waits on each pair of ranges.
fn waiting_on_pairs(parts: u16) -> Vec<Record> {
    let mut records = vec![Record::Name { flags: 1 }];
    records.extend(repeat_n(part(0, 0), parts as usize));
    records.extend(repeat_n(Record::Range { name: 0 }, OF_PAIRS as usize));
    records.extend((0..OF_PAIRS).map(|at| Record::Member { range: at, part: at % parts }));
    records.extend((0..OF_PAIRS).map(|range| Record::Leaf { range }));
    let both = |left| Record::Joined { operator: 0, left, right: left + 1 };
    records.extend((0..OF_PAIRS).step_by(2).map(both));
    // The parts get the variables from 1 on.
    records.extend((0..OF_PAIRS).map(|range| requirement(ROOT, range)));
    let waiting =
        |pair| Record::Requirement { owner: ROOT, form: 0, number: 0, condition: OF_PAIRS + pair };
    records.extend((0..PAIRS).map(waiting));
    records.extend(run_of_root());
    records
}

fn decided_and_drawn(part: u16, drawn: impl IntoIterator<Item = u16>) -> Vec<Record> {
    let decide = Record::Decide { variable: 1 + part, value: 1, level: 1 };
    let draws = drawn.into_iter().map(|condition| Record::Draw { condition });
    once(decide).chain(draws).chain([Record::Undo { level: 0 }]).collect()
}

/// The root and 64 parts are added in turn, again and again, before one run.
fn adds() -> Vec<Record> {
    let mut records = vec![Record::Name { flags: 0 }];
    records.extend(repeat_n(part(0, 0), 64));
    let owners = once(ROOT).chain(0..64).map(|owner| Record::Add { owner }).collect();
    let mut records = filled_up(records, owners);
    *records.last_mut().expect("the last add") = Record::Run { level: 1 };
    records
}

fn drawn_and_undone(variable: u16, condition: u16) -> [Record; 3] {
    let decide = Record::Decide { variable, value: 1, level: 1 };
    [decide, Record::Draw { condition }, Record::Undo { level: 0 }]
}
