//! Jobs made to be slow to check; all are accepted.

use job::record::{NO_CONDITION, ROOT, Record, job_of};

/// Each with a word for what it repeats.
pub fn jobs() -> Vec<(&'static str, Vec<u8>)> {
    vec![
        ("members", members()),
        ("union members", union_members()),
        ("parts", parts()),
        ("locked parts", locked_parts()),
        ("joined conditions", joined()),
        ("requirements", requirements()),
    ]
}

fn filled(before: Vec<Record>, repeated: impl Fn(usize) -> Record) -> Vec<u8> {
    let mut job = job_of(before);
    for at in 0.. {
        let record = repeated(at).to_bytes();
        if job.len() + record.len() > 65_536 {
            return job;
        }
        job.extend(record);
    }
    job
}

fn part() -> Record {
    Record::Part { name: 0, flags: 31 - 4 - 8, unknown_reason: 0, exclusion_reason: 0 }
}

/// As many members as a job can hold: each of 120 parts in turn in each of 110 ranges.
fn members() -> Vec<u8> {
    let name = [Record::Name { flags: 1 }];
    let ranges = std::iter::repeat_n(Record::Range { name: 0 }, 110);
    let parts = std::iter::repeat_n(part(), 120);
    let before = name.into_iter().chain(ranges).chain(parts).collect();
    filled(before, |at| Record::Member { range: (at / 120) as u16, part: (at % 120) as u16 })
}

/// As many union members as a job can hold.
fn union_members() -> Vec<u8> {
    let before = vec![Record::Name { flags: 1 }, Record::Range { name: 0 }, Record::Union];
    filled(before, |_| Record::UnionMember { union: 0, range: 0 })
}

/// 1,024 parts of one name, the last one locked and favoured.
fn parts() -> Vec<u8> {
    let last = Record::Part { name: 0, flags: 4 + 8, unknown_reason: 0, exclusion_reason: 0 };
    let parts = std::iter::repeat_n(part(), 1_023).chain([last]);
    job_of([Record::Name { flags: 1 }].into_iter().chain(parts))
}

/// 1,024 parts, at the end the locked one and the favoured one of each of 64 names: whoever looks for a
/// second one among all parts sees them all 128 times.
fn locked_parts() -> Vec<u8> {
    let names = std::iter::repeat_n(Record::Name { flags: 1 }, 64);
    let parts = std::iter::repeat_n(part(), 896);
    let flagged = (0..64).flat_map(|name| {
        [4, 8].map(|flags| Record::Part { name, flags, unknown_reason: 0, exclusion_reason: 0 })
    });
    job_of(names.chain(parts).chain(flagged))
}

/// 256 conditions: doubled until 64 disjuncts are there, then each the "and" of those with one range.
fn joined() -> Vec<u8> {
    let before = [Record::Name { flags: 0 }, Record::Range { name: 0 }, Record::Leaf { range: 0 }];
    let doubled = (0..6).map(|last| Record::Joined { operator: 1, left: last, right: last });
    let last = Record::Joined { operator: 0, left: 6, right: 0 };
    job_of(before.into_iter().chain(doubled).chain(std::iter::repeat_n(last, 249)))
}

/// 1,024 requirements of the root.
fn requirements() -> Vec<u8> {
    let before = [Record::Name { flags: 0 }, Record::Range { name: 0 }];
    let one = Record::Requirement { owner: ROOT, form: 0, number: 0, condition: NO_CONDITION };
    job_of(before.into_iter().chain(std::iter::repeat_n(one, 1_024)))
}
