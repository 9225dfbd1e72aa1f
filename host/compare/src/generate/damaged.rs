//! Damaged copies of good jobs, and jobs that were never good.

use job::{
    answer::Request,
    reader::Reader,
    record::{Record, body_length},
};

use crate::random::Random;

const KINDS: [u8; 15] = [1, 2, 3, 4, 5, 6, 7, 8, 9, 10, 32, 33, 34, 35, 36];

/// The job cut at each byte.
pub fn cut_everywhere(job: &[u8]) -> Vec<Request> {
    (0..job.len()).map(|length| Request::kitlist(job[..length].to_vec())).collect()
}

/// The job with one byte changed, for each byte.
pub fn bytes_changed(random: &mut Random, job: &[u8]) -> Vec<Request> {
    let changed = |at: usize| {
        let mut copy = job.to_vec();
        copy[at] = match random.below(4) {
            0 => copy[at].wrapping_add(1),
            1 => copy[at].wrapping_sub(1),
            2 => copy[at] ^ (1 << random.below(8)),
            _ => random.byte(),
        };
        Request::kitlist(copy)
    };
    (0..job.len()).map(changed).collect()
}

/// The job with two neighbouring records swapped, for each pair.
pub fn records_swapped(job: &[u8]) -> Vec<Request> {
    let records = records_of(job);
    let swapped = |at: usize| {
        let mut copy = records.clone();
        copy.swap(at, at + 1);
        Request::kitlist(job::record::job_of(copy))
    };
    (1..records.len()).map(|next| swapped(next - 1)).collect()
}

/// The records of a job up to the first that is none.
pub fn records_of(job: &[u8]) -> Vec<Record> {
    let mut reader = Reader::new(job);
    std::iter::from_fn(|| reader.next_record()?.ok()).collect()
}

/// Bytes of any value.
pub fn any_bytes(random: &mut Random) -> Request {
    let length = random.between(0, 24);
    Request::kitlist((0..length).map(|_| random.byte()).collect())
}

/// Records of any kind and order, with small numbers.
pub fn any_records(random: &mut Random) -> Request {
    let mut job = Vec::new();
    let mut kinds: Vec<u8> = (0..random.between(1, 14)).map(|_| random.pick(&KINDS)).collect();
    if random.chance(80) {
        kinds.sort_unstable();
    }
    for kind in kinds {
        job.push(kind);
        job.extend((0..body_length(kind).unwrap_or(0)).map(|_| small_byte(random)));
    }
    Request::kitlist(job)
}

fn small_byte(random: &mut Random) -> u8 {
    random.pick(&[0, 0, 0, 0, 0, 0, 0, 1, 1, 2, 255])
}
