//! Every short job: all jobs of a few records out of a small stock, or of a few bytes; and every
//! short sheet for one catalogue.

use job::{
    answer::Request,
    record::{NO_CONDITION, ROOT, Record, job_of},
};

use crate::random::Random;

/// The records of which short jobs are made; two parts of one name suffice for every rule but
/// those that count to 4.
pub const STOCK: [Record; 20] = [
    Record::Name { flags: 0 },
    Record::Name { flags: 1 },
    Record::Part { name: 0, flags: 0, unknown_reason: 0, exclusion_reason: 0 },
    Record::Part { name: 0, flags: 1, unknown_reason: 0, exclusion_reason: 0 },
    Record::Part { name: 0, flags: 2, unknown_reason: 5, exclusion_reason: 6 },
    Record::Part { name: 0, flags: 20, unknown_reason: 5, exclusion_reason: 6 },
    Record::Range { name: 0 },
    Record::Member { range: 0, part: 0 },
    Record::Member { range: 0, part: 1 },
    Record::Union,
    Record::UnionMember { union: 0, range: 0 },
    Record::Leaf { range: 0 },
    Record::Requirement { owner: ROOT, form: 0, number: 0, condition: NO_CONDITION },
    Record::Requirement { owner: 0, form: 0, number: 0, condition: 0 },
    Record::Constraint { owner: 0, range: 0 },
    Record::Add { owner: ROOT },
    Record::Add { owner: 0 },
    Record::Run { level: 1 },
    Record::Decide { variable: 1, value: 1, level: 1 },
    Record::Undo { level: 0 },
];

/// A name with parts 0 and 1, one that allows several with parts 2 to 4; conditions on all of the
/// first, on part 2, and on either; rules of the root and of parts 0, 1 and 3.
const CATALOGUE: [Record; 27] = [
    Record::Name { flags: 0 },
    Record::Name { flags: 1 },
    Record::Part { name: 0, flags: 1, unknown_reason: 0, exclusion_reason: 0 },
    Record::Part { name: 0, flags: 0, unknown_reason: 0, exclusion_reason: 0 },
    Record::Part { name: 1, flags: 1, unknown_reason: 0, exclusion_reason: 0 },
    Record::Part { name: 1, flags: 0, unknown_reason: 0, exclusion_reason: 0 },
    Record::Part { name: 1, flags: 3, unknown_reason: 9, exclusion_reason: 0 },
    Record::Range { name: 0 },
    Record::Member { range: 0, part: 0 },
    Record::Member { range: 0, part: 1 },
    Record::Range { name: 0 },
    Record::Member { range: 1, part: 0 },
    Record::Range { name: 1 },
    Record::Member { range: 2, part: 2 },
    Record::Range { name: 1 },
    Record::Member { range: 3, part: 2 },
    Record::Member { range: 3, part: 3 },
    Record::Member { range: 3, part: 4 },
    Record::Leaf { range: 0 },
    Record::Leaf { range: 2 },
    Record::Joined { operator: 1, left: 0, right: 1 },
    Record::Requirement { owner: ROOT, form: 0, number: 1, condition: NO_CONDITION },
    Record::Requirement { owner: ROOT, form: 0, number: 3, condition: 0 },
    Record::Requirement { owner: 0, form: 0, number: 2, condition: 1 },
    Record::Requirement { owner: 1, form: 0, number: 0, condition: 2 },
    Record::Requirement { owner: 3, form: 0, number: 1, condition: NO_CONDITION },
    Record::Constraint { owner: 1, range: 2 },
];

const SHEET: [Record; 11] = [
    Record::Add { owner: ROOT },
    Record::Add { owner: 1 },
    Record::Add { owner: 3 },
    Record::Draw { condition: 0 },
    Record::Draw { condition: 2 },
    Record::Run { level: 1 },
    Record::Decide { variable: 1, value: 1, level: 1 },
    Record::Decide { variable: 2, value: 1, level: 1 },
    Record::Decide { variable: 3, value: 1, level: 2 },
    Record::Decide { variable: 2, value: 0, level: 2 },
    Record::Undo { level: 1 },
];

/// All jobs of at most `length` records, the shorter ones first.
pub fn all(length: u32) -> impl Iterator<Item = Request> {
    words(STOCK.len(), length)
        .map(|word| Request::kitlist(job_of(word.into_iter().map(|digit| STOCK[digit]))))
}

/// One catalogue with the root run, then all sheets of at most `length` records and a last run.
pub fn all_sheets(length: u32) -> impl Iterator<Item = Request> {
    let root_run = [Record::Add { owner: ROOT }, Record::Run { level: 1 }];
    words(SHEET.len(), length).map(move |word| {
        let sheet = word.into_iter().map(|digit| SHEET[digit]);
        let records = CATALOGUE.into_iter().chain(root_run).chain(sheet);
        Request::kitlist(job_of(records.chain([Record::Run { level: 2 }])))
    })
}

/// All jobs of at most `length` bytes, the shorter ones first.
pub fn all_bytes(length: u32) -> impl Iterator<Item = Request> {
    words(256, length)
        .map(|word| Request::kitlist(word.into_iter().map(|digit| digit as u8).collect()))
}

/// All lists of at most `length` numbers below `digits`.
fn words(digits: usize, length: u32) -> impl Iterator<Item = Vec<usize>> {
    (0..=length).flat_map(move |length| {
        (0..digits.pow(length)).map(move |number| {
            (0..length).map(|place| number / digits.pow(place) % digits).collect()
        })
    })
}

/// A job whose records follow one another in the stock's order, so that many are accepted.
pub fn in_order(random: &mut Random) -> Request {
    let mut chosen: Vec<usize> =
        (0..random.between(1, 12)).map(|_| random.below(STOCK.len())).collect();
    chosen.sort_unstable();
    Request::kitlist(job_of(chosen.into_iter().map(|at| STOCK[at])))
}
