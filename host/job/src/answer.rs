//! What is asked of an encoder and what it answers: the seam between the sides of a comparison.

use std::{error::Error, fmt};

use crate::limits::{KITLIST_LISTING, Limits};

/// One job with the limits and the length of the listing area that it is run with.
#[derive(Clone, Debug, PartialEq, Eq)]
pub struct Request {
    pub job: Vec<u8>,
    pub limits: Limits,
    pub listing_area: usize,
}

impl Request {
    /// The job as `kitlist` runs it.
    pub fn kitlist(job: Vec<u8>) -> Self {
        Request { job, limits: Limits::KITLIST, listing_area: KITLIST_LISTING }
    }
}

/// Why a job is refused: a number from 1 to 11, and the place of the record at fault, which is the
/// job's length for a fault at its end.
///
/// ```
/// let refusal = job::answer::Refusal { number: 4, place: 12 };
/// assert_eq!(refusal.to_string(), "refused 4 at byte 12: a number names nothing given earlier");
/// ```
#[derive(Clone, Copy, Debug, PartialEq, Eq)]
pub struct Refusal {
    pub number: u8,
    pub place: usize,
}

impl Refusal {
    /// What the number says.
    pub fn sentence(&self) -> &'static str {
        match self.number {
            1 => "the record has fewer bytes than its kind needs",
            2 => "the kind is none, or a catalogue kind after a sheet kind",
            3 => "the record is one too many of its kind, or the job is over 65,536 bytes",
            4 => "a number names nothing given earlier",
            5 => "the record contradicts itself or an earlier one",
            6 => "the condition has over 64 disjuncts, or one with over 16 ranges",
            7 => "a limit is 0 or above its ceiling, or a work area is too short for the limits",
            8 => "the variable is decided against its present value",
            9 => "the level is 0 or below that of the last decision",
            10 => "the run would end above a limit, or the listing does not fit",
            11 => "the job ends with added owners or drawn entries that are not run",
            _ => "no such refusal",
        }
    }
}

impl fmt::Display for Refusal {
    fn fmt(&self, f: &mut fmt::Formatter<'_>) -> fmt::Result {
        write!(f, "refused {} at byte {}: {}", self.number, self.place, self.sentence())
    }
}

impl Error for Refusal {}

#[derive(Clone, Debug, PartialEq, Eq)]
pub enum Answer {
    Accepted { variables: usize, clauses: usize, listing: Vec<u8> },
    Refused(Refusal),
}

impl From<Refusal> for Answer {
    fn from(refusal: Refusal) -> Self {
        Answer::Refused(refusal)
    }
}

/// As `kitlist` prints it.
impl fmt::Display for Answer {
    fn fmt(&self, f: &mut fmt::Formatter<'_>) -> fmt::Result {
        match self {
            Answer::Accepted { listing, .. } => f.write_str(&String::from_utf8_lossy(listing)),
            Answer::Refused(Refusal { number, place }) => writeln!(f, "refused {number} {place}"),
        }
    }
}

/// A side of a comparison: whatever answers jobs.
pub trait Side {
    /// One answer for each request, in order.
    fn answers(&mut self, requests: &[Request]) -> Vec<Answer>;

    fn answer(&mut self, request: &Request) -> Answer {
        let mut answers = self.answers(std::slice::from_ref(request));
        answers.pop().expect("one answer for one request")
    }
}
