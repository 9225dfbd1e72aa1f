//! Two sides, job by job.

use std::fmt;

use job::{
    answer::{Answer, Request, Side},
    recorded::hex,
    text,
};
use oracle::Rust;

use crate::shrink;

const BATCH: usize = 256;

/// A job on which the sides differ, and what they said.
pub struct Difference {
    pub request: Request,
    pub rust: Answer,
    pub ours: Answer,
}

pub struct Outcome {
    pub compared: usize,
    pub difference: Option<Difference>,
}

/// Compares until the jobs end or the sides differ.
pub fn compare(ours: &mut dyn Side, requests: impl Iterator<Item = Request>) -> Outcome {
    let mut compared = 0;
    let mut requests = requests.peekable();
    while requests.peek().is_some() {
        let batch: Vec<Request> = requests.by_ref().take(BATCH).collect();
        let answers = Rust.answers(&batch).into_iter().zip(ours.answers(&batch));
        for (request, (rust, ours)) in batch.into_iter().zip(answers) {
            compared += 1;
            if rust != ours {
                let difference = Some(Difference { request, rust, ours });
                return Outcome { compared, difference };
            }
        }
    }
    Outcome { compared, difference: None }
}

/// The smallest job found on which the sides still differ.
pub fn smallest(ours: &mut dyn Side, difference: Difference) -> Difference {
    let request = shrink::smallest(difference.request, &mut |request| {
        Rust.answer(request) != ours.answer(request)
    });
    let (rust, ours) = (Rust.answer(&request), ours.answer(&request));
    Difference { request, rust, ours }
}

impl fmt::Display for Difference {
    fn fmt(&self, f: &mut fmt::Formatter<'_>) -> fmt::Result {
        let Request { job, limits, listing_area } = &self.request;
        writeln!(f, "{}", text::write(job, &mut Rust))?;
        writeln!(f, "job: {}", hex(job))?;
        writeln!(f, "limits and listing area: {:?} {listing_area}\n", limits.to_array())?;
        writeln!(f, "the Rust:\n{}", self.rust)?;
        writeln!(f, "ours:\n{}", self.ours)
    }
}
