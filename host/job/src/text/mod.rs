//! Readable jobs: one record a line, in words, things named rather than numbered. docs/JOBS.md
//! describes the language.

mod read;
mod write;

pub use read::{Error, read};
pub use write::write;

use crate::{
    answer::{Answer, Request, Side},
    limits::Limits,
    listing::{self, Origin},
};

/// Words that open a variable or a goal, and so cannot be what a thing is called.
const RESERVED: [&str; 7] = ["root", "one", "forbid", "violation", "gate", "range", "union"];

/// Who tells which variable stands for what. Only a run makes variables, so it is asked about the
/// part of a job that ends with a run.
pub trait Variables {
    /// The origins by variable; none if the job is refused.
    fn origins(&mut self, job: &[u8]) -> Vec<Origin>;
}

impl<S: Side + ?Sized> Variables for S {
    fn origins(&mut self, job: &[u8]) -> Vec<Origin> {
        let listing_area = u32::MAX as usize;
        let request = Request { job: job.to_vec(), limits: Limits::CEILINGS, listing_area };
        match self.answer(&request) {
            Answer::Accepted { listing, .. } => listing::origins(&listing),
            Answer::Refused(_) => Vec::new(),
        }
    }
}

/// Asks for the origins once a run.
struct Known<'a> {
    variables: &'a mut dyn Variables,
    /// The length of the job up to its last run, and the origins there.
    at: Option<(usize, Vec<Origin>)>,
}

impl<'a> Known<'a> {
    fn new(variables: &'a mut dyn Variables) -> Self {
        Known { variables, at: None }
    }

    fn origins(&mut self, job: &[u8], last_run: usize) -> &[Origin] {
        if self.at.as_ref().is_none_or(|(at, _)| *at != last_run) {
            self.at = Some((last_run, self.variables.origins(&job[..last_run])));
        }
        self.at.as_ref().map_or(&[], |(_, origins)| origins)
    }
}
