//! The Rust as a side of the comparison: document 01's job format, refusals, sheet and listing
//! around the reference encoder.

pub mod listing;
pub mod provider;
pub mod sheet;

use job::{
    answer::{Answer, Refusal, Request, Side},
    reader::{Reader, before_reading, read_catalogue},
    recorded::hex,
};

use crate::sheet::Sheet;

/// The reference, with a fresh cache and a fresh state for each job.
pub struct Rust;

impl Side for Rust {
    fn answers(&mut self, requests: &[Request]) -> Vec<Answer> {
        requests.iter().map(answer_or_name_job).collect()
    }
}

/// A panic of the reference is a finding: the job that shows it must not be lost.
fn answer_or_name_job(request: &Request) -> Answer {
    std::panic::catch_unwind(|| answer(request)).unwrap_or_else(|panic| {
        eprintln!("the Rust panics on {}", hex(&request.job));
        std::panic::resume_unwind(panic)
    })
}

fn answer(request: &Request) -> Answer {
    carried_out(request).and_then(|sheet| listed(&sheet, request)).unwrap_or_else(Answer::from)
}

/// The sheet at the job's end.
pub fn carried_out(request: &Request) -> Result<Sheet, Refusal> {
    before_reading(request)?;
    let mut reader = Reader::new(&request.job);
    let mut sheet = Sheet::new(read_catalogue(&mut reader)?);
    loop {
        let place = reader.place();
        let Some(record) = reader.next_record() else {
            break;
        };
        record
            .and_then(|record| sheet.take(record, request.limits))
            .map_err(|number| Refusal { number, place })?;
    }
    if sheet.unfinished() {
        return Err(Refusal { number: 11, place: request.job.len() });
    }
    Ok(sheet)
}

fn listed(sheet: &Sheet, request: &Request) -> Result<Answer, Refusal> {
    let listing = listing::listing(sheet, request.listing_area)
        .ok_or(Refusal { number: 10, place: request.job.len() })?;
    Ok(Answer::Accepted {
        variables: sheet.encoding.variables(),
        clauses: sheet.encoding.clauses(),
        listing,
    })
}
