//! Job bytes to records: refusals 2 and 1, and the walk that document 01's order of tests asks for.

use crate::{
    answer::{Refusal, Request},
    catalogue::Catalogue,
    limits::JOB_CEILING,
    record::{FIRST_SHEET_KIND, Record, body_length},
};

/// Walks over the records of a job.
pub struct Reader<'a> {
    job: &'a [u8],
    at: usize,
    in_sheet: bool,
}

impl<'a> Reader<'a> {
    pub fn new(job: &'a [u8]) -> Self {
        Reader { job, at: 0, in_sheet: false }
    }

    /// The offset of the next record; the job's length at its end.
    pub fn place(&self) -> usize {
        self.at
    }

    /// The next record, or the number of its refusal; `None` at the end.
    pub fn next_record(&mut self) -> Option<Result<Record, u8>> {
        let (&kind, rest) = self.job[self.at..].split_first()?;
        let in_catalogue = kind < FIRST_SHEET_KIND;
        let Some(length) = body_length(kind).filter(|_| !(self.in_sheet && in_catalogue)) else {
            return Some(Err(2));
        };
        let Some(body) = rest.get(..length) else {
            return Some(Err(1));
        };
        self.in_sheet |= !in_catalogue;
        self.at += 1 + length;
        Some(Ok(Record::from_body(kind, body)))
    }

    /// Whether the next byte is a sheet kind.
    pub fn at_sheet(&self) -> bool {
        let next = self.job.get(self.at);
        next.is_some_and(|&kind| kind >= FIRST_SHEET_KIND && body_length(kind).is_some())
    }
}

/// Refusals 7 for the limits and 3 for the job's length, which come before any record.
pub fn before_reading(request: &Request) -> Result<(), Refusal> {
    let refuse = |number| Err(Refusal { number, place: 0 });
    if !request.limits.allowed() {
        return refuse(7);
    }
    if request.job.len() > JOB_CEILING {
        return refuse(3);
    }
    Ok(())
}

/// Reads the catalogue; the reader stands at the first sheet record after it, or at the end.
pub fn read_catalogue(reader: &mut Reader) -> Result<Catalogue, Refusal> {
    let mut catalogue = Catalogue::default();
    while !reader.at_sheet() {
        let place = reader.place();
        let Some(record) = reader.next_record() else {
            break;
        };
        record
            .and_then(|record| catalogue.take(record))
            .map_err(|number| Refusal { number, place })?;
    }
    Ok(catalogue)
}
