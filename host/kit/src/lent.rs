//! The exported functions over lent memory. Any lengths may be lent: areas that are too short for the
//! limits are refusal 7. After a call the work areas are zero.
//!
//! `kit.h` beside this crate has the same declarations for C; `tests/declarations.rs` holds both to
//! `crates/kit_c/src/lib.rt` and the answer of `crates/terms/src/lib.rt`.

use job::limits::Limits;

/// What a call answers: 0 or the number of a refusal, and its place; the listing's length, the
/// variables and the clauses.
#[repr(C)]
#[derive(Clone, Copy, Debug, PartialEq, Eq)]
pub struct Answer {
    pub number: u64,
    pub place: u64,
    pub length: u64,
    pub variables: u64,
    pub clauses: u64,
}

// A slice is passed as address and length.
unsafe extern "C" {
    fn kit_check(
        job: *const u8,
        job_length: usize,
        variables: u64,
        clauses: u64,
        literals: u64,
        waiting: u64,
        marks: *mut u8,
        marks_length: usize,
        unions: *mut u8,
        unions_length: usize,
        catalogue: *mut u8,
        catalogue_length: usize,
        store: *mut u8,
        store_length: usize,
        state: *mut u8,
        state_length: usize,
        deferred: *mut u8,
        deferred_length: usize,
    ) -> Answer;

    fn kit_run(
        job: *const u8,
        job_length: usize,
        variables: u64,
        clauses: u64,
        literals: u64,
        waiting: u64,
        marks: *mut u8,
        marks_length: usize,
        unions: *mut u8,
        unions_length: usize,
        catalogue: *mut u8,
        catalogue_length: usize,
        store: *mut u8,
        store_length: usize,
        state: *mut u8,
        state_length: usize,
        deferred: *mut u8,
        deferred_length: usize,
        listing: *mut u8,
        listing_length: usize,
    ) -> Answer;
}

/// The six work areas: marks, unions, catalogue, clauses, state, waiting entries.
pub type Areas<'a> = [&'a mut [u8]; 6];

/// The length that each area needs (docs/LIMITS.md).
pub fn needed(limits: &Limits) -> [usize; 6] {
    let [v, c, l, w] = limits.to_array().map(|limit| limit as usize);
    [65_536, 52_428, 50_696, 20 * c, 16 * v + 2 * l + 2 * (3_649 + w) + 34_954, 8 * w]
}

/// Calls a function with job, limits and work areas, and with a listing area if it takes one.
macro_rules! call {
    ($function:ident, $job:ident, $limits:ident, $areas:ident $(, $listing:ident)?) => {{
        let [variables, clauses, literals, waiting] = $limits.to_array().map(u64::from);
        let [marks, unions, catalogue, store, state, deferred] = $areas;
        // SAFETY: each address and length are those of one slice; what is written is borrowed for
        // writing, so no two of the slices overlap.
        unsafe {
            $function(
                $job.as_ptr(),
                $job.len(),
                variables,
                clauses,
                literals,
                waiting,
                marks.as_mut_ptr(),
                marks.len(),
                unions.as_mut_ptr(),
                unions.len(),
                catalogue.as_mut_ptr(),
                catalogue.len(),
                store.as_mut_ptr(),
                store.len(),
                state.as_mut_ptr(),
                state.len(),
                deferred.as_mut_ptr(),
                deferred.len(),
                $($listing.as_mut_ptr(), $listing.len(),)?
            )
        }
    }};
}

/// Checks a job's catalogue; an acceptance is all zeros.
pub fn check(job: &[u8], limits: &Limits, areas: Areas) -> Answer {
    call!(kit_check, job, limits, areas)
}

/// Runs a job. Its listing is the first `length` bytes of the listing area; the rest of it, and after
/// a refusal all of it, is as it was.
pub fn run(job: &[u8], limits: &Limits, areas: Areas, listing: &mut [u8]) -> Answer {
    call!(kit_run, job, limits, areas, listing)
}
