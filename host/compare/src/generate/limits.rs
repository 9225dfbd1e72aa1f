//! Jobs under other limits and with other listing areas than they were made for.

use job::{
    answer::{Answer, Request, Side},
    limits::Limits,
};
use oracle::Rust;

use crate::random::Random;

/// The job under any of the sets of limits, with its own listing area, with one as long as its
/// listing or a byte shorter, or with none.
pub fn varied(random: &mut Random, request: Request) -> Request {
    let limits = match random.below(6) {
        0 => Limits::BRANCH,
        1 => Limits::KITLIST,
        2 => Limits::CEILINGS,
        3 => tiny(random),
        _ => request.limits,
    };
    let request = Request { limits, ..request };
    let listing_area = match random.below(6) {
        0 => listing_length(&request),
        1 => listing_length(&request).saturating_sub(1),
        2 => 0,
        _ => request.listing_area,
    };
    Request { listing_area, ..request }
}

/// Limits that many jobs pass; one in four sets has a limit of 0.
fn tiny(random: &mut Random) -> Limits {
    Limits::from_array([12, 24, 12, 8].map(|most| random.between(0, most) as u32))
}

/// 0 if the job is refused.
fn listing_length(request: &Request) -> usize {
    match Rust.answer(request) {
        Answer::Accepted { listing, .. } => listing.len(),
        Answer::Refused(_) => 0,
    }
}
