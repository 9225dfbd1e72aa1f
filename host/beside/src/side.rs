//! The proved `run` as a side of the comparison.

use job::{
    answer::{Answer, Refusal, Request, Side},
    recorded::hex,
};

use kit::lent::{self, needed};

use crate::areas::{Areas, GUARD};

/// Lends areas full of junk, another byte at each call.
#[derive(Default)]
pub struct Kit {
    junk: u8,
    /// What stands in a listing area before a call, and behind it.
    pattern: Vec<u8>,
}

impl Side for Kit {
    fn answers(&mut self, requests: &[Request]) -> Vec<Answer> {
        let answer = |request: &Request| self.answer_in(request, needed(&request.limits));
        requests.iter().map(answer).collect()
    }
}

impl Kit {
    /// The answer in work areas of these lengths.
    ///
    /// # Panics
    /// Where a work area is not left zero, or a byte is written beyond the listing.
    pub fn answer_in(&mut self, request: &Request, lengths: [usize; 6]) -> Answer {
        self.junk = self.junk.wrapping_add(0x35);
        let mut areas = Areas::new(lengths, self.junk);
        let mut listing = self.listing_area(request.listing_area + GUARD);
        let lent = &mut listing[..request.listing_area];
        let numbers = lent::run(&request.job, &request.limits, areas.lent(), lent);
        let told = || format!("{:?} {lengths:?} {}", request.limits.to_array(), hex(&request.job));
        assert!(areas.left_zero(), "an area is not left zero: {}", told());
        let length = numbers.length as usize;
        let behind = length..listing.len();
        assert!(listing[behind.clone()] == self.pattern[behind], "written beyond: {}", told());
        listing.truncate(length);
        answer(numbers, listing)
    }

    fn listing_area(&mut self, length: usize) -> Vec<u8> {
        let known = self.pattern.len();
        self.pattern.extend((known..length).map(|at| (at % 251) as u8));
        self.pattern[..length].to_vec()
    }
}

/// The numbers that an answer leaves open are 0.
fn answer(numbers: lent::Answer, listing: Vec<u8>) -> Answer {
    match numbers {
        lent::Answer { number: 0, place: 0, variables, clauses, .. } => {
            Answer::Accepted { variables: variables as usize, clauses: clauses as usize, listing }
        }
        lent::Answer { number, place, length: 0, variables: 0, clauses: 0 } if number > 0 => {
            Answer::Refused(Refusal { number: number as u8, place: place as usize })
        }
        _ => panic!("{numbers:?} is no answer"),
    }
}
