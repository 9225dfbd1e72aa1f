//! Calls that keep their memory.

use job::{answer::Refusal, limits::Limits};

use crate::{
    lent::{self, Answer, needed},
    listing::Listing,
};

/// So many bytes of listing unless another length is asked for.
const LISTING: usize = 16 << 20;

/// Memory that is lent to each call: work areas as long as the limits so far have asked for, and a
/// listing area. Memory that no call has used is not touched.
///
/// ```
/// use kit::{Kit, Limits};
///
/// let mut kit = Kit::new();
/// for job in [&[][..], &[1, 0], &[1, 2]] {
///     match kit.run(job, &Limits::BRANCH) {
///         Ok(listing) => print!("{listing}"),
///         Err(refusal) => eprintln!("{refusal}"),
///     }
/// }
/// ```
pub struct Kit {
    areas: [Vec<u8>; 6],
    listing: Vec<u8>,
}

impl Default for Kit {
    fn default() -> Self {
        Kit::new()
    }
}

impl Kit {
    /// With a listing area of 16 MiB.
    pub fn new() -> Self {
        Kit::with_listing_area(LISTING)
    }

    /// With a listing area of this length. A job with a longer listing is refused.
    ///
    /// ```
    /// use kit::{Kit, Limits};
    ///
    /// let refusal = Kit::with_listing_area(23).run(&[], &Limits::KITLIST).unwrap_err();
    /// assert_eq!(refusal.number, 10);
    /// assert!(Kit::with_listing_area(24).run(&[], &Limits::KITLIST).is_ok());
    /// ```
    pub fn with_listing_area(length: usize) -> Self {
        Kit { areas: Default::default(), listing: vec![0; length] }
    }

    /// Whether the job's catalogue is in order, as [`check`](crate::check).
    pub fn check(&mut self, job: &[u8], limits: &Limits) -> Result<(), Refusal> {
        accepted(lent::check(job, limits, lend(&mut self.areas, limits)))?;
        Ok(())
    }

    /// The listing of a job, as [`run`](crate::run).
    pub fn run(&mut self, job: &[u8], limits: &Limits) -> Result<Listing, Refusal> {
        let areas = lend(&mut self.areas, limits);
        let answer = accepted(lent::run(job, limits, areas, &mut self.listing))?;
        let printed = &self.listing[..answer.length as usize];
        Ok(Listing::new(printed, answer.variables as usize, answer.clauses as usize))
    }
}

/// Areas of exactly the length that the limits ask for, since a call clears all that it is lent;
/// empty ones under limits that are refused anyway.
fn lend<'a>(areas: &'a mut [Vec<u8>; 6], limits: &Limits) -> lent::Areas<'a> {
    let lengths = if limits.allowed() { needed(limits) } else { [0; 6] };
    let mut lengths = lengths.into_iter();
    areas.each_mut().map(|area| {
        let length = lengths.next().unwrap_or(0);
        if area.len() < length {
            *area = vec![0; length];
        }
        &mut area[..length]
    })
}

fn accepted(answer: Answer) -> Result<Answer, Refusal> {
    match answer.number {
        0 => Ok(answer),
        number => Err(Refusal { number: number as u8, place: answer.place as usize }),
    }
}
