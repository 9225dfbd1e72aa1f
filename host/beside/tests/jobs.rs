//! The jobs of `bench` are what they are said to be.

use beside::jobs::{self, Job};
use kit::{Kit, Listing, Refusal};

fn named(name: &str) -> Job {
    jobs::all().into_iter().find(|job| job.name == name).expect(name)
}

fn run(job: &Job) -> Result<Listing, Refusal> {
    Kit::with_listing_area(job.request.listing_area).run(&job.request.job, &job.request.limits)
}

#[test]
fn the_job_of_16_kb_has_some_2_500_clauses() {
    let job = named("16 KB");
    assert!((16_000..17_000).contains(&job.request.job.len()));
    assert!((2_400..2_600).contains(&run(&job).expect("a listing").clause_count()));
}

#[test]
fn the_repeated_union_is_that_of_the_readings() {
    assert_eq!(named("repeated union").request.job.len(), 59_512);
    let refusal = run(&named("repeated union, kitlist")).expect_err("full");
    assert_eq!((refusal.number, refusal.place), (10, 59_509));
}

#[test]
fn entries_wait_where_they_should() {
    for (name, waiting) in [("wide conditions", 2_048), ("waiting of all conditions", 2_024)] {
        assert_eq!(run(&named(name)).expect("a listing").waiting().count(), waiting, "{name}");
    }
    assert_eq!(run(&named("draws with runs")).expect("a listing").waiting().count(), 0);
}

#[test]
fn names_are_single() {
    let growing = jobs::growing().into_iter().flat_map(|(_, jobs)| jobs);
    let mut names: Vec<String> =
        jobs::all().into_iter().chain(growing).map(|job| job.name).collect();
    let count = names.len();
    names.sort();
    names.dedup();
    assert_eq!(names.len(), count);
}
