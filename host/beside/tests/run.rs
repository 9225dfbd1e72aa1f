//! The proved `run` on recorded and example jobs, under every limit at its edges, and in areas that
//! are longer than needed or too short.

use std::fs;

use beside::{checking, side::Kit};
use compare::paths;
use job::{
    answer::{Answer, Refusal, Request, Side},
    recorded::{answers_text, read_jobs},
};
use kit::lent::needed;
use oracle::Rust;

fn recorded(file: &str) -> String {
    fs::read_to_string(paths::repository().join("recorded").join(file)).expect(file)
}

#[test]
fn recorded_jobs_are_answered_as_recorded() {
    let jobs = read_jobs(&recorded("jobs.txt"));
    let requests: Vec<Request> = jobs.iter().map(|job| job.request.clone()).collect();
    let answers = Kit::default().answers(&requests);
    assert_eq!(answers_text(jobs.iter().zip(&answers)), recorded("answers.txt"));
}

#[test]
fn examples_give_their_listings() {
    for file in paths::examples() {
        let job = fs::read(file.with_extension("bytes")).expect("a job");
        let listing = fs::read_to_string(file.with_extension("listing")).expect("a listing");
        let printed = Kit::default().answer(&Request::kitlist(job)).to_string();
        assert_eq!(printed, listing, "{}", file.display());
    }
}

#[test]
fn ceilings_are_those_of_the_rust() {
    let ceilings = compare::generate::edges::at_ceilings();
    let edges = checking::edges().into_iter().chain(ceilings);
    let limits = checking::all_limits().map(|limits| Request { limits, ..worked() });
    let requests: Vec<Request> = edges.chain(limits).collect();
    assert!(Kit::default().answers(&requests) == Rust.answers(&requests));
}

#[test]
fn an_area_may_be_longer_but_no_byte_shorter() {
    let (request, mut kit) = (worked(), Kit::default());
    let exact = needed(&request.limits);
    let answer = kit.answer_in(&request, exact);
    assert!(matches!(answer, Answer::Accepted { .. }));
    for at in 0..6 {
        let changed = |length: usize| {
            let mut lengths = exact;
            lengths[at] = length;
            lengths
        };
        assert_eq!(kit.answer_in(&request, changed(exact[at] + 100)), answer);
        for short in [0, exact[at] - 1] {
            let refused = Answer::Refused(Refusal { number: 7, place: 0 });
            assert_eq!(kit.answer_in(&request, changed(short)), refused);
        }
    }
}

/// The job of the recorded list that is worked out in document 01.
fn worked() -> Request {
    let jobs = read_jobs(&recorded("jobs.txt"));
    let worked = jobs.into_iter().find(|job| job.name == "starred-worked");
    worked.expect("the worked job").request
}
