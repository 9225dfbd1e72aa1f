//! Generated jobs: they notice every misreading, they are repeatable, and each has a text.

use compare::{
    comparison::compare,
    generate, misreadings,
    model::{self, Model},
    shrink,
};
use job::{
    answer::{Answer, Refusal, Request, Side},
    text,
};
use oracle::Rust;

const SEED: u64 = 1;
const NOTICED_WITHIN: usize = 20_000;

/// The model takes seconds for the few large ones.
fn small_jobs(count: usize) -> impl Iterator<Item = Request> {
    generate::random(SEED, count).filter(|request| request.job.len() < 2_000)
}

#[test]
fn every_misreading_is_noticed() {
    if !model::is_there() {
        return;
    }
    let misreadings = misreadings();
    assert_eq!(misreadings.len(), 9);
    for misreading in misreadings {
        let mut model = Model::misreading(&misreading);
        let outcome = compare(&mut model, small_jobs(NOTICED_WITHIN));
        assert!(outcome.difference.is_some(), "{misreading}");
    }
}

#[test]
fn runs_that_end_at_a_ceiling_pass_and_one_past_is_refused() {
    let requests = generate::edges::at_ceilings();
    let answers = Rust.answers(&requests);
    assert_eq!(requests.len(), 6);
    for pair in answers.chunks(2) {
        assert!(matches!(&pair[0], Answer::Accepted { .. }));
        assert!(matches!(&pair[1], Answer::Refused(Refusal { number: 10, .. })));
    }
    assert!(!model::is_there() || Model::new().answers(&requests) == answers);
}

#[test]
fn a_seed_gives_the_same_jobs_again() {
    let jobs = || generate::random(SEED, 2_000);
    assert!(jobs().eq(jobs()));
    assert!(!jobs().eq(generate::random(SEED + 1, 2_000)));
}

#[test]
fn every_job_has_a_text_that_gives_it_again() {
    for request in small_jobs(3_000) {
        let text = text::write(&request.job, &mut Rust);
        assert_eq!(text::read(&text, &mut Rust).as_ref(), Ok(&request.job), "{text}");
    }
}

/// Shrinks to the smallest job with a gate: an owner, a requirement and four candidates.
#[test]
fn shrinking_keeps_what_differs_and_little_else() {
    let gate = |request: &Request| Rust.answer(request).to_string().contains(" gate ");
    let found = generate::random(SEED, 1_000).find(gate).expect("a gate");
    let smallest = shrink::smallest(found, &mut |request| gate(request));
    assert!(gate(&smallest));
    let text = text::write(&smallest.job, &mut Rust);
    assert!(text.lines().count() <= 15, "{text}");
}
