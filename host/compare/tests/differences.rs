//! The jobs that docs/DIFFERENCES.md gives: both sides agree on them, and each misreading is noticed
//! by its own.

use std::fs;

use compare::{
    misreadings,
    model::{self, Model},
    paths,
};
use job::{
    answer::{Answer, Request, Side},
    recorded::bytes_of_hex,
};
use oracle::Rust;

/// The jobs in hexadecimal that stand between backquotes in a part of the page.
fn jobs(part: &str) -> Vec<Request> {
    let quoted = part.split('`').skip(1).step_by(2);
    let long = quoted.filter(|word| word.len() >= 16);
    long.filter_map(bytes_of_hex).map(Request::kitlist).collect()
}

fn page() -> String {
    fs::read_to_string(paths::repository().join("docs/DIFFERENCES.md")).expect("the page")
}

#[test]
fn both_sides_agree_on_every_job() {
    let jobs = jobs(&page());
    assert!(jobs.len() >= 20, "{}", jobs.len());
    let answers = Rust.answers(&jobs);
    assert!(!model::is_there() || answers == Model::new().answers(&jobs));
    let refused = |answer: &&Answer| matches!(answer, Answer::Refused(_));
    assert_eq!(answers.iter().filter(refused).count(), 1, "refusal 9 before 8 alone");
}

#[test]
fn each_misreading_is_noticed_by_its_job() {
    if !model::is_there() {
        return;
    }
    let page = page();
    let (_, table) = page.split_once("### Misreadings").expect("the table");
    let (table, _) = table.split_once("\n## ").expect("its end");
    let (jobs, misreadings) = (jobs(table), misreadings());
    assert_eq!(jobs.len(), misreadings.len());
    for (job, misreading) in jobs.iter().zip(misreadings) {
        assert!(Model::misreading(&misreading).answer(job) != Rust.answer(job), "{misreading}");
    }
}
