//! The recorded jobs, with the Rust and with the model; and every misreading against them.

use std::fs;

use compare::{
    misreadings,
    model::{self, Model},
    paths, recording,
};
use job::{
    answer::{Answer, Request, Side},
    recorded::{answers_text, job_line, read_answers, read_jobs},
};
use oracle::Rust;

fn recorded(file: &str) -> String {
    fs::read_to_string(paths::repository().join("recorded").join(file)).expect(file)
}

fn requests() -> Vec<Request> {
    read_jobs(&recorded("jobs.txt")).into_iter().map(|job| job.request).collect()
}

fn printed(answers: &[Answer]) -> String {
    answers_text(read_jobs(&recorded("jobs.txt")).iter().zip(answers))
}

#[test]
fn the_rust_answers_as_recorded() {
    assert_eq!(printed(&Rust.answers(&requests())), recorded("answers.txt"));
}

#[test]
fn the_model_answers_as_recorded() {
    if !model::is_there() {
        return;
    }
    assert_eq!(printed(&Model::new().answers(&requests())), recorded("answers.txt"));
}

#[test]
fn the_list_is_what_record_makes() {
    if !model::is_there() {
        return;
    }
    let list = recorded("jobs.txt");
    let lines: Vec<&str> = list.lines().filter(|line| !line.starts_with('#')).collect();
    let made: Vec<String> = recording::jobs().iter().map(job_line).collect();
    assert_eq!(lines, made);
}

#[test]
fn replay_reads_and_prints_what_is_recorded() {
    let (jobs, requests) = (read_jobs(&recorded("jobs.txt")), requests());
    let (input, output) = recording::replay(jobs.iter().zip(&Rust.answers(&requests)));
    assert!(input.len() <= 65_536);
    assert!(fs::read(paths::replay().join("stdin")).expect("stdin") == input);
    assert_eq!(fs::read_to_string(paths::replay().join("stdout")).expect("stdout"), output);
}

#[test]
fn witnesses_have_the_answers_that_stand_beside_them() {
    if !model::is_there() {
        return;
    }
    let answers = read_answers(&recorded("answers.txt"));
    let mut witnesses = 0;
    for (name, answer) in answers {
        let Some(witness) = name.strip_prefix("witness-") else {
            continue;
        };
        let file = paths::model().join("witness").join(format!("{witness}.out"));
        assert_eq!(fs::read_to_string(file).expect(witness), answer, "{witness}");
        witnesses += 1;
    }
    assert!(witnesses > 0);
}

#[test]
fn every_misreading_is_noticed() {
    if !model::is_there() {
        return;
    }
    let requests = requests();
    let answers = Rust.answers(&requests);
    for misreading in misreadings() {
        assert!(Model::misreading(&misreading).answers(&requests) != answers, "{misreading}");
    }
}
