//! The recorded jobs, as far as they can be held to their answers without an encoder: the refusals
//! that reading gives.

use std::{fs, path::PathBuf};

use job::{
    answer::{Answer, Refusal, Request},
    listing::lines,
    reader::{Reader, before_reading, read_catalogue},
    recorded::{RecordedJob, job_line, read_answers, read_jobs},
};

fn recorded(file: &str) -> String {
    let directory = PathBuf::from(concat!(env!("CARGO_MANIFEST_DIR"), "/../../recorded"));
    fs::read_to_string(directory.join(file)).expect(file)
}

fn jobs_with_answers() -> Vec<(RecordedJob, String)> {
    let jobs = read_jobs(&recorded("jobs.txt"));
    let answers = read_answers(&recorded("answers.txt"));
    assert_eq!(jobs.len(), answers.len());
    jobs.into_iter()
        .zip(answers)
        .map(|(job, (name, answer))| {
            assert_eq!(job.name, name);
            (job, answer)
        })
        .collect()
}

/// The refusal that the catalogue, or the kind or length of a sheet record, gives.
fn refusal_of_reading(request: &Request) -> Option<Refusal> {
    if let Err(refusal) = before_reading(request) {
        return Some(refusal);
    }
    let mut reader = Reader::new(&request.job);
    if let Err(refusal) = read_catalogue(&mut reader) {
        return Some(refusal);
    }
    loop {
        let place = reader.place();
        if let Err(number) = reader.next_record()? {
            return Some(Refusal { number, place });
        }
    }
}

#[test]
fn reading_refuses_as_recorded() {
    for (job, answer) in jobs_with_answers() {
        match refusal_of_reading(&job.request) {
            Some(refusal) => assert_eq!(Answer::from(refusal).to_string(), answer, "{}", job.name),
            None => assert!(!refused_by_reading(&answer), "{}: {answer}", job.name),
        }
    }
}

fn refused_by_reading(answer: &str) -> bool {
    ["refused 1 ", "refused 2 ", "refused 3 ", "refused 6 ", "refused 7 "]
        .iter()
        .any(|start| answer.starts_with(start))
}

#[test]
fn every_refusal_is_recorded() {
    let jobs = jobs_with_answers();
    for number in 1..=11 {
        let start = format!("refused {number} ");
        assert!(jobs.iter().any(|(_, answer)| answer.starts_with(&start)), "{number}");
    }
}

#[test]
fn listings_print_back() {
    for (job, answer) in jobs_with_answers() {
        if !answer.starts_with("refused ") {
            let lines: String = lines(&answer).map(|line| format!("{line}\n")).collect();
            assert_eq!(lines, answer, "{}", job.name);
        }
    }
}

#[test]
fn names_are_single() {
    let mut names: Vec<_> = jobs_with_answers().into_iter().map(|(job, _)| job.name).collect();
    let count = names.len();
    names.sort();
    names.dedup();
    assert_eq!(names.len(), count);
}

#[test]
fn lines_come_back() {
    let list = recorded("jobs.txt");
    let lines = list.lines().filter(|line| !line.starts_with('#'));
    for (line, job) in lines.zip(read_jobs(&list)) {
        assert_eq!(job_line(&job), line);
    }
}
