//! Makes recorded/jobs.txt, recorded/answers.txt, what `replay` reads and prints, and the bytes and
//! listings of the examples again, with the Rust's answers.

use std::fs;

use compare::{paths, recording};
use job::{
    answer::{Request, Side},
    recorded::{answers_text, job_line},
    text,
};
use oracle::Rust;

const HEADING: &str = "\
# Recorded jobs, made by `make record`. A line: name, the four limits, the length of the listing
# area, then the records in hexadecimal; hex*n is n times the same.
";

fn main() {
    record_jobs();
    record_examples();
}

fn record_jobs() {
    let jobs = recording::jobs();
    let requests: Vec<Request> = jobs.iter().map(|job| job.request.clone()).collect();
    let answers = Rust.answers(&requests);
    let directory = paths::repository().join("recorded");
    let lines: String = jobs.iter().map(|job| job_line(job) + "\n").collect();
    fs::write(directory.join("jobs.txt"), HEADING.to_string() + &lines).expect("jobs.txt");
    fs::write(directory.join("answers.txt"), answers_text(jobs.iter().zip(&answers)))
        .expect("answers.txt");
    let (input, output) = recording::replay(jobs.iter().zip(&answers));
    fs::write(paths::replay().join("stdin"), input).expect("stdin");
    fs::write(paths::replay().join("stdout"), output).expect("stdout");
    println!("{} jobs recorded", jobs.len());
}

fn record_examples() {
    for file in paths::examples() {
        let text = fs::read_to_string(&file).expect("a text");
        let job = text::read(&text, &mut Rust)
            .unwrap_or_else(|error| panic!("{}, {error}", file.display()));
        fs::write(file.with_extension("bytes"), &job).expect("a job");
        let listing = Rust.answer(&Request::kitlist(job)).to_string();
        fs::write(file.with_extension("listing"), listing).expect("a listing");
    }
}
