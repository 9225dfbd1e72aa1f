//! The list of recorded jobs: each a line with its name, its limits, the length of its listing area
//! and its records in hexadecimal; and the answers, each under its job's name.

use std::fmt::Write;

use crate::{
    answer::{Answer, Request},
    limits::Limits,
    reader::Reader,
};

pub struct RecordedJob {
    pub name: String,
    pub request: Request,
}

/// The job's line: equal records that follow one another are written once, with their number.
pub fn job_line(job: &RecordedJob) -> String {
    let [variables, clauses, condition_literals, waiting] = job.request.limits.to_array();
    let area = job.request.listing_area;
    let mut line =
        format!("{} {variables} {clauses} {condition_literals} {waiting} {area}", job.name);
    for (piece, times) in repeats(pieces(&job.request.job)) {
        let _ = write!(line, " {}", hex(piece));
        if times > 1 {
            let _ = write!(line, "*{times}");
        }
    }
    line
}

/// The jobs of a list; lines that begin with `#` are comments.
pub fn read_jobs(list: &str) -> Vec<RecordedJob> {
    let lines = list.lines().filter(|line| !line.starts_with('#'));
    lines.map(|line| read_job(line).unwrap_or_else(|| panic!("a job's line: {line}"))).collect()
}

fn read_job(line: &str) -> Option<RecordedJob> {
    let mut words = line.split(' ');
    let name = words.next()?.to_string();
    let mut number = || words.next()?.parse().ok();
    let limits = Limits::from_array([number()?, number()?, number()?, number()?]);
    let listing_area = number()? as usize;
    let mut job = Vec::new();
    for word in words {
        let (piece, times) = word.split_once('*').unwrap_or((word, "1"));
        job.extend(bytes_of_hex(piece)?.repeat(times.parse().ok()?));
    }
    Some(RecordedJob { name, request: Request { job, limits, listing_area } })
}

/// The answers in the order of the jobs: a line `= NAME`, then what `kitlist` would print.
pub fn answers_text<'a>(
    answers: impl IntoIterator<Item = (&'a RecordedJob, &'a Answer)>,
) -> String {
    let entries = answers.into_iter();
    entries.map(|(job, answer)| format!("= {}\n{answer}", job.name)).collect()
}

/// Names and answers; a listing has no line that begins with `=`.
pub fn read_answers(text: &str) -> Vec<(String, String)> {
    let mut answers: Vec<(String, String)> = Vec::new();
    for line in text.lines() {
        match (line.strip_prefix("= "), answers.last_mut()) {
            (Some(name), _) => answers.push((name.to_string(), String::new())),
            (None, Some((_, answer))) => *answer += &format!("{line}\n"),
            (None, None) => panic!("the answers begin with a job's name"),
        }
    }
    answers
}

/// The records of a job, and what is no record at its end, byte by byte.
fn pieces(job: &[u8]) -> Vec<&[u8]> {
    let mut reader = Reader::new(job);
    let mut pieces = Vec::new();
    loop {
        let place = reader.place();
        match reader.next_record() {
            Some(Ok(_)) => pieces.push(&job[place..reader.place()]),
            Some(Err(_)) => {
                pieces.extend(job[place..].chunks(1));
                return pieces;
            }
            None => return pieces,
        }
    }
}

fn repeats<'a>(pieces: Vec<&'a [u8]>) -> Vec<(&'a [u8], usize)> {
    let mut counted: Vec<(&[u8], usize)> = Vec::new();
    for piece in pieces {
        match counted.last_mut() {
            Some((last, times)) if *last == piece => *times += 1,
            _ => counted.push((piece, 1)),
        }
    }
    counted
}

pub fn hex(bytes: &[u8]) -> String {
    bytes.iter().map(|byte| format!("{byte:02x}")).collect()
}

pub fn bytes_of_hex(hex: &str) -> Option<Vec<u8>> {
    if !hex.bytes().all(|digit| digit.is_ascii_hexdigit()) || hex.len() % 2 == 1 {
        return None;
    }
    let pair = |at: usize| u8::from_str_radix(&hex[at..at + 2], 16).ok();
    (0..hex.len()).step_by(2).map(pair).collect()
}
