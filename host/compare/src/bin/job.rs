//! The readable form of jobs (docs/JOBS.md).
//!
//! `job bytes TEXT` and `job hex TEXT` print the job of a text file; `job text JOB`, the text of a
//! job file; `job listing TEXT`, what the Rust answers to a text file; `job show HEX`, text and
//! answer of a job given in hexadecimal.

use std::{io::Write, process::ExitCode};

use job::{
    answer::{Request, Side},
    recorded::{bytes_of_hex, hex},
    text,
};
use oracle::Rust;

fn main() -> ExitCode {
    let arguments: Vec<String> = std::env::args().skip(1).collect();
    let words: Vec<&str> = arguments.iter().map(String::as_str).collect();
    match output(&words) {
        Ok(bytes) => {
            std::io::stdout().write_all(&bytes).expect("standard output is open");
            ExitCode::SUCCESS
        }
        Err(message) => {
            eprintln!("{message}");
            ExitCode::FAILURE
        }
    }
}

fn output(words: &[&str]) -> Result<Vec<u8>, String> {
    match *words {
        ["bytes", file] => job_of_text(file),
        ["hex", file] => Ok((hex(&job_of_text(file)?) + "\n").into_bytes()),
        ["text", file] => Ok(text::write(&contents(file)?, &mut Rust).into_bytes()),
        ["listing", file] => Ok(listing(job_of_text(file)?).into_bytes()),
        ["show", digits] => {
            let job = bytes_of_hex(digits).ok_or("that is not hexadecimal")?;
            Ok((text::write(&job, &mut Rust) + "\n" + &listing(job)).into_bytes())
        }
        _ => {
            Err("usage: job bytes|hex|listing TEXT-FILE | job text JOB-FILE | job show HEX".into())
        }
    }
}

fn contents(file: &str) -> Result<Vec<u8>, String> {
    std::fs::read(file).map_err(|error| format!("{file}: {error}"))
}

fn job_of_text(file: &str) -> Result<Vec<u8>, String> {
    let text = String::from_utf8(contents(file)?).map_err(|_| format!("{file} is not text"))?;
    text::read(&text, &mut Rust).map_err(|error| format!("{file}, {error}"))
}

fn listing(job: Vec<u8>) -> String {
    Rust.answer(&Request::kitlist(job)).to_string()
}
