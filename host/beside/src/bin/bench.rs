//! `bench` sets the proved library beside the Rust, job by job: time, the best of several rounds, and
//! instructions, counted by callgrind where valgrind is installed; then how long the areas take to
//! clear, and families of jobs of rising size. Both sides must give the same answer. `bench times`,
//! `bench clearing` and `bench growth` are parts of it. `bench time SIDE JOB` measures one job on one
//! side (`ours`, `rust`, `unlisted`), `bench once SIDE JOB` runs it once; JOB may also be a file.

use std::time::Duration;

use beside::{
    jobs::{self, Job},
    measure::{self, Found, Side, instructions, measure, time},
};
use job::answer::Request;
use kit::Limits;

const USAGE: &str = "usage: bench [times | clearing | growth | time SIDE JOB | once SIDE JOB]";

/// Instructions are counted where a call takes no longer: under callgrind it takes some fifty times
/// as long.
const COUNTED: Duration = Duration::from_millis(600);

fn main() {
    let arguments: Vec<String> = std::env::args().skip(1).collect();
    let words: Vec<&str> = arguments.iter().map(String::as_str).collect();
    match words[..] {
        [] => {
            table(true);
            println!();
            clearing();
            println!();
            growth();
        }
        ["times"] => table(false),
        ["clearing"] => clearing(),
        ["growth"] => growth(),
        ["time" | "once", side, name] => {
            let side = Side::of_word(side).expect(USAGE);
            println!("{}", measure(side, &named(name).request, words[0] == "once"));
        }
        _ => panic!("{USAGE}"),
    }
}

/// A job of the bench by its name, or the bytes of a file.
fn named(name: &str) -> Job {
    if let Ok(job) = std::fs::read(name) {
        let request = Request { job, limits: Limits::CEILINGS, listing_area: jobs::LISTING };
        return Job { name: name.to_owned(), request };
    }
    let growing = jobs::growing().into_iter().flat_map(|(_, jobs)| jobs);
    jobs::all().into_iter().chain(growing).find(|job| job.name == name).expect("a job's name")
}

/// A line for each job.
fn table(counting: bool) {
    row(&[
        "job",
        "bytes",
        "listing",
        "ours",
        "Rust",
        "ratio",
        "unlisted",
        "ours, instr.",
        "Rust",
        "ratio",
    ]);
    row(&["---"; 10]);
    for job in jobs::all() {
        let [ours, rust, unlisted] =
            [Side::Ours, Side::Rust, Side::Unlisted].map(|side| time(side, &job));
        same(&job, ours, rust);
        let counts = [(Side::Ours, ours), (Side::Rust, rust)].map(|(side, found)| {
            let short = found.is_some_and(|found| found.best <= COUNTED);
            if counting && short { instructions(side, &job) } else { None }
        });
        let [our_count, rust_count] = counts.map(|count| count.map(|count| count as f64));
        row(&[
            &job.name,
            &job.request.job.len().to_string(),
            &listing(ours.or(rust)),
            &told(ours),
            &told(rust),
            &ratio(ours.map(nanoseconds), rust.map(nanoseconds)),
            &told(unlisted),
            &millions(our_count),
            &millions(rust_count),
            &ratio(our_count, rust_count),
        ]);
    }
}

/// What every call has to do: its areas are cleared once.
fn clearing() {
    row(&["limits", "bytes of areas", "cleared in"]);
    row(&["---"; 3]);
    let named = [
        ("kitlist", Limits::KITLIST),
        ("a branch's", Limits::BRANCH),
        ("the ceilings", Limits::CEILINGS),
    ];
    for (name, limits) in named {
        let (bytes, best) = measure::clearing(&limits);
        row(&[name, &bytes.to_string(), &time_of(best.as_nanos() as f64)]);
    }
}

/// Families of rising size, with the time for each byte of job and listing.
fn growth() {
    row(&["job", "bytes", "listing", "ours", "ours, a byte", "Rust", "ratio"]);
    row(&["---"; 7]);
    for job in jobs::growing().into_iter().flat_map(|(_, jobs)| jobs) {
        let [ours, rust] = [Side::Ours, Side::Rust].map(|side| time(side, &job));
        same(&job, ours, rust);
        let bytes = |found: Found| (job.request.job.len() + found.listing) as f64;
        let a_byte = ours.map(|found| format!("{:.1} ns", nanoseconds(found) / bytes(found)));
        row(&[
            &job.name,
            &job.request.job.len().to_string(),
            &listing(ours.or(rust)),
            &told(ours),
            &a_byte.unwrap_or_default(),
            &told(rust),
            &ratio(ours.map(nanoseconds), rust.map(nanoseconds)),
        ]);
    }
}

/// # Panics
/// Where the two answers differ.
fn same(job: &Job, ours: Option<Found>, rust: Option<Found>) {
    if let (Some(ours), Some(rust)) = (ours, rust) {
        assert_eq!(ours.answer, rust.answer, "the answers to {} differ", job.name);
    }
}

fn row(fields: &[&str]) {
    println!("| {} |", fields.join(" | "));
}

fn listing(found: Option<Found>) -> String {
    found.map_or(String::new(), |found| match found.listing {
        0 => "refused".to_string(),
        length => length.to_string(),
    })
}

fn nanoseconds(found: Found) -> f64 {
    found.best.as_nanos() as f64
}

/// A time with three digits.
fn told(found: Option<Found>) -> String {
    found.map_or("given up".to_string(), |found| time_of(nanoseconds(found)))
}

fn time_of(nanoseconds: f64) -> String {
    match nanoseconds {
        time if time < 1e6 => format!("{} µs", digits(time / 1e3)),
        time if time < 1e9 => format!("{} ms", digits(time / 1e6)),
        time => format!("{} s", digits(time / 1e9)),
    }
}

fn millions(count: Option<f64>) -> String {
    count.map_or("-".to_string(), |count| format!("{} M", digits(count / 1e6)))
}

fn ratio(ours: Option<f64>, rust: Option<f64>) -> String {
    ours.zip(rust).map_or("-".to_string(), |(ours, rust)| digits(ours / rust))
}

fn digits(number: f64) -> String {
    match number {
        number if number < 10.0 => format!("{number:.2}"),
        number if number < 100.0 => format!("{number:.1}"),
        number => format!("{number:.0}"),
    }
}
