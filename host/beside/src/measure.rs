//! One job on one side, in a process of its own: so it can be given up, or run under callgrind.

use std::{
    env, fmt,
    hash::{DefaultHasher, Hash, Hasher},
    hint::black_box,
    io::{self, Read},
    process::{Child, Command, Stdio},
    thread,
    time::{Duration, Instant},
};

use job::answer::{Answer, Refusal, Request, Side as _};
use kit::{Kit, Limits, Listing, lent};
use oracle::Rust;

use crate::jobs::Job;

/// A round calls a short job so often that it takes about so long: asking the clock takes time too.
const ROUND: Duration = Duration::from_micros(200);
/// A job is run again until its rounds have taken so long,
const ENOUGH: Duration = Duration::from_millis(500);
/// and at least so many times,
const FEWEST: usize = 3;
/// unless they have taken so long.
const TOO_LONG: Duration = Duration::from_secs(2);
/// A round clears the areas so many times.
const CLEARED: u32 = 20;
/// A process that takes longer is given up.
const GIVEN_UP: Duration = Duration::from_secs(90);

/// Callgrind counts an instruction that repeats itself once for each byte; so clearing and copying are
/// to do without it.
const NO_REPEATS: &str =
    "glibc.cpu.x86_rep_stosb_threshold=1000000000:glibc.cpu.x86_rep_movsb_threshold=1000000000";

/// What is measured.
#[derive(Clone, Copy, Debug, PartialEq, Eq)]
pub enum Side {
    /// The library through the crate `kit`, which keeps its areas.
    Ours,
    /// The reference with the reading, the sheet and the listing of `oracle`.
    Rust,
    /// The same without the listing.
    Unlisted,
}

impl Side {
    pub fn of_word(word: &str) -> Option<Side> {
        [Side::Ours, Side::Rust, Side::Unlisted].into_iter().find(|side| side.to_string() == word)
    }
}

impl fmt::Display for Side {
    fn fmt(&self, f: &mut fmt::Formatter<'_>) -> fmt::Result {
        f.write_str(match self {
            Side::Ours => "ours",
            Side::Rust => "rust",
            Side::Unlisted => "unlisted",
        })
    }
}

/// What a process found: the best time, the listing's length, a sum of the answer.
#[derive(Clone, Copy, Debug)]
pub struct Found {
    pub best: Duration,
    pub listing: usize,
    pub answer: u64,
}

impl fmt::Display for Found {
    fn fmt(&self, f: &mut fmt::Formatter<'_>) -> fmt::Result {
        write!(f, "{} {} {}", self.best.as_nanos(), self.listing, self.answer)
    }
}

impl Found {
    fn read(line: &str) -> Option<Found> {
        let mut numbers = line.split_whitespace().map(|word| word.parse::<u64>().ok());
        let best = Duration::from_nanos(numbers.next()??);
        Some(Found { best, listing: numbers.next()?? as usize, answer: numbers.next()?? })
    }
}

/// How long a call takes by the clock on the wall, and what it gives. The processor time of a thread is
/// told too small now and then, where processors are shared; the best of many rounds does without it.
pub fn timed<T>(call: impl FnOnce() -> T) -> (Duration, T) {
    let start = Instant::now();
    let given = call();
    (start.elapsed(), given)
}

// ---- in the process

enum Given {
    Ours(Result<Listing, Refusal>),
    Rust(Answer),
    Unlisted(Result<(), Refusal>),
}

/// Runs the job once, or until the best time is likely to be found. The areas are there before.
pub fn measure(side: Side, request: &Request, once: bool) -> Found {
    let mut kit = Kit::with_listing_area(request.listing_area);
    kit.check(&[], &request.limits).expect("the limits are allowed");
    let (mut best, given) = timed(|| measured(side, &mut kit, request));
    let (listing, answer) = told(given);
    let calls = 1 + (ROUND.as_nanos() / (1 + best.as_nanos())) as u32;
    let (mut round, mut total) = (1, best);
    while !once && total < TOO_LONG && (total < ENOUGH || round < FEWEST) {
        let mut again = || drop(black_box(measured(side, &mut kit, request)));
        let (time, ()) = timed(|| (0..calls).for_each(|_| again()));
        best = best.min(time / calls);
        (round, total) = (round + 1, total + time);
    }
    Found { best, listing, answer }
}

/// The call that callgrind counts, by this name.
#[inline(never)]
#[unsafe(no_mangle)]
fn measured(side: Side, kit: &mut Kit, request: &Request) -> Given {
    match side {
        Side::Ours => Given::Ours(kit.run(&request.job, &request.limits)),
        Side::Rust => Given::Rust(Rust.answer(request)),
        Side::Unlisted => Given::Unlisted(oracle::carried_out(request).map(drop)),
    }
}

/// The areas' bytes at these limits, and the best time in which the C library clears them once: no call
/// can take less.
pub fn clearing(limits: &Limits) -> (usize, Duration) {
    let mut areas = lent::needed(limits).map(|length| vec![0u8; length]);
    let mut clear = || areas.iter_mut().for_each(|area| black_box(area).fill(0));
    let (mut best, mut total) = (Duration::MAX, Duration::ZERO);
    while total < ENOUGH {
        let (time, ()) = timed(|| (0..CLEARED).for_each(|_| clear()));
        best = best.min(time / CLEARED);
        total += time;
    }
    (areas.iter().map(Vec::len).sum(), best)
}

/// The listing's length and a sum of the answer.
fn told(given: Given) -> (usize, u64) {
    let answer = match given {
        Given::Ours(Ok(listing)) => Answer::Accepted {
            variables: listing.variable_count(),
            clauses: listing.clause_count(),
            listing: listing.as_str().into(),
        },
        Given::Rust(answer) => answer,
        Given::Ours(Err(refusal)) | Given::Unlisted(Err(refusal)) => refusal.into(),
        Given::Unlisted(Ok(())) => return (0, 0),
    };
    let mut hasher = DefaultHasher::new();
    let length = match answer {
        Answer::Accepted { variables, clauses, listing } => {
            (variables, clauses, &listing).hash(&mut hasher);
            listing.len()
        }
        Answer::Refused(Refusal { number, place }) => {
            (number, place).hash(&mut hasher);
            0
        }
    };
    (length, hasher.finish())
}

// ---- from outside

/// The times of a job, or `None` if it was given up.
pub fn time(side: Side, job: &Job) -> Option<Found> {
    let program = Command::new(env::current_exe().expect("this program"));
    let (output, _) = outputs(program, &["time"], side, job)?;
    Some(Found::read(&output).unwrap_or_else(|| panic!("{}: {output}", job.name)))
}

/// How many instructions a call takes, by callgrind; `None` without valgrind, or if it was given up.
pub fn instructions(side: Side, job: &Job) -> Option<u64> {
    let program = env::current_exe().expect("this program");
    let mut valgrind = Command::new("valgrind");
    valgrind.args([
        "--tool=callgrind",
        "--callgrind-out-file=/dev/null",
        "--toggle-collect=measured",
    ]);
    valgrind.arg(program).env("GLIBC_TUNABLES", NO_REPEATS);
    let (_, notes) = outputs(valgrind, &["once"], side, job)?;
    let counted = notes.lines().find_map(|line| line.split_once("Collected : "))?;
    counted.1.trim().parse().ok()
}

fn outputs(
    mut command: Command,
    words: &[&str],
    side: Side,
    job: &Job,
) -> Option<(String, String)> {
    let child = command
        .args(words)
        .args([&side.to_string(), &job.name])
        .stdout(Stdio::piped())
        .stderr(Stdio::piped())
        .spawn();
    let mut child = match child {
        Err(error) if error.kind() == io::ErrorKind::NotFound => return None,
        child => child.expect("a process"),
    };
    if !ended(&mut child) {
        return None;
    }
    let (mut output, mut notes) = (String::new(), String::new());
    child.stdout.take()?.read_to_string(&mut output).expect("text");
    child.stderr.take()?.read_to_string(&mut notes).expect("text");
    Some((output, notes))
}

/// Whether the process ends in time; otherwise it is ended.
fn ended(child: &mut Child) -> bool {
    let start = Instant::now();
    while start.elapsed() < GIVEN_UP {
        if let Some(status) = child.try_wait().expect("a process") {
            assert!(status.success(), "{status}");
            return true;
        }
        thread::sleep(Duration::from_millis(5));
    }
    child.kill().expect("a process of ours");
    child.wait().expect("a process of ours");
    false
}
