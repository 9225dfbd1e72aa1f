//! `check random SEED COUNT` sets the proved `check` beside the host's own reading, on the edges, on
//! every limit at 0, 1, its ceiling and one more, and on so many generated jobs; `check slow` times
//! it on jobs made to be slow.

use std::time::{Duration, Instant};

use beside::{
    areas::Areas,
    checking::{self, Outcome},
    slow,
};
use compare::random::Random;
use job::{answer::Request, limits::Limits};
use kit::lent::{self, needed};

const USAGE: &str = "usage: check random SEED COUNT | check slow";

/// No job may take longer.
const LONGEST: Duration = Duration::from_millis(20);

fn main() {
    let arguments: Vec<String> = std::env::args().skip(1).collect();
    let words: Vec<&str> = arguments.iter().map(String::as_str).collect();
    match words[..] {
        ["random", seed, count] => random(number(seed), number(count)),
        ["slow"] => slow_jobs(),
        _ => panic!("{USAGE}"),
    }
}

fn number<N: std::str::FromStr>(word: &str) -> N {
    word.parse().unwrap_or_else(|_| panic!("{USAGE}"))
}

fn random(seed: u64, count: usize) {
    let mut outcome = Outcome::default();
    for request in checking::edges() {
        let exact = needed(&request.limits);
        outcome.compare(&request, exact, 0xFF);
        outcome.compare(&request, exact.map(|length| length + 1), 1);
        for at in 0..6 {
            let mut short = exact;
            short[at] -= 1;
            outcome.compare(&request, short, 0x80);
        }
    }
    for limits in checking::all_limits() {
        let request = Request { limits, ..Request::kitlist(vec![1, 0]) };
        outcome.compare(&request, needed(&limits), 0xFF);
    }
    let mut random = Random::new(seed, u64::MAX);
    for request in (0..).flat_map(|step| checking::step(seed, step)).take(count) {
        outcome.compare_in_some_areas(&request, &mut random);
    }
    let Outcome { compared, numbers, slowest } = outcome;
    assert!(numbers.iter().all(|&count| count > 0), "a refusal was never met: {numbers:?}");
    println!("{compared} checked, 0 different; by number {numbers:?}; slowest {slowest:?}");
}

fn slow_jobs() {
    for (what, job) in slow::jobs() {
        let times = (0..20).map(|_| {
            let mut areas = Areas::new(needed(&Limits::CEILINGS), 1);
            let start = Instant::now();
            let answer = lent::check(&job, &Limits::CEILINGS, areas.lent());
            let time = start.elapsed();
            assert_eq!(answer.number, 0, "{what} is accepted");
            time
        });
        let longest = times.max().expect("twenty times");
        println!("{what}: {} bytes, {longest:?}", job.len());
        assert!(longest < LONGEST, "{what} takes {longest:?}");
    }
}
