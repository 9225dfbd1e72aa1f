//! `search slow SEED STEPS` looks for slow jobs: it changes those of the bench so many times, says of the
//! slowest how long they take now, in nanoseconds, and writes the slowest of all to the file
//! `found.bytes`. `search behind SEED STEPS` looks for jobs on which we are behind the Rust, and says how
//! many times as long we take.

use beside::search::{Search, Sought};

const USAGE: &str = "usage: search slow|behind SEED STEPS";

/// So many are said.
const SAID: usize = 8;

fn main() {
    let words: Vec<String> = std::env::args().skip(1).collect();
    let [sought, seed, steps] = &words[..] else { panic!("{USAGE}") };
    let sought = match sought.as_str() {
        "slow" => Sought::Slow,
        "behind" => Sought::Behind,
        _ => panic!("{USAGE}"),
    };
    let mut search = Search::new(sought, seed.parse().expect(USAGE));
    say(&search);
    let steps: usize = steps.parse().expect(USAGE);
    (0..steps).for_each(|_| search.step());
    println!("after {steps} steps:");
    say(&search);
    std::fs::write("found.bytes", search.found[0].records.concat())
        .expect("a file can be written here");
}

fn say(search: &Search) {
    for found in search.found.iter().take(SAID) {
        let bytes: usize = found.records.iter().map(Vec::len).sum();
        println!("{:.2} {bytes} bytes, of {}", found.weight, found.name);
    }
}
