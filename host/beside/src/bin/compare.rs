//! `compare SIDE random SEED COUNT` sets a side beside the Rust on generated jobs; `compare SIDE short
//! LENGTH`, on all jobs of up to so many records of a small stock; `compare SIDE sheets LENGTH`, on all
//! sheets of up to so many records for one catalogue; `compare SIDE bytes LENGTH`, on all jobs of up
//! to so many bytes; `compare SIDE changed SEED COUNT`, on changed jobs of long sheets. SIDE is `kit`,
//! `model`, or a misreading of the model.

use std::process::ExitCode;

use beside::{search, side::Kit};
use compare::{
    comparison::{compare, smallest},
    generate::{self, short},
    model::{self, Model},
};
use job::answer::{Request, Side};

const USAGE: &str =
    "usage: compare kit|model|MISREADING (random|changed SEED COUNT | short|sheets|bytes LENGTH)";

fn main() -> ExitCode {
    let arguments: Vec<String> = std::env::args().skip(1).collect();
    let words: Vec<&str> = arguments.iter().map(String::as_str).collect();
    match words[..] {
        [side, "random", seed, count] => run(side, generate::varied(number(seed), number(count))),
        [side, "changed", seed, count] => run(side, search::changed(number(seed), number(count))),
        [side, "short", length] => run(side, short::all(number(length))),
        [side, "sheets", length] => run(side, short::all_sheets(number(length))),
        [side, "bytes", length] => run(side, short::all_bytes(number(length))),
        _ => panic!("{USAGE}"),
    }
}

fn number<N: std::str::FromStr>(word: &str) -> N {
    word.parse().unwrap_or_else(|_| panic!("{USAGE}"))
}

fn side(word: &str) -> Box<dyn Side> {
    match word {
        "kit" => Box::new(Kit::default()),
        "model" => Box::new(Model::new()),
        misreading => Box::new(Model::misreading(misreading)),
    }
}

fn run(word: &str, requests: impl Iterator<Item = Request>) -> ExitCode {
    if word != "kit" && !model::is_there() {
        return ExitCode::SUCCESS;
    }
    let mut ours = side(word);
    let outcome = compare(&mut *ours, requests);
    let compared = outcome.compared;
    let Some(difference) = outcome.difference else {
        println!("{compared} compared, 0 different");
        return ExitCode::SUCCESS;
    };
    print!("{}", smallest(&mut *ours, difference));
    println!("{compared} compared, 1 different");
    ExitCode::FAILURE
}
