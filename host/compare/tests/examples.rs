//! The examples: their texts give the bytes and the listings that stand beside them.

use std::fs;

use compare::paths;
use job::{
    answer::{Request, Side},
    text,
};
use oracle::Rust;

const WORDS: [&str; 9] = [
    "install",
    "requires",
    "excluded",
    "constrains",
    "forbid",
    "aux-out",
    "aux-owner",
    "lock",
    "any",
];

#[test]
fn texts_give_their_bytes_and_listings() {
    for file in paths::examples() {
        let text = fs::read_to_string(&file).expect("a text");
        let job = text::read(&text, &mut Rust).unwrap_or_else(|error| panic!("{error}"));
        assert_eq!(fs::read(file.with_extension("bytes")).expect("a job"), job);
        let listing = fs::read_to_string(file.with_extension("listing")).expect("a listing");
        let printed = Rust.answer(&Request::kitlist(job.clone())).to_string();
        assert_eq!(printed, listing, "{}", file.display());
        let written = text::write(&job, &mut Rust);
        assert_eq!(text::read(&written, &mut Rust), Ok(job), "{written}");
    }
}

#[test]
fn each_clause_word_has_an_example() {
    for word in WORDS {
        let file = paths::repository().join("examples").join(word).with_extension("listing");
        let listing = fs::read_to_string(file).expect(word);
        let has_word = |line: &str| line.starts_with("c ") && line.split(' ').nth(2) == Some(word);
        assert!(listing.lines().any(has_word), "{word}");
    }
}
