//! The examples as texts: their stored listings tell the variables, so no encoder is needed.

use std::{fs, path::PathBuf};

use job::{
    listing::{Origin, origins},
    text::{self, Variables},
};

/// Variables keep their numbers, so the listing at the end of a job serves all of it.
struct Stored(Vec<Origin>);

impl Variables for Stored {
    fn origins(&mut self, _: &[u8]) -> Vec<Origin> {
        self.0.clone()
    }
}

#[test]
fn texts_come_back() {
    let directory = PathBuf::from(concat!(env!("CARGO_MANIFEST_DIR"), "/../../examples"));
    let mut examples = 0;
    for entry in fs::read_dir(directory).expect("examples") {
        let file = entry.expect("an entry").path();
        if file.extension().is_none_or(|extension| extension != "job") {
            continue;
        }
        examples += 1;
        let listing = fs::read(file.with_extension("listing")).expect("a listing");
        let mut stored = Stored(origins(&listing));
        let text = fs::read_to_string(&file).expect("a text");
        let job = text::read(&text, &mut stored).unwrap_or_else(|error| panic!("{error}"));
        let written = text::write(&job, &mut stored);
        assert_eq!(text::read(&written, &mut stored).as_ref(), Ok(&job), "{}", file.display());
        assert!(!written.contains("bytes") && !written.contains('#'), "{written}");
    }
    assert!(examples >= 11);
}
