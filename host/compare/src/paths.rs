//! Where things stand, seen from the repository.

use std::{fs, path::PathBuf};

pub fn repository() -> PathBuf {
    let root = concat!(env!("CARGO_MANIFEST_DIR"), "/../..");
    PathBuf::from(root).canonicalize().expect("the repository")
}

/// The model's directory, beside the repository.
pub fn model() -> PathBuf {
    repository().join("../shared/model")
}

/// The program that replays recorded jobs.
pub fn replay() -> PathBuf {
    repository().join("crates/replay")
}

/// The texts of the examples.
pub fn examples() -> Vec<PathBuf> {
    let directory = fs::read_dir(repository().join("examples")).expect("examples");
    let files = directory.map(|entry| entry.expect("an entry").path());
    files.filter(|file| file.extension().is_some_and(|extension| extension == "job")).collect()
}
