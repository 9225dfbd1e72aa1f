//! The reference is resolvo's 17 files, whole: each has its sum, to which the build holds it.

use std::{fs, path::Path};

use compare::paths;

fn files_below(directory: &Path, found: &mut Vec<String>, root: &Path) {
    for entry in fs::read_dir(directory).expect("a directory") {
        let path = entry.expect("an entry").path();
        if path.is_dir() {
            files_below(&path, found, root);
        } else if path.extension().is_some_and(|extension| extension == "rs") {
            found.push(path.strip_prefix(root).expect("below").display().to_string());
        }
    }
}

/// The files that have a sum, in order.
fn summed() -> Vec<String> {
    let sums = paths::repository().join("host/reference/files.sha256");
    let sums = fs::read_to_string(sums).expect("the sums");
    sums.lines().filter_map(|line| line.split_whitespace().nth(1)).map(str::to_string).collect()
}

#[test]
fn every_file_with_a_sum_is_a_file_here() {
    let files = summed();
    assert_eq!(files.len(), 17);
    for file in files {
        let data = paths::repository().join("host/reference").join(&file).symlink_metadata();
        assert!(data.expect("a file").is_file(), "{file}");
    }
}

/// Where the files that were copied still stand beside the repository, these are all of them, unchanged.
#[test]
fn the_copies_are_what_was_copied() {
    let root = paths::repository().join("../shared/docs/src");
    if !root.is_dir() {
        return;
    }
    let mut files = Vec::new();
    files_below(&root, &mut files, &root);
    files.sort();
    assert_eq!(summed(), files);
    for file in files {
        let copy = paths::repository().join("host/reference").join(&file);
        assert!(
            fs::read(copy).expect("a copy") == fs::read(root.join(&file)).expect("a file"),
            "{file}"
        );
    }
}
