//! Refuses to build the reference from files other than those whose sums are recorded.

use std::process::Command;

const SUMS: &str = "files.sha256";

fn main() {
    println!("cargo:rerun-if-changed={SUMS}");
    let sums = std::fs::read_to_string(SUMS).expect(SUMS);
    for file in sums.lines().filter_map(|line| line.split_whitespace().nth(1)) {
        println!("cargo:rerun-if-changed={file}");
    }
    let checked = Command::new("sha256sum")
        .args(["--check", "--strict", "--quiet", SUMS])
        .status()
        .expect("sha256sum runs");
    assert!(checked.success(), "the reference is not the one whose sums stand in {SUMS}");
}
