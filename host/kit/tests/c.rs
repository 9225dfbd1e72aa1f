//! A C program with the header, linked with the library: it prints what `kitlist` prints.

mod common;

use std::{
    io::Write,
    path::{Path, PathBuf},
    process::{Command, Stdio},
};

use common::known;
use job::answer::Request;

fn compiled() -> PathBuf {
    let crate_directory = Path::new(env!("CARGO_MANIFEST_DIR"));
    let program = Path::new(env!("CARGO_TARGET_TMPDIR")).join("kitlist");
    let compiler = Command::new("cc")
        .args(["-std=c11", "-Wall", "-Wextra", "-Wpedantic", "-Werror", "-O1", "-I"])
        .arg(crate_directory)
        .arg(crate_directory.join("tests/c/kitlist.c"))
        .arg(crate_directory.join("../../crates/kit_c/out/libkit_c.a"))
        .arg("-o")
        .arg(&program)
        .status()
        .expect("cc runs");
    assert!(compiler.success());
    program
}

fn printed(program: &Path, job: &[u8]) -> String {
    let mut child = Command::new(program)
        .stdin(Stdio::piped())
        .stdout(Stdio::piped())
        .spawn()
        .expect("the program runs");
    child.stdin.take().expect("its input").write_all(job).expect("the job is read");
    let output = child.wait_with_output().expect("its output");
    assert!(output.status.success(), "{}", output.status);
    String::from_utf8(output.stdout).expect("text")
}

#[test]
fn a_c_program_prints_the_listings() {
    let program = compiled();
    let mut jobs = 0;
    for known in known() {
        if known.request == Request::kitlist(known.request.job.clone()) {
            assert_eq!(printed(&program, &known.request.job), known.printed, "{}", known.name);
            jobs += 1;
        }
    }
    assert!(jobs > 200, "{jobs}");
}
