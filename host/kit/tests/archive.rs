//! What the static library needs from outside: `kit.h` promises that it is `memcpy` and `memset` and
//! nothing else.

use std::{path::PathBuf, process::Command};

#[test]
fn needs_memcpy_and_memset_alone() {
    let library =
        PathBuf::from(env!("CARGO_MANIFEST_DIR")).join("../../crates/kit_c/out/libkit_c.a");
    let output = Command::new("nm").arg("-u").arg(&library).output().expect("nm");
    assert!(output.status.success(), "{}", String::from_utf8_lossy(&output.stderr));
    let told = String::from_utf8(output.stdout).expect("text");
    let needed: Vec<&str> =
        told.lines().filter_map(|line| line.trim().strip_prefix("U ")).collect();
    assert!(!told.trim().is_empty(), "nm told nothing");
    let others: Vec<&&str> =
        needed.iter().filter(|name| !["memcpy", "memset"].contains(name)).collect();
    assert!(others.is_empty(), "{others:?}");
}
