//! Jobs whose answers document 01 or the papers beside it give in full.

use job::{
    answer::{Request, Side},
    recorded::bytes_of_hex,
};
use oracle::Rust;

fn printed(hex: &str) -> String {
    let job = bytes_of_hex(&hex.replace(' ', "")).expect("hexadecimal");
    Rust.answer(&Request::kitlist(job)).to_string()
}

#[test]
fn empty_job() {
    assert_eq!(printed(""), "v 0 root\nc 0 install +0\n");
}

#[test]
fn worked_job() {
    let job = "0100 0200000000000000 0200000000000000 030000 0400000000 0400000100
        09ffff000000ffff 20ffff 220100";
    let listing = "\
v 0 root
v 1 part 0
v 2 part 1
v 3 forbid 0
c 0 install +0
c 1 requires -0 +1 +2
c 2 forbid -1 -3
c 3 forbid -2 +3
o root
p 0
";
    assert_eq!(printed(&job.split_whitespace().collect::<String>()), listing);
}

/// The reference panics here; see docs/DIFFERENCES.md.
#[test]
fn undo_that_takes_back_every_decision() {
    assert_eq!(printed("230000010200 240100"), "v 0 root\nc 0 install +0\n");
}

#[test]
fn an_opened_unknown_part_is_excluded_though_its_name_is_not_opened() {
    let listing = "v 0 root\nv 1 part 0\nc 0 install +0\nc 1 excluded 3 -1\no 0\nn 1 1\n";
    assert_eq!(printed("0100 0200000203000400 200000 220100"), listing);
}
