//! The proved functions come from the static library that `rt lib` makes in crates/kit_c.

fn main() {
    let directory = concat!(env!("CARGO_MANIFEST_DIR"), "/../../crates/kit_c/out");
    println!("cargo:rustc-link-search=native={directory}");
    println!("cargo:rustc-link-lib=static=kit_c");
    println!("cargo:rerun-if-changed={directory}/libkit_c.a");
}
