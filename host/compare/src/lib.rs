//! The Rust set beside another side, job by job: where jobs come from, and what is done with a
//! difference.

pub mod comparison;
pub mod generate;
pub mod model;
pub mod paths;
pub mod random;
pub mod recording;
pub mod shrink;

/// The names of the misreadings of host/model/misreadings.py.
pub fn misreadings() -> Vec<String> {
    let file = paths::repository().join("host/model/misreadings.py");
    let text = std::fs::read_to_string(file).expect("the misreadings");
    let names = text.lines().filter_map(|line| line.strip_prefix("def ")?.strip_suffix("(model):"));
    names.map(str::to_string).collect()
}
