//! The proved library set beside the Rust and beside the host's own reading.

pub mod areas;
pub mod checking;
pub mod jobs;
pub mod measure;
pub mod search;
pub mod side;
pub mod slow;
