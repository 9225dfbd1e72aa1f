//! Jobs as document 01 describes them: records, catalogue, refusals, limits, the readable form and
//! the recorded list. Nothing here encodes; that is what the sides of a comparison do.

pub mod answer;
pub mod catalogue;
pub mod limits;
pub mod listing;
pub mod reader;
pub mod record;
pub mod recorded;
pub mod text;
