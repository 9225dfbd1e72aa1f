//! Stand-in: the modules that the reference keeps to itself.

pub(crate) mod arena;
pub(crate) mod id;
pub(crate) mod solver_id;
