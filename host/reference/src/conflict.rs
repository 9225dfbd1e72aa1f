//! Stand-in: what the search hands back when there is no solution. It is never made here.

use crate::internal::id::ClauseId;

/// The clauses that cannot be made true together.
#[derive(Debug, Default)]
pub struct Conflict {
    clauses: Vec<ClauseId>,
}

impl Conflict {
    pub(crate) fn add_clause(&mut self, clause_id: ClauseId) {
        self.clauses.push(clause_id);
    }
}
