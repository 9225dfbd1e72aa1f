//! Stand-in: which clauses watch which literal. Only the search reads it, so nothing is kept.

use crate::{
    internal::id::ClauseId,
    solver::clause::{Literal, WatchedLiterals},
};

#[derive(Default)]
pub(crate) struct WatchMap;

impl WatchMap {
    pub(crate) fn start_watching(&mut self, _: &mut WatchedLiterals, _: ClauseId) {}

    pub(crate) fn cursor<'a>(
        &'a mut self,
        _: &'a mut [Option<WatchedLiterals>],
        _: Literal,
    ) -> Option<WatchCursor<'a>> {
        unreachable!("only the search walks the watches")
    }
}

/// A place in the walk over the clauses that watch a literal.
pub(crate) struct WatchCursor<'a> {
    clause_id: ClauseId,
    watch_index: usize,
    watched_literals: &'a WatchedLiterals,
}

impl<'a> WatchCursor<'a> {
    pub(crate) fn clause_id(&self) -> ClauseId {
        self.clause_id
    }

    pub(crate) fn watch_index(&self) -> usize {
        self.watch_index
    }

    pub(crate) fn watched_literals(&self) -> &WatchedLiterals {
        self.watched_literals
    }

    pub(crate) fn prefetch_next(&self) {}

    pub(crate) fn next(self) -> Option<WatchCursor<'a>> {
        None
    }

    pub(crate) fn update(self, _: Literal) -> Option<WatchCursor<'a>> {
        None
    }
}
