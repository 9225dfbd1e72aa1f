//! Stand-in: the report after a search, empty here. The module also holds our own [`Encoding`],
//! because only a module inside `solver` reaches the encoder and the fields of its state.

use std::ops::ControlFlow;

use futures::FutureExt;

use super::{
    Solver, SolverCache, SolverState,
    clause::{Clause, Literal, WatchedLiterals},
    conditions::{DeferredConjunct, DeferredRequirement},
    decision::Decision,
    encoding::{Encoder, FutureQueueMode},
    variable_map::VariableOrigin,
};
use crate::{
    ConditionId, DenseIndex, Dependencies, DependencyProvider, NameId, SolvableId, VariableId,
    internal::{id::ClauseId, solver_id::SolvableIdOrRoot},
    runtime::{AsyncRuntime, ClauseKind, Decided, Encoding, Origin, SignedVariable, Waiting},
};

impl<D: DependencyProvider, RT: AsyncRuntime> Solver<D, RT> {
    pub(crate) fn report_diagnostics(&self) {}
}

impl<D> Solver<D>
where
    D: DependencyProvider<NameId = NameId, SolvableId = SolvableId> + 'static,
{
    /// An encoder with a fresh cache and a fresh state that holds the install clause.
    pub fn encoding(provider: D, root_dependencies: Dependencies) -> Box<dyn Encoding> {
        let mut state = SolverState::default();
        let (watched_literals, kind) = WatchedLiterals::root();
        state.add_clause(watched_literals, kind);
        Box::new(Encoded {
            cache: SolverCache::new(provider),
            state,
            root_dependencies,
            drawn: Vec::new(),
        })
    }
}

struct Encoded<D: DependencyProvider> {
    cache: SolverCache<D>,
    state: SolverState<D>,
    root_dependencies: Dependencies,
    drawn: Vec<DeferredRequirement<D::SolvableId>>,
}

impl<D> Encoded<D>
where
    D: DependencyProvider<NameId = NameId, SolvableId = SolvableId>,
{
    fn clause_kind(&self, clause: usize) -> Clause<NameId> {
        self.state.clauses.kinds[clause]
    }
}

impl<D> Encoding for Encoded<D>
where
    D: DependencyProvider<NameId = NameId, SolvableId = SolvableId>,
{
    fn run(
        &mut self,
        owners: &mut dyn Iterator<Item = Option<SolvableId>>,
        level: u32,
    ) -> Vec<usize> {
        let owners = owners.map(|owner| match owner {
            Some(solvable) => SolvableIdOrRoot::Solvable(solvable),
            None => SolvableIdOrRoot::Root,
        });
        Encoder::new(
            &mut self.state,
            &self.cache,
            &self.root_dependencies,
            level,
            FutureQueueMode::Immediate,
        )
        .encode_with_deferred(owners, std::mem::take(&mut self.drawn))
        .now_or_never()
        .expect("the provider does not wait")
        .expect("the provider does not cancel")
        .into_iter()
        .map(ClauseId::to_index)
        .collect()
    }

    fn draw(&mut self, condition: ConditionId) {
        let entries = self.state.drain_fired_deferred(condition);
        self.drawn.extend(entries);
    }

    fn drawn(&self) -> usize {
        self.drawn.len()
    }

    fn decide(&mut self, variable: usize, value: bool, level: u32) {
        // No rule sets a value by the install clause, so it marks the sheet's own decisions.
        let decision =
            Decision::new(VariableId::from_index(variable), value, ClauseId::install_root());
        self.state
            .decision_tracker
            .try_add_decision(decision, level)
            .expect("the variable is undecided");
    }

    fn undo(&mut self, level: u32) {
        let tracker = &mut self.state.decision_tracker;
        let first = tracker.stack().next().map(|first| first.variable);
        // `undo_until` panics when it takes back all decisions, except for level 0.
        let all = first.is_some_and(|first| tracker.level(first) > level);
        tracker.undo_until(if all { 0 } else { level });
    }

    fn value(&self, variable: usize) -> Option<bool> {
        self.state.decision_tracker.assigned_value(VariableId::from_index(variable))
    }

    fn decisions(&self) -> Vec<Decided> {
        let tracker = &self.state.decision_tracker;
        tracker
            .stack()
            .map(|decision| Decided {
                variable: decision.variable.to_index(),
                value: decision.value,
                level: tracker.level(decision.variable),
                clause: (decision.derived_from != ClauseId::install_root())
                    .then(|| decision.derived_from.to_index()),
            })
            .collect()
    }

    fn last_level(&self) -> u32 {
        let tracker = &self.state.decision_tracker;
        let last = tracker.stack().next_back();
        last.map_or(0, |decision| tracker.level(decision.variable))
    }

    fn variables(&self) -> usize {
        self.state.variable_map.count()
    }

    fn origin(&self, variable: usize) -> Origin {
        match self.state.variable_map.origin(VariableId::from_index(variable)) {
            VariableOrigin::Root => Origin::Root,
            VariableOrigin::Solvable(solvable) => Origin::Solvable(solvable),
            VariableOrigin::ForbidMultiple(name) => Origin::ForbidMultiple(name),
            VariableOrigin::AtLeastOne(name) => Origin::AtLeastOne(name),
            VariableOrigin::ConstrainsViolation(version_set) => {
                Origin::ConstrainsViolation(version_set)
            }
            VariableOrigin::RequiresGate(requirement) => Origin::RequiresGate(requirement),
        }
    }

    fn clauses(&self) -> usize {
        self.state.clauses.kinds.len()
    }

    fn clause(&self, clause: usize) -> ClauseKind {
        match self.clause_kind(clause) {
            Clause::InstallRoot => ClauseKind::InstallRoot,
            Clause::Requires(..) => ClauseKind::Requires,
            Clause::ForbidMultipleInstances(..) => ClauseKind::ForbidMultipleInstances,
            Clause::Constrains(..) => ClauseKind::Constrains,
            Clause::ConstrainsExcluded(..) => ClauseKind::ConstrainsExcluded,
            Clause::ConstrainsParent(..) => ClauseKind::ConstrainsParent,
            Clause::Lock(..) => ClauseKind::Lock,
            Clause::Excluded(_, reason) => ClauseKind::Excluded(reason),
            Clause::AnyOf(..) => ClauseKind::AnyOf,
            Clause::Learnt(..) => unreachable!("only the search learns clauses"),
        }
    }

    fn visit_literals(
        &self,
        clause: usize,
        visit: &mut dyn FnMut(SignedVariable) -> ControlFlow<()>,
    ) {
        let mut visit = |literal: Literal| {
            visit(SignedVariable {
                variable: literal.variable().to_index(),
                positive: literal.satisfying_value(),
            })
        };
        let kind = self.clause_kind(clause);
        if let Clause::InstallRoot = kind {
            // `try_fold_literals` does not take this kind.
            let _ = visit(VariableId::root().positive());
            return;
        }
        let _ = kind.try_fold_literals(
            &self.state.learnt_clauses,
            &self.state.requirement_to_sorted_candidates,
            &self.state.disjunctions,
            (),
            |(), literal| visit(literal),
        );
    }

    fn condition_literals(&self, clause: usize) -> usize {
        match self.clause_kind(clause) {
            Clause::Requires(_, Some(disjunction), _) => {
                self.state.disjunctions[disjunction].literals.len()
            }
            _ => 0,
        }
    }

    fn opened_names(&self) -> Vec<NameId> {
        self.state.clauses_added_for_package.iter().collect()
    }

    fn negative_assertions(&self) -> Vec<(usize, usize)> {
        self.state
            .negative_assertions
            .iter()
            .map(|(variable, clause)| (variable.to_index(), clause.to_index()))
            .collect()
    }

    fn waiting_count(&self) -> usize {
        self.state.deferred_requirements_count()
    }

    fn waiting(&self) -> Vec<Waiting> {
        let mut by_condition: Vec<_> = self.state.deferred_requirements.iter().collect();
        by_condition.sort_by_key(|(condition, _)| **condition);
        by_condition
            .into_iter()
            .flat_map(|(_, entries)| entries)
            .map(|entry| Waiting {
                condition: entry.condition,
                owner: entry.solvable_id.solvable(),
                requirement: entry.requirement.requirement,
                version_sets: entry.disjunct.iter().map(DeferredConjunct::version_set).collect(),
            })
            .collect()
    }
}

#[cfg(test)]
mod tests {
    use super::*;
    use crate::solver::decision_tracker::DecisionTracker;

    fn one_decision_at_level_2() -> DecisionTracker {
        let mut tracker = DecisionTracker::default();
        let decision = Decision::new(VariableId::root(), true, ClauseId::install_root());
        tracker.try_add_decision(decision, 2).expect("undecided");
        tracker
    }

    /// Why [`Encoding::undo`] does not hand every level on.
    #[test]
    #[should_panic]
    fn the_reference_panics_when_an_undo_takes_back_all() {
        one_decision_at_level_2().undo_until(1);
    }

    #[test]
    fn level_0_takes_back_all() {
        let mut tracker = one_decision_at_level_2();
        tracker.undo_until(0);
        assert_eq!(tracker.stack().count(), 0);
    }
}
