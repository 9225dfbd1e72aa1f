//! Stand-in: the search's choice of its next decision. Here the sheet decides, so nothing is kept.

use std::marker::PhantomData;

use crate::{
    DependencyProvider, Requirement, VariableId,
    internal::{arena::Arena, id::ClauseId},
    requirement::RequirementMap,
    solver::{
        RequirementCandidateVariables,
        conditions::{Disjunction, DisjunctionId},
        decision::Decision,
        decision_map::DecisionMap,
    },
    solver_id::SolverId,
};

pub(crate) struct DecideQueue<D> {
    _provider: PhantomData<fn(D) -> D>,
}

impl<D> Default for DecideQueue<D> {
    fn default() -> Self {
        Self { _provider: PhantomData }
    }
}

/// What the search would assign next.
pub(crate) struct NextDecision {
    pub(crate) candidate: VariableId,
    pub(crate) required_by: VariableId,
    pub(crate) clause_id: ClauseId,
    pub(crate) package_activity: f32,
    pub(crate) candidate_count: u32,
}

impl<D: DependencyProvider> DecideQueue<D> {
    pub(crate) fn set_standard_activity_params(&mut self, _: bool) {}

    #[allow(clippy::too_many_arguments)]
    pub(crate) fn register_clause(
        &mut self,
        _parent: VariableId,
        _requirement: Requirement,
        _condition: Option<DisjunctionId>,
        _clause_id: ClauseId,
        _names: impl IntoIterator<Item = D::NameId>,
        _disjunctions: &Arena<DisjunctionId, Disjunction>,
        _parent_value: Option<bool>,
    ) {
    }

    pub(crate) fn mark_name_hot(&mut self, _: D::NameId) {}

    pub(crate) fn sync(&mut self, _floor: usize, _assignments: &[Decision], _: &DecisionMap) {}

    pub(crate) fn next_decision(
        &mut self,
        _decisions: &DecisionMap,
        _candidates: &RequirementMap<RequirementCandidateVariables>,
        _disjunctions: &Arena<DisjunctionId, Disjunction>,
        _activity: &<D::NameId as SolverId>::Map<f32>,
        _max_activity: f32,
        _provider: &D,
    ) -> Option<NextDecision> {
        unreachable!("only the search decides")
    }

    #[cfg(debug_assertions)]
    pub(crate) fn debug_assert_invariants(
        &self,
        _decisions: &DecisionMap,
        _candidates: &RequirementMap<RequirementCandidateVariables>,
        _disjunctions: &Arena<DisjunctionId, Disjunction>,
        _activity: &<D::NameId as SolverId>::Map<f32>,
        _max_activity: f32,
        _provider: &D,
    ) {
    }
}
