//! Stand-in: the present value of each variable and the level at which it was set.

use crate::{VariableId, utils::Mapping};

#[derive(Default)]
pub(crate) struct DecisionMap {
    decided: Mapping<VariableId, Option<(bool, u32)>>,
}

impl DecisionMap {
    pub(crate) fn value(&self, variable: VariableId) -> Option<bool> {
        self.decision(variable).map(|(value, _)| value)
    }

    /// 0 where nothing is decided.
    pub(crate) fn level(&self, variable: VariableId) -> u32 {
        self.decision(variable).map_or(0, |(_, level)| level)
    }

    pub(crate) fn set(&mut self, variable: VariableId, value: bool, level: u32) {
        self.decided.insert(variable, Some((value, level)));
    }

    pub(crate) fn reset(&mut self, variable: VariableId) {
        self.decided.insert(variable, None);
    }

    pub(crate) fn len(&self) -> usize {
        self.decided.iter().filter(|(_, decision)| decision.is_some()).count()
    }

    fn decision(&self, variable: VariableId) -> Option<(bool, u32)> {
        self.decided.get(variable).copied().flatten()
    }
}
