//! Stand-in: how futures are run. Beside it [`Encoding`], through which a caller outside this crate
//! has the encoder work step by step and reads what it has stored.

use std::{future::Future, ops::ControlFlow};

use futures::FutureExt;

use crate::{ConditionId, NameId, Requirement, SolvableId, StringId, VersionSetId};

/// Runs a future to its end.
pub trait AsyncRuntime {
    /// The future's output.
    fn block_on<F: Future>(&self, future: F) -> F::Output;
}

/// Runs futures that never wait.
pub struct NowOrNeverRuntime;

impl AsyncRuntime for NowOrNeverRuntime {
    fn block_on<F: Future>(&self, future: F) -> F::Output {
        future.now_or_never().expect("the future does not wait")
    }
}

/// What a variable stands for.
#[derive(Clone, Copy, Debug, PartialEq)]
#[allow(missing_docs)]
pub enum Origin {
    Root,
    Solvable(SolvableId),
    ForbidMultiple(NameId),
    AtLeastOne(NameId),
    ConstrainsViolation(VersionSetId),
    RequiresGate(Requirement),
}

/// The kind of a stored clause.
#[derive(Clone, Copy, Debug, PartialEq)]
#[allow(missing_docs)]
pub enum ClauseKind {
    InstallRoot,
    Requires,
    ForbidMultipleInstances,
    Constrains,
    ConstrainsExcluded,
    ConstrainsParent,
    Lock,
    Excluded(StringId),
    AnyOf,
}

/// A variable with its sign.
#[derive(Clone, Copy, Debug, PartialEq)]
#[allow(missing_docs)]
pub struct SignedVariable {
    pub variable: usize,
    pub positive: bool,
}

/// An assignment: by the clause that set it, or by the sheet.
#[derive(Clone, Copy, Debug, PartialEq)]
#[allow(missing_docs)]
pub struct Decided {
    pub variable: usize,
    pub value: bool,
    pub level: u32,
    pub clause: Option<usize>,
}

/// A disjunct that waits for its condition; the owner is `None` for the root.
#[derive(Clone, Debug, PartialEq)]
#[allow(missing_docs)]
pub struct Waiting {
    pub condition: ConditionId,
    pub owner: Option<SolvableId>,
    pub requirement: Requirement,
    pub version_sets: Vec<VersionSetId>,
}

/// An encoder with its state and its cache. Variables and clauses are given by their index.
pub trait Encoding {
    /// Encodes the owners (`None` is the root) and the entries drawn since the last run, and gives
    /// the clauses that conflict. An owner is taken from the iterator just before it is queued.
    fn run(
        &mut self,
        owners: &mut dyn Iterator<Item = Option<SolvableId>>,
        level: u32,
    ) -> Vec<usize>;

    /// Takes out the waiting entries of the condition that hold, for the next run.
    fn draw(&mut self, condition: ConditionId);

    /// How many entries have been drawn since the last run.
    fn drawn(&self) -> usize;

    /// Decides an undecided variable.
    fn decide(&mut self, variable: usize, value: bool, level: u32);

    /// Takes back the decisions above the level.
    fn undo(&mut self, level: u32);

    /// The present value of a variable.
    fn value(&self, variable: usize) -> Option<bool>;

    /// The decisions, oldest first.
    fn decisions(&self) -> Vec<Decided>;

    /// The level of the last decision, 0 if there is none.
    fn last_level(&self) -> u32;

    /// How many variables there are.
    fn variables(&self) -> usize;

    /// What a variable stands for.
    fn origin(&self, variable: usize) -> Origin;

    /// How many clauses are stored.
    fn clauses(&self) -> usize;

    /// The kind of a clause.
    fn clause(&self, clause: usize) -> ClauseKind;

    /// Shows the literals of a clause, in order, until told to stop.
    fn visit_literals(
        &self,
        clause: usize,
        visit: &mut dyn FnMut(SignedVariable) -> ControlFlow<()>,
    );

    /// How many literals of a clause come from a condition.
    fn condition_literals(&self, clause: usize) -> usize;

    /// The opened names, in the order of queueing.
    fn opened_names(&self) -> Vec<NameId>;

    /// The variables asserted false, each with its clause, in order.
    fn negative_assertions(&self) -> Vec<(usize, usize)>;

    /// How many entries wait.
    fn waiting_count(&self) -> usize;

    /// The waiting entries by rising condition, those of one condition in order of arrival.
    fn waiting(&self) -> Vec<Waiting>;
}
