//! The sheet of a job: adds, draws, runs, decides and undos, with refusals 4, 5, 9, 8 and 10.

use std::rc::Rc;

use job::{
    catalogue::{Catalogue, Owner},
    limits::Limits,
    record::Record,
};
use resolvo::{ConditionId, Solver, runtime::Encoding};

use crate::provider::{OpenedOwners, Provider, solvable};

pub struct Sheet {
    pub catalogue: Rc<Catalogue>,
    pub encoding: Box<dyn Encoding>,
    pub opened_owners: OpenedOwners,
    /// Run and clause.
    pub conflicts: Vec<(usize, usize)>,
    added: Vec<Owner>,
    runs: usize,
    counted_clauses: usize,
    condition_literals: usize,
}

type Taken = Result<(), u8>;

fn refuse(number: u8, when: bool) -> Taken {
    if when { Err(number) } else { Ok(()) }
}

impl Sheet {
    pub fn new(catalogue: Catalogue) -> Self {
        let catalogue = Rc::new(catalogue);
        let opened_owners = OpenedOwners::default();
        let provider = Provider::new(catalogue.clone(), opened_owners.clone());
        let root_dependencies = provider.root_dependencies();
        Sheet {
            catalogue,
            encoding: Solver::encoding(provider, root_dependencies),
            opened_owners,
            conflicts: Vec::new(),
            added: Vec::new(),
            runs: 0,
            counted_clauses: 0,
            condition_literals: 0,
        }
    }

    /// Takes a sheet record, or gives the number of its refusal.
    pub fn take(&mut self, record: Record, limits: Limits) -> Taken {
        match record {
            Record::Add { owner } => self.add(owner),
            Record::Draw { condition } => self.draw(condition),
            Record::Run { level } => self.run(level, limits),
            Record::Decide { variable, value, level } => self.decide(variable, value, level),
            Record::Undo { level } => {
                self.encoding.undo(level.into());
                Ok(())
            }
            _ => unreachable!("the reader refuses catalogue records in the sheet"),
        }
    }

    /// Whether added owners or drawn entries have not been run.
    pub fn unfinished(&self) -> bool {
        !self.added.is_empty() || self.encoding.drawn() > 0
    }

    fn add(&mut self, owner: u16) -> Taken {
        self.added.push(self.catalogue.owner(owner)?);
        Ok(())
    }

    fn draw(&mut self, condition: u16) -> Taken {
        refuse(4, usize::from(condition) >= self.catalogue.conditions.len())?;
        self.encoding.draw(ConditionId::new(condition.into()));
        Ok(())
    }

    fn decide(&mut self, variable: u16, value: u8, level: u16) -> Taken {
        let number = usize::from(variable);
        refuse(4, number >= self.encoding.variables())?;
        refuse(5, value > 1)?;
        self.test_level(level)?;
        let value = value == 1;
        match self.encoding.value(number) {
            Some(present) => refuse(8, present != value),
            None => {
                self.encoding.decide(number, value, level.into());
                Ok(())
            }
        }
    }

    fn run(&mut self, level: u16, limits: Limits) -> Taken {
        self.test_level(level)?;
        self.runs += 1;
        let run = self.runs;
        let opened = self.opened_owners.clone();
        let mut owners = std::mem::take(&mut self.added).into_iter().map(|owner| {
            note_root(&opened, owner);
            owner.map(solvable)
        });
        let conflicts = self.encoding.run(&mut owners, level.into());
        self.conflicts.extend(conflicts.into_iter().map(|clause| (run, clause)));
        self.count_condition_literals();
        refuse(10, limits.passed_by(self.counts()))
    }

    fn test_level(&self, level: u16) -> Taken {
        refuse(9, level == 0 || u32::from(level) < self.encoding.last_level())
    }

    fn count_condition_literals(&mut self) {
        let clauses = self.encoding.clauses();
        for clause in self.counted_clauses..clauses {
            self.condition_literals += self.encoding.condition_literals(clause);
        }
        self.counted_clauses = clauses;
    }

    /// In the order of [`Limits`].
    pub fn counts(&self) -> [usize; 4] {
        [
            self.encoding.variables(),
            self.encoding.clauses(),
            self.condition_literals,
            self.encoding.waiting_count(),
        ]
    }
}

/// The provider notes the parts that open; the root is not asked of it.
fn note_root(opened: &OpenedOwners, owner: Owner) {
    let mut opened = opened.borrow_mut();
    if owner.is_none() && !opened.contains(&None) {
        opened.push(None);
    }
}
