//! A catalogue as the provider that the reference asks.

use std::{cell::RefCell, collections::HashMap, fmt::Display, rc::Rc};

use job::catalogue::{
    Catalogue, Condition, EXCLUDED, FAVOURED, Goal, LOCKED, Owner, READY, UNKNOWN,
};
use resolvo::{
    Candidates, ConditionId, ConditionalRequirement, DenseIndex, Dependencies, DependencyProvider,
    HintDependenciesAvailable, Interner, KnownDependencies, LogicalOperator, NameId, Requirement,
    SolvableId, SolverCache, StringId, VersionSetId, VersionSetUnionId,
};

/// Owners in the order of opening.
pub type OpenedOwners = Rc<RefCell<Vec<Owner>>>;

pub struct Provider {
    catalogue: Rc<Catalogue>,
    dependencies: HashMap<Owner, KnownDependencies>,
    parts_of_name: Vec<Vec<u16>>,
    /// The reference asks for an owner's dependencies when it opens it, and only then.
    opened_owners: OpenedOwners,
}

impl Provider {
    pub fn new(catalogue: Rc<Catalogue>, opened_owners: OpenedOwners) -> Self {
        let mut parts_of_name = vec![Vec::new(); catalogue.names.len()];
        for (number, part) in catalogue.parts.iter().enumerate() {
            parts_of_name[usize::from(part.name)].push(number as u16);
        }
        let dependencies = dependencies(&catalogue);
        Provider { catalogue, dependencies, parts_of_name, opened_owners }
    }

    /// The root's dependencies; the reference does not ask the provider for them.
    pub fn root_dependencies(&self) -> Dependencies {
        Dependencies::Known(self.known(None))
    }

    fn known(&self, owner: Owner) -> KnownDependencies {
        self.dependencies.get(&owner).cloned().unwrap_or_default()
    }

    fn parts_with(&self, parts: &[u16], flag: u8) -> Vec<SolvableId> {
        parts.iter().filter(|&&part| self.part(part).is(flag)).map(|&part| solvable(part)).collect()
    }

    fn part(&self, part: u16) -> &job::catalogue::Part {
        &self.catalogue.parts[usize::from(part)]
    }
}

fn dependencies(catalogue: &Catalogue) -> HashMap<Owner, KnownDependencies> {
    let mut known: HashMap<Owner, KnownDependencies> = HashMap::new();
    for requirement in &catalogue.requirements {
        known.entry(requirement.owner).or_default().requirements.push(ConditionalRequirement {
            condition: requirement.condition.map(|number| ConditionId::new(number.into())),
            requirement: match requirement.goal {
                Goal::Range(range) => Requirement::Single(version_set(range)),
                Goal::Union(union) => Requirement::Union(VersionSetUnionId(union.into())),
            },
        });
    }
    for constraint in &catalogue.constraints {
        let of_owner = known.entry(constraint.owner).or_default();
        of_owner.constrains.push(version_set(constraint.range));
    }
    known
}

pub fn solvable(part: u16) -> SolvableId {
    SolvableId::from_index(part.into())
}

fn part_number(solvable: SolvableId) -> u16 {
    solvable.into_raw() as u16
}

fn version_set(range: u16) -> VersionSetId {
    VersionSetId(range.into())
}

impl Interner for Provider {
    type NameId = NameId;
    type SolvableId = SolvableId;

    fn display_solvable(&self, solvable: SolvableId) -> impl Display + '_ {
        part_number(solvable)
    }

    fn display_name(&self, name: NameId) -> impl Display + '_ {
        name.into_raw()
    }

    fn display_version_set(&self, version_set: VersionSetId) -> impl Display + '_ {
        version_set.0
    }

    fn display_string(&self, string: StringId) -> impl Display + '_ {
        string.0
    }

    fn version_set_name(&self, version_set: VersionSetId) -> NameId {
        NameId::from_raw(self.catalogue.ranges[version_set.to_index()].name.into())
    }

    fn solvable_name(&self, solvable: SolvableId) -> NameId {
        NameId::from_raw(self.part(part_number(solvable)).name.into())
    }

    fn version_sets_in_union(
        &self,
        union: VersionSetUnionId,
    ) -> impl Iterator<Item = VersionSetId> {
        self.catalogue.unions[union.to_index()].iter().map(|&range| version_set(range))
    }

    fn resolve_condition(&self, condition: ConditionId) -> resolvo::Condition {
        let joined = |operator, left: u16, right: u16| {
            let (left, right) = (ConditionId::new(left.into()), ConditionId::new(right.into()));
            resolvo::Condition::Binary(operator, left, right)
        };
        match self.catalogue.conditions[condition.to_index()] {
            Condition::Leaf { range } => resolvo::Condition::Requirement(version_set(range)),
            Condition::And { left, right } => joined(LogicalOperator::And, left, right),
            Condition::Or { left, right } => joined(LogicalOperator::Or, left, right),
        }
    }
}

impl DependencyProvider for Provider {
    async fn filter_candidates(
        &self,
        candidates: &[SolvableId],
        version_set: VersionSetId,
        inverse: bool,
    ) -> Vec<SolvableId> {
        let members = &self.catalogue.ranges[version_set.to_index()].members;
        let matching = |candidate: &SolvableId| members.contains(&part_number(*candidate));
        candidates.iter().copied().filter(|candidate| matching(candidate) != inverse).collect()
    }

    async fn get_candidates(&self, name: NameId) -> Option<Candidates> {
        let parts = &self.parts_of_name[name.to_index()];
        let excluded = parts.iter().filter(|&&part| self.part(part).is(EXCLUDED));
        let reason = |part: u16| StringId(self.part(part).exclusion_reason.into());
        Some(Candidates {
            candidates: parts.iter().map(|&part| solvable(part)).collect(),
            favored: self.parts_with(parts, FAVOURED).first().copied(),
            locked: self.parts_with(parts, LOCKED).first().copied(),
            hint_dependencies_available: HintDependenciesAvailable::Some(
                self.parts_with(parts, READY),
            ),
            excluded: excluded.map(|&part| (solvable(part), reason(part))).collect(),
            allow_multiple: self.catalogue.names[name.to_index()],
        })
    }

    /// File order is the order to try.
    async fn sort_candidates(&self, _: &SolverCache<Self>, _: &mut [SolvableId]) {}

    async fn get_dependencies(&self, solvable: SolvableId) -> Dependencies {
        let part = part_number(solvable);
        self.opened_owners.borrow_mut().push(Some(part));
        if self.part(part).is(UNKNOWN) {
            return Dependencies::Unknown(StringId(self.part(part).unknown_reason.into()));
        }
        Dependencies::Known(self.known(Some(part)))
    }
}
