//! The catalogue of a job and refusals 3 to 6 of its records.

use std::collections::BTreeSet;

use crate::record::{NO_CONDITION, ROOT, Record};

pub const NAMES: usize = 64;
pub const PARTS: usize = 1_024;
pub const RANGES: usize = 512;
pub const UNIONS: usize = 128;
pub const CONDITIONS: usize = 256;
pub const REQUIREMENTS: usize = 1_024;
pub const CONSTRAINTS: usize = 512;
pub const DISJUNCTS: usize = 64;
pub const RANGES_OF_DISJUNCT: usize = 16;

pub const READY: u8 = 1;
pub const UNKNOWN: u8 = 2;
pub const LOCKED: u8 = 4;
pub const FAVOURED: u8 = 8;
pub const EXCLUDED: u8 = 16;
const PART_FLAGS: u8 = 31;
const SEVERAL: u8 = 1;

/// `None` is the root.
pub type Owner = Option<u16>;

#[derive(Clone, Copy, Debug, PartialEq, Eq)]
pub struct Part {
    pub name: u16,
    flags: u8,
    pub unknown_reason: u16,
    pub exclusion_reason: u16,
}

impl Part {
    /// Whether the bit is set, one of [`READY`] to [`EXCLUDED`].
    pub fn is(&self, flag: u8) -> bool {
        self.flags & flag != 0
    }
}

#[derive(Clone, Debug, PartialEq, Eq)]
pub struct Range {
    pub name: u16,
    pub members: BTreeSet<u16>,
}

#[derive(Clone, Copy, Debug, PartialEq, Eq)]
pub enum Condition {
    Leaf { range: u16 },
    And { left: u16, right: u16 },
    Or { left: u16, right: u16 },
}

#[derive(Clone, Copy, Debug, PartialEq, Eq, Hash)]
pub enum Goal {
    Range(u16),
    Union(u16),
}

#[derive(Clone, Copy, Debug, PartialEq, Eq)]
pub struct Requirement {
    pub owner: Owner,
    pub goal: Goal,
    pub condition: Option<u16>,
}

#[derive(Clone, Copy, Debug, PartialEq, Eq)]
pub struct Constraint {
    pub owner: Owner,
    pub range: u16,
}

#[derive(Clone, Debug, Default, PartialEq, Eq)]
pub struct Catalogue {
    /// Whether several parts are allowed.
    pub names: Vec<bool>,
    pub parts: Vec<Part>,
    pub ranges: Vec<Range>,
    pub unions: Vec<Vec<u16>>,
    pub conditions: Vec<Condition>,
    pub requirements: Vec<Requirement>,
    pub constraints: Vec<Constraint>,
    sizes: Vec<Size>,
}

/// How many disjuncts a condition has, and how many ranges its longest.
#[derive(Clone, Copy, Debug, PartialEq, Eq)]
struct Size {
    disjuncts: usize,
    longest: usize,
}

type Taken = Result<(), u8>;

fn refuse(number: u8, when: bool) -> Taken {
    if when { Err(number) } else { Ok(()) }
}

fn given<T>(things: &[T], number: u16) -> Taken {
    refuse(4, usize::from(number) >= things.len())
}

impl Catalogue {
    /// Takes a catalogue record, or gives the number of its refusal.
    pub fn take(&mut self, record: Record) -> Taken {
        self.test_ceiling(record)?;
        match record {
            Record::Name { flags } => self.take_name(flags),
            Record::Part { name, flags, unknown_reason, exclusion_reason } => {
                self.take_part(Part { name, flags, unknown_reason, exclusion_reason })
            }
            Record::Range { name } => self.take_range(name),
            Record::Member { range, part } => self.take_member(range, part),
            Record::Union => {
                self.unions.push(Vec::new());
                Ok(())
            }
            Record::UnionMember { union, range } => self.take_union_member(union, range),
            Record::Leaf { range } => self.take_leaf(range),
            Record::Joined { operator, left, right } => self.take_joined(operator, left, right),
            Record::Requirement { owner, form, number, condition } => {
                self.take_requirement(owner, form, number, condition)
            }
            Record::Constraint { owner, range } => self.take_constraint(owner, range),
            _ => unreachable!("the reader hands over catalogue records only"),
        }
    }

    fn test_ceiling(&self, record: Record) -> Taken {
        let (count, ceiling) = match record {
            Record::Name { .. } => (self.names.len(), NAMES),
            Record::Part { .. } => (self.parts.len(), PARTS),
            Record::Range { .. } => (self.ranges.len(), RANGES),
            Record::Union => (self.unions.len(), UNIONS),
            Record::Leaf { .. } | Record::Joined { .. } => (self.conditions.len(), CONDITIONS),
            Record::Requirement { .. } => (self.requirements.len(), REQUIREMENTS),
            Record::Constraint { .. } => (self.constraints.len(), CONSTRAINTS),
            _ => return Ok(()),
        };
        refuse(3, count >= ceiling)
    }

    fn take_name(&mut self, flags: u8) -> Taken {
        refuse(5, flags & !SEVERAL != 0)?;
        self.names.push(flags == SEVERAL);
        Ok(())
    }

    fn take_part(&mut self, part: Part) -> Taken {
        given(&self.names, part.name)?;
        refuse(5, part.flags & !PART_FLAGS != 0)?;
        for flag in [LOCKED, FAVOURED] {
            let second = part.is(flag)
                && self.parts.iter().any(|other| other.name == part.name && other.is(flag));
            refuse(5, second)?;
        }
        self.parts.push(part);
        Ok(())
    }

    fn take_range(&mut self, name: u16) -> Taken {
        given(&self.names, name)?;
        self.ranges.push(Range { name, members: BTreeSet::new() });
        Ok(())
    }

    fn take_member(&mut self, range: u16, part: u16) -> Taken {
        given(&self.ranges, range)?;
        given(&self.parts, part)?;
        let name = self.parts[usize::from(part)].name;
        let range = &mut self.ranges[usize::from(range)];
        refuse(5, name != range.name)?;
        refuse(5, !range.members.insert(part))
    }

    fn take_union_member(&mut self, union: u16, range: u16) -> Taken {
        given(&self.unions, union)?;
        given(&self.ranges, range)?;
        self.unions[usize::from(union)].push(range);
        Ok(())
    }

    fn take_leaf(&mut self, range: u16) -> Taken {
        given(&self.ranges, range)?;
        self.add_condition(Condition::Leaf { range }, Size { disjuncts: 1, longest: 1 })
    }

    fn take_joined(&mut self, operator: u8, left: u16, right: u16) -> Taken {
        given(&self.conditions, left)?;
        given(&self.conditions, right)?;
        let (l, r) = (self.sizes[usize::from(left)], self.sizes[usize::from(right)]);
        match operator {
            0 => self.add_condition(
                Condition::And { left, right },
                Size { disjuncts: l.disjuncts * r.disjuncts, longest: l.longest + r.longest },
            ),
            1 => self.add_condition(
                Condition::Or { left, right },
                Size { disjuncts: l.disjuncts + r.disjuncts, longest: l.longest.max(r.longest) },
            ),
            _ => Err(5),
        }
    }

    fn add_condition(&mut self, condition: Condition, size: Size) -> Taken {
        refuse(6, size.disjuncts > DISJUNCTS || size.longest > RANGES_OF_DISJUNCT)?;
        self.conditions.push(condition);
        self.sizes.push(size);
        Ok(())
    }

    fn take_requirement(&mut self, owner: u16, form: u8, number: u16, condition: u16) -> Taken {
        let owner = self.owner(owner)?;
        // With another form the number is not looked up, the condition is.
        let goal = match form {
            0 => given(&self.ranges, number).map(|()| Some(Goal::Range(number)))?,
            1 => given(&self.unions, number).map(|()| Some(Goal::Union(number)))?,
            _ => None,
        };
        let condition = (condition != NO_CONDITION).then_some(condition);
        if let Some(condition) = condition {
            given(&self.conditions, condition)?;
        }
        let goal = goal.ok_or(5)?;
        self.known(owner)?;
        self.requirements.push(Requirement { owner, goal, condition });
        Ok(())
    }

    fn take_constraint(&mut self, owner: u16, range: u16) -> Taken {
        let owner = self.owner(owner)?;
        given(&self.ranges, range)?;
        self.known(owner)?;
        self.constraints.push(Constraint { owner, range });
        Ok(())
    }

    /// The owner with this number: refusal 4 if there is none.
    pub fn owner(&self, number: u16) -> Result<Owner, u8> {
        if number == ROOT {
            return Ok(None);
        }
        given(&self.parts, number)?;
        Ok(Some(number))
    }

    fn known(&self, owner: Owner) -> Taken {
        let unknown = owner.is_some_and(|part| self.parts[usize::from(part)].is(UNKNOWN));
        refuse(5, unknown)
    }

    /// The ranges of a goal, repeats kept.
    pub fn ranges_of(&self, goal: Goal) -> Vec<u16> {
        match goal {
            Goal::Range(range) => vec![range],
            Goal::Union(union) => self.unions[usize::from(union)].clone(),
        }
    }
}
