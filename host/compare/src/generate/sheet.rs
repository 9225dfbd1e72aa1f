//! Random sheets for a catalogue: the reference is run along, so that decides name variables that
//! are there and draws find entries that hold.

use job::{
    catalogue::{Catalogue, Goal},
    limits::Limits,
    record::{ROOT, Record},
};
use oracle::sheet::Sheet;
use resolvo::{VersionSetId, runtime::Origin};

use crate::random::Random;

/// Sheet records that the sheet takes, unless a run passes a ceiling.
pub fn draft(random: &mut Random, catalogue: &Catalogue, steps: (usize, usize)) -> Vec<Record> {
    let sheet = Sheet::new(catalogue.clone());
    let mut maker = Maker { random, sheet, records: Vec::new(), full: false };
    match maker.random.below(4) {
        0 => {}
        1 => maker.owners_one_by_one(),
        _ => maker.many_owners_in_one_run(),
    }
    for _ in 0..maker.random.between(steps.0, steps.1) {
        maker.step();
    }
    if maker.sheet.unfinished() {
        maker.run();
    }
    maker.records
}

/// A sheet record of any content.
pub fn any_record(random: &mut Random) -> Record {
    let number = random.pick(&[0, 1, 2, 3, 5, 8, 300, ROOT]);
    let level = random.pick(&[0, 1, 1, 2, 3, 65_535]);
    match random.below(8) {
        0 => Record::Add { owner: number },
        1 => Record::Draw { condition: number },
        2..4 => Record::Run { level },
        4..7 => Record::Decide { variable: number, value: random.pick(&[0, 0, 1, 1, 2]), level },
        _ => Record::Undo { level },
    }
}

struct Maker<'a> {
    random: &'a mut Random,
    sheet: Sheet,
    records: Vec<Record>,
    /// A run has passed a ceiling: nothing that follows is looked at.
    full: bool,
}

impl Maker<'_> {
    /// Keeps the record if the sheet takes it.
    fn give(&mut self, record: Record) {
        if self.full {
            return;
        }
        let taken = self.sheet.take(record, Limits::CEILINGS);
        self.full = taken == Err(10);
        if taken.is_ok() || self.full {
            self.records.push(record);
        }
    }

    fn level(&mut self) -> u16 {
        let last = self.sheet.encoding.last_level() as usize;
        (last + self.random.pick(&[0, 0, 1, 1, 2])).clamp(1, 65_535) as u16
    }

    fn run(&mut self) {
        let level = self.level();
        self.give(Record::Run { level });
    }

    /// Many owners and one run.
    fn many_owners_in_one_run(&mut self) {
        let mut owners = self.owners_of_rules();
        owners.sort_unstable();
        owners.dedup();
        // In a large catalogue most runs with many owners pass a ceiling.
        let percent = if owners.len() > 40 { self.random.pick(&[2, 10, 60]) } else { 60 };
        for owner in owners {
            if self.random.chance(percent) {
                self.give(Record::Add { owner });
            }
        }
        self.give(Record::Run { level: 1 });
    }

    /// A few owners, each with a run of its own.
    fn owners_one_by_one(&mut self) {
        let mut owners = self.owners_of_rules();
        self.random.shuffle(&mut owners);
        for owner in owners.into_iter().take(4) {
            self.give(Record::Add { owner });
            self.give(Record::Run { level: 1 });
        }
    }

    fn owners_of_rules(&self) -> Vec<u16> {
        let catalogue = &self.sheet.catalogue;
        let requirements = catalogue.requirements.iter().map(|requirement| requirement.owner);
        let constraints = catalogue.constraints.iter().map(|constraint| constraint.owner);
        requirements.chain(constraints).map(|owner| owner.unwrap_or(ROOT)).collect()
    }

    fn step(&mut self) {
        let holding = self.holding();
        if !holding.is_empty() && self.random.chance(30) {
            return self.draw_and_more(&holding);
        }
        match self.random.below(100) {
            0..25 => self.add(),
            25..45 => self.run(),
            45..50 => self.draw_any(),
            50..75 => self.decide_for_a_condition(),
            75..85 => self.decide_a_part(),
            85..93 => self.decide_any(),
            _ => self.undo(),
        }
    }

    /// Conditions with a waiting entry whose ranges all have a part decided true.
    fn holding(&self) -> Vec<u16> {
        let waiting = self.sheet.encoding.waiting();
        let holds = |ranges: &[VersionSetId]| ranges.iter().all(|&range| self.range_holds(range));
        let mut conditions: Vec<u16> = waiting
            .iter()
            .filter(|entry| holds(&entry.version_sets))
            .map(|entry| entry.condition.as_u32() as u16)
            .collect();
        conditions.dedup();
        conditions
    }

    fn range_holds(&self, range: VersionSetId) -> bool {
        let members = &self.sheet.catalogue.ranges[range.0 as usize].members;
        self.part_variables()
            .iter()
            .any(|&(part, variable)| self.value(variable) == Some(true) && members.contains(&part))
    }

    fn part_variables(&self) -> Vec<(u16, usize)> {
        let encoding = &self.sheet.encoding;
        (0..encoding.variables())
            .filter_map(|variable| match encoding.origin(variable) {
                Origin::Solvable(part) => Some((part.into_raw() as u16, variable)),
                _ => None,
            })
            .collect()
    }

    fn value(&self, variable: usize) -> Option<bool> {
        self.sheet.encoding.value(variable)
    }

    /// A draw, and before its run perhaps an undo and an owner that opens a name late.
    fn draw_and_more(&mut self, holding: &[u16]) {
        let condition = self.random.pick(holding);
        self.give(Record::Draw { condition });
        if self.random.chance(30) {
            self.undo();
        }
        let late = self.owners_that_open_several();
        if !late.is_empty() && self.random.chance(60) {
            let owner = self.random.pick(&late);
            self.give(Record::Add { owner });
        }
        if self.random.chance(30) {
            self.add();
        }
        if self.random.chance(60) {
            self.run();
        }
    }

    /// Unopened owners of an unconditional requirement or a constraint on a name that allows several.
    fn owners_that_open_several(&self) -> Vec<u16> {
        let catalogue = &self.sheet.catalogue;
        let several =
            |range: u16| catalogue.names[usize::from(catalogue.ranges[usize::from(range)].name)];
        let opened = self.sheet.opened_owners.borrow();
        let requirements = catalogue
            .requirements
            .iter()
            .filter(|requirement| requirement.condition.is_none())
            .map(|requirement| (requirement.owner, requirement.goal));
        let constraints = catalogue
            .constraints
            .iter()
            .map(|constraint| (constraint.owner, Goal::Range(constraint.range)));
        requirements
            .chain(constraints)
            .filter(|(owner, goal)| {
                !opened.contains(owner) && catalogue.ranges_of(*goal).into_iter().any(several)
            })
            .map(|(owner, _)| owner.unwrap_or(ROOT))
            .collect()
    }

    fn add(&mut self) {
        let owners = self.owners_of_rules();
        let owner = match self.random.below(4) {
            0 => ROOT,
            1 | 2 if !owners.is_empty() => self.random.pick(&owners),
            _ => self.random.below(self.sheet.catalogue.parts.len().max(1)) as u16,
        };
        self.give(Record::Add { owner });
    }

    fn draw_any(&mut self) {
        let conditions = self.sheet.catalogue.conditions.len();
        if conditions > 0 {
            let condition = self.random.below(conditions) as u16;
            self.give(Record::Draw { condition });
        }
    }

    fn decide(&mut self, variable: usize, value: bool) {
        let level = self.level();
        self.give(Record::Decide { variable: variable as u16, value: value.into(), level });
    }

    /// Parts of ranges that conditions speak of, made true.
    fn decide_for_a_condition(&mut self) {
        let ranges = self.ranges_of_conditions();
        let parts = self.part_variables();
        for _ in 0..self.random.between(1, 3) {
            let Some(&range) = ranges.get(self.random.below(ranges.len().max(1))) else {
                return self.decide_a_part();
            };
            let members = self.sheet.catalogue.ranges[usize::from(range)].members.clone();
            let matching: Vec<usize> = parts
                .iter()
                .filter(|(part, _)| members.contains(part))
                .map(|&(_, variable)| variable)
                .collect();
            if !matching.is_empty() {
                let variable = self.random.pick(&matching);
                self.decide(variable, true);
            }
        }
    }

    /// The ranges of the waiting entries, or of all leaves.
    fn ranges_of_conditions(&mut self) -> Vec<u16> {
        let waiting = self.sheet.encoding.waiting();
        let ranges = waiting.iter().flat_map(|entry| &entry.version_sets);
        let ranges: Vec<u16> = ranges.map(|range| range.0 as u16).collect();
        if !ranges.is_empty() && self.random.chance(60) {
            return ranges;
        }
        let conditions = self.sheet.catalogue.conditions.iter();
        conditions
            .filter_map(|condition| match *condition {
                job::catalogue::Condition::Leaf { range } => Some(range),
                _ => None,
            })
            .collect()
    }

    fn decide_a_part(&mut self) {
        let parts = self.part_variables();
        if !parts.is_empty() {
            let (_, variable) = self.random.pick(&parts);
            let value = self.random.chance(70);
            self.decide(variable, value);
        }
    }

    /// The root and helpers too.
    fn decide_any(&mut self) {
        let variable = self.random.below(self.sheet.encoding.variables());
        let value = self.random.chance(50);
        self.decide(variable, value);
    }

    fn undo(&mut self) {
        let last = self.sheet.encoding.last_level() as usize;
        let level = self.random.below(last + 2) as u16;
        self.give(Record::Undo { level });
    }
}
