//! Random catalogues, biased to what is hard: gates, violation variables, empty complements, no
//! candidates, unknown parts, and a name that hardly anything but conditions speaks of.

use job::{
    catalogue::{
        CONDITIONS, CONSTRAINTS, Catalogue, EXCLUDED, FAVOURED, LOCKED, NAMES, PARTS, RANGES,
        READY, REQUIREMENTS, UNIONS, UNKNOWN,
    },
    record::{NO_CONDITION, ROOT, Record},
};

use crate::random::Random;

/// Leaves room for as many rules as there can be in a job that is not overlong.
const MOST_RECORDS_BEFORE_RULES: usize = 6_500;

/// How many of each, both ends included.
#[derive(Clone, Copy)]
pub struct Shape {
    names: (usize, usize),
    parts: (usize, usize),
    ranges: (usize, usize),
    unions: (usize, usize),
    conditions: (usize, usize),
    requirements: (usize, usize),
    constraints: (usize, usize),
    pub steps: (usize, usize),
    ready_percents: &'static [usize],
    /// Parts spread evenly over the names, ranges of one or two parts.
    narrow: bool,
}

const READY_PERCENTS: &[usize] = &[10, 50, 90];

impl Shape {
    pub fn small() -> Self {
        Shape {
            names: (1, 4),
            parts: (1, 8),
            ranges: (1, 6),
            unions: (0, 2),
            conditions: (0, 4),
            requirements: (1, 8),
            constraints: (0, 3),
            steps: (2, 20),
            ready_percents: READY_PERCENTS,
            narrow: false,
        }
    }

    /// Few goals, many requirements on them and hardly a part that opens by itself: so goals come
    /// again in later runs.
    pub fn repeating() -> Self {
        Shape {
            names: (2, 3),
            parts: (4, 8),
            ranges: (3, 6),
            unions: (0, 1),
            conditions: (0, 2),
            requirements: (8, 16),
            constraints: (0, 1),
            steps: (2, 12),
            ready_percents: &[0, 10],
            narrow: true,
        }
    }

    pub fn medium() -> Self {
        Shape {
            names: (1, 8),
            parts: (8, 40),
            ranges: (4, 24),
            unions: (0, 8),
            conditions: (0, 16),
            requirements: (4, 40),
            constraints: (0, 16),
            steps: (4, 40),
            ready_percents: READY_PERCENTS,
            narrow: false,
        }
    }

    /// Each count a share of its ceiling.
    pub fn large(random: &mut Random) -> Self {
        let mut share = |ceiling: usize| {
            let count = ceiling / random.pick(&[1, 1, 2, 4, 8]);
            (count, count)
        };
        Shape {
            names: share(NAMES),
            parts: share(PARTS),
            ranges: share(RANGES),
            unions: share(UNIONS),
            conditions: share(CONDITIONS),
            requirements: share(REQUIREMENTS),
            constraints: share(CONSTRAINTS),
            steps: (10, 60),
            ready_percents: READY_PERCENTS,
            narrow: false,
        }
    }
}

pub struct Draft {
    pub records: Vec<Record>,
    pub catalogue: Catalogue,
}

pub fn draft(random: &mut Random, shape: Shape) -> Draft {
    let mut maker = Maker::new(random, shape);
    maker.names_parts_and_ranges(shape);
    maker.members();
    maker.rules(shape);
    maker.late_part();
    Draft { records: maker.records, catalogue: maker.catalogue }
}

struct Maker<'a> {
    random: &'a mut Random,
    records: Vec<Record>,
    catalogue: Catalogue,
    names: usize,
    /// A name with many parts.
    large_name: u16,
    /// A name that goals seldom speak of.
    condition_name: Option<u16>,
    ready_percent: usize,
    narrow: bool,
}

#[derive(Clone, Copy)]
enum Rule {
    Union,
    UnionMember,
    Condition,
    Requirement,
    Constraint,
}

impl<'a> Maker<'a> {
    fn new(random: &'a mut Random, shape: Shape) -> Self {
        let names = random.between(shape.names.0, shape.names.1);
        let large_name = random.below(names) as u16;
        let narrow = shape.narrow;
        let condition_name =
            (names > 1 && !narrow && random.chance(40)).then(|| random.below(names) as u16);
        let ready_percent = random.pick(shape.ready_percents);
        let (records, catalogue) = (Vec::new(), Catalogue::default());
        Maker {
            random,
            records,
            catalogue,
            names,
            large_name,
            condition_name,
            ready_percent,
            narrow,
        }
    }

    /// Keeps the record if the catalogue takes it.
    fn give(&mut self, record: Record) {
        if self.catalogue.take(record).is_ok() {
            self.records.push(record);
        }
    }

    fn count(&mut self, (low, high): (usize, usize)) -> usize {
        self.random.between(low, high)
    }

    fn names_parts_and_ranges(&mut self, shape: Shape) {
        let several_percent = self.random.pick(&[0, 30, 60]);
        for name in 0..self.names as u16 {
            let percent = if self.condition_name == Some(name) { 75 } else { several_percent };
            let flags = u8::from(self.random.chance(percent));
            self.give(Record::Name { flags });
        }
        let (parts, ranges) = (self.count(shape.parts), self.count(shape.ranges));
        let mut parts_and_ranges = [vec![true; parts], vec![false; ranges]].concat();
        self.random.shuffle(&mut parts_and_ranges);
        for is_part in parts_and_ranges {
            let name = self.name();
            if is_part { self.part(name) } else { self.give(Record::Range { name }) }
        }
    }

    fn name(&mut self) -> u16 {
        match self.random.below(10) {
            0..4 if !self.narrow => self.large_name,
            4..6 if !self.narrow => self.condition_name.unwrap_or(self.large_name),
            _ => self.random.below(self.names) as u16,
        }
    }

    fn part(&mut self, name: u16) {
        let mut flags = 0;
        let percents =
            [(READY, self.ready_percent), (UNKNOWN, 8), (LOCKED, 6), (FAVOURED, 15), (EXCLUDED, 8)];
        for (flag, percent) in percents {
            flags |= if self.random.chance(percent) { flag } else { 0 };
        }
        let (unknown_reason, exclusion_reason) =
            (self.reason(flags & UNKNOWN), self.reason(flags & EXCLUDED));
        self.give(Record::Part { name, flags, unknown_reason, exclusion_reason });
    }

    /// Seldom other than 0 where the flag is not set.
    fn reason(&mut self, flag: u8) -> u16 {
        if flag == 0 && self.random.chance(90) {
            return 0;
        }
        self.random.pick(&[0, 1, 7, 255, 256, 300, 65_535])
    }

    fn members(&mut self) {
        for range in 0..self.catalogue.ranges.len() as u16 {
            if self.records.len() > MOST_RECORDS_BEFORE_RULES {
                return;
            }
            let name = self.catalogue.ranges[usize::from(range)].name;
            let parts = self.parts_of(name);
            let mut members = self.some_of(parts);
            self.random.shuffle(&mut members);
            for part in members {
                self.give(Record::Member { range, part });
            }
        }
    }

    fn parts_of(&self, name: u16) -> Vec<u16> {
        let numbered = self.catalogue.parts.iter().enumerate();
        numbered.filter(|(_, part)| part.name == name).map(|(number, _)| number as u16).collect()
    }

    /// All, none, one, all but one, or about half.
    fn some_of(&mut self, parts: Vec<u16>) -> Vec<u16> {
        let chosen = self.random.below(parts.len().max(1));
        let one_or_two = self.random.between(1, 2);
        match self.random.below(10) {
            0..9 if self.narrow => parts.into_iter().skip(chosen).take(one_or_two).collect(),
            0..3 => parts,
            3 => Vec::new(),
            4 => parts.get(chosen).copied().into_iter().collect(),
            5 => parts.iter().copied().filter(|part| Some(part) != parts.get(chosen)).collect(),
            _ => parts.into_iter().filter(|_| self.random.chance(50)).collect(),
        }
    }

    fn rules(&mut self, shape: Shape) {
        let unions = self.count(shape.unions);
        let mut rules = [
            vec![Rule::Union; unions],
            vec![Rule::UnionMember; 2 * unions],
            vec![Rule::Condition; self.count(shape.conditions)],
            vec![Rule::Requirement; self.count(shape.requirements)],
            vec![Rule::Constraint; self.count(shape.constraints)],
        ]
        .concat();
        self.random.shuffle(&mut rules);
        // Goals and conditions before most of the requirements that speak of them.
        if self.random.chance(80) {
            rules.sort_by_key(|rule| matches!(rule, Rule::Requirement | Rule::Constraint));
        }
        for rule in rules {
            self.rule(rule);
        }
    }

    fn rule(&mut self, rule: Rule) {
        match rule {
            Rule::Union => self.give(Record::Union),
            Rule::UnionMember => {
                let union = self.random.below(self.catalogue.unions.len().max(1)) as u16;
                let range = self.goal_range();
                self.give(Record::UnionMember { union, range });
            }
            Rule::Condition => self.condition(),
            Rule::Requirement => self.requirement(),
            Rule::Constraint => {
                let (owner, range) = (self.owner(), self.goal_range());
                self.give(Record::Constraint { owner, range });
            }
        }
    }

    fn condition(&mut self) {
        let given = self.catalogue.conditions.len();
        if given == 0 || self.random.chance(55) {
            let range = self.leaf_range();
            return self.give(Record::Leaf { range });
        }
        let operator = u8::from(self.random.chance(50));
        let (left, right) = (self.random.below(given) as u16, self.random.below(given) as u16);
        self.give(Record::Joined { operator, left, right });
    }

    fn requirement(&mut self) {
        let (unions, conditions) = (self.catalogue.unions.len(), self.catalogue.conditions.len());
        let of_union = unions > 0 && self.random.chance(35);
        let number = match of_union {
            true => self.random.below(unions) as u16,
            false => self.goal_range(),
        };
        let condition = match conditions > 0 && self.random.chance(55) {
            true => self.random.below(conditions) as u16,
            false => NO_CONDITION,
        };
        let owner = self.owner();
        self.give(Record::Requirement { owner, form: of_union.into(), number, condition });
    }

    fn owner(&mut self) -> u16 {
        let condition_parts = self
            .condition_name
            .map(|condition_name| self.parts_of(condition_name))
            .unwrap_or_default();
        match self.random.below(10) {
            0..4 if !condition_parts.is_empty() => self.random.pick(&condition_parts),
            0..8 => self.random.below(self.catalogue.parts.len().max(1)) as u16,
            _ => ROOT,
        }
    }

    fn goal_range(&mut self) -> u16 {
        self.range_where(90, |name, condition_name| Some(name) != condition_name)
    }

    fn leaf_range(&mut self) -> u16 {
        self.range_where(70, |name, condition_name| Some(name) == condition_name)
    }

    fn range_where(&mut self, percent: usize, wanted: impl Fn(u16, Option<u16>) -> bool) -> u16 {
        let ranges = self.catalogue.ranges.iter().enumerate();
        let fitting: Vec<u16> = ranges
            .filter(|(_, range)| wanted(range.name, self.condition_name))
            .map(|(number, _)| number as u16)
            .collect();
        if !fitting.is_empty() && self.random.chance(percent) {
            return self.random.pick(&fitting);
        }
        self.random.below(self.catalogue.ranges.len().max(1)) as u16
    }

    /// A part behind the rules changes the complements of ranges given before it.
    fn late_part(&mut self) {
        if self.random.chance(15) {
            let name = self.name();
            self.part(name);
        }
    }
}
