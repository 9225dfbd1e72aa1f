//! Records: one byte of kind, then a body whose length the kind fixes.

/// Owner 65,535.
pub const ROOT: u16 = 65_535;
/// Condition 65,535.
pub const NO_CONDITION: u16 = 65_535;
pub const FIRST_SHEET_KIND: u8 = 32;

#[derive(Clone, Copy, Debug, PartialEq, Eq)]
pub enum Record {
    Name { flags: u8 },
    Part { name: u16, flags: u8, unknown_reason: u16, exclusion_reason: u16 },
    Range { name: u16 },
    Member { range: u16, part: u16 },
    Union,
    UnionMember { union: u16, range: u16 },
    Leaf { range: u16 },
    Joined { operator: u8, left: u16, right: u16 },
    Requirement { owner: u16, form: u8, number: u16, condition: u16 },
    Constraint { owner: u16, range: u16 },
    Add { owner: u16 },
    Draw { condition: u16 },
    Run { level: u16 },
    Decide { variable: u16, value: u8, level: u16 },
    Undo { level: u16 },
}

/// The length of the body of each kind.
pub fn body_length(kind: u8) -> Option<usize> {
    Some(match kind {
        5 => 0,
        1 => 1,
        3 | 7 | 32 | 33 | 34 | 36 => 2,
        4 | 6 | 10 => 4,
        8 | 35 => 5,
        2 | 9 => 7,
        _ => return None,
    })
}

impl Record {
    /// The record of this kind; the body has the kind's length.
    pub fn from_body(kind: u8, body: &[u8]) -> Record {
        let word = |at: usize| u16::from_le_bytes([body[at], body[at + 1]]);
        match kind {
            1 => Record::Name { flags: body[0] },
            2 => Record::Part {
                name: word(0),
                flags: body[2],
                unknown_reason: word(3),
                exclusion_reason: word(5),
            },
            3 => Record::Range { name: word(0) },
            4 => Record::Member { range: word(0), part: word(2) },
            5 => Record::Union,
            6 => Record::UnionMember { union: word(0), range: word(2) },
            7 => Record::Leaf { range: word(0) },
            8 => Record::Joined { operator: body[0], left: word(1), right: word(3) },
            9 => Record::Requirement {
                owner: word(0),
                form: body[2],
                number: word(3),
                condition: word(5),
            },
            10 => Record::Constraint { owner: word(0), range: word(2) },
            32 => Record::Add { owner: word(0) },
            33 => Record::Draw { condition: word(0) },
            34 => Record::Run { level: word(0) },
            35 => Record::Decide { variable: word(0), value: body[2], level: word(3) },
            36 => Record::Undo { level: word(0) },
            _ => unreachable!("body_length knows the kinds"),
        }
    }

    pub fn to_bytes(self) -> Vec<u8> {
        let mut bytes = Vec::with_capacity(8);
        let mut put = |kind: u8, fields: &[Field]| {
            bytes.push(kind);
            for field in fields {
                match *field {
                    Field::Byte(byte) => bytes.push(byte),
                    Field::Word(word) => bytes.extend(word.to_le_bytes()),
                }
            }
        };
        use Field::{Byte, Word};
        match self {
            Record::Name { flags } => put(1, &[Byte(flags)]),
            Record::Part { name, flags, unknown_reason, exclusion_reason } => {
                put(2, &[Word(name), Byte(flags), Word(unknown_reason), Word(exclusion_reason)])
            }
            Record::Range { name } => put(3, &[Word(name)]),
            Record::Member { range, part } => put(4, &[Word(range), Word(part)]),
            Record::Union => put(5, &[]),
            Record::UnionMember { union, range } => put(6, &[Word(union), Word(range)]),
            Record::Leaf { range } => put(7, &[Word(range)]),
            Record::Joined { operator, left, right } => {
                put(8, &[Byte(operator), Word(left), Word(right)])
            }
            Record::Requirement { owner, form, number, condition } => {
                put(9, &[Word(owner), Byte(form), Word(number), Word(condition)])
            }
            Record::Constraint { owner, range } => put(10, &[Word(owner), Word(range)]),
            Record::Add { owner } => put(32, &[Word(owner)]),
            Record::Draw { condition } => put(33, &[Word(condition)]),
            Record::Run { level } => put(34, &[Word(level)]),
            Record::Decide { variable, value, level } => {
                put(35, &[Word(variable), Byte(value), Word(level)])
            }
            Record::Undo { level } => put(36, &[Word(level)]),
        }
        bytes
    }
}

enum Field {
    Byte(u8),
    Word(u16),
}

/// The bytes of a list of records.
pub fn job_of(records: impl IntoIterator<Item = Record>) -> Vec<u8> {
    records.into_iter().flat_map(Record::to_bytes).collect()
}
