//! The four limits of a job, their ceilings, and those of `kitlist` and of a branch.

/// A job is at most this long.
pub const JOB_CEILING: usize = 65_536;

/// How much a job's runs may make (docs/LIMITS.md).
#[derive(Clone, Copy, Debug, PartialEq, Eq)]
pub struct Limits {
    pub variables: u32,
    pub clauses: u32,
    pub condition_literals: u32,
    /// Waiting entries.
    pub waiting: u32,
}

impl Limits {
    /// No limit may be higher.
    pub const CEILINGS: Limits =
        Limits { variables: 4_096, clauses: 16_384, condition_literals: 8_192, waiting: 2_048 };

    /// Those of the program `kitlist`.
    pub const KITLIST: Limits =
        Limits { variables: 1_024, clauses: 2_048, condition_literals: 1_024, waiting: 256 };

    /// Those of a branch.
    pub const BRANCH: Limits =
        Limits { variables: 256, clauses: 512, condition_literals: 256, waiting: 64 };

    pub fn from_array(values: [u32; 4]) -> Self {
        let [variables, clauses, condition_literals, waiting] = values;
        Limits { variables, clauses, condition_literals, waiting }
    }

    pub fn to_array(self) -> [u32; 4] {
        [self.variables, self.clauses, self.condition_literals, self.waiting]
    }

    /// Whether no limit is 0 or above its ceiling.
    pub fn allowed(self) -> bool {
        let pairs = self.to_array().into_iter().zip(Self::CEILINGS.to_array());
        pairs.into_iter().all(|(limit, ceiling)| 0 < limit && limit <= ceiling)
    }

    /// Whether some count is above its limit.
    pub fn passed_by(self, counts: [usize; 4]) -> bool {
        let pairs = counts.into_iter().zip(self.to_array());
        pairs.into_iter().any(|(count, limit)| count > limit as usize)
    }
}

/// `kitlist`'s listing area in bytes.
pub const KITLIST_LISTING: usize = 65_536;
