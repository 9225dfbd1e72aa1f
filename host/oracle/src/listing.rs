//! The kit listing of what the reference has stored.

use std::{fmt::Write, ops::ControlFlow};

use job::catalogue::Owner;
use resolvo::{
    Requirement,
    runtime::{ClauseKind, Encoding, Origin, SignedVariable},
};

use crate::sheet::Sheet;

/// The listing, or `None` if it is longer than the area.
pub fn listing(sheet: &Sheet, area: usize) -> Option<Vec<u8>> {
    let mut lines = Lines { text: String::new(), area };
    let _ = lines.all(sheet);
    (lines.text.len() <= area).then(|| lines.text.into_bytes())
}

/// Goes on until the text has passed the area: some clauses are too long to be printed whole.
struct Lines {
    text: String,
    area: usize,
}

type Going = ControlFlow<()>;

impl Lines {
    fn all(&mut self, sheet: &Sheet) -> Going {
        let encoding = &*sheet.encoding;
        for variable in 0..encoding.variables() {
            self.line(format!("v {variable} {}", origin_text(encoding.origin(variable))))?;
        }
        for clause in 0..encoding.clauses() {
            self.clause(encoding, clause)?;
        }
        for &owner in sheet.opened_owners.borrow().iter() {
            self.line(format!("o {}", owner_text(owner)))?;
        }
        for name in encoding.opened_names() {
            self.line(format!("p {}", name.into_raw()))?;
        }
        for (run, clause) in &sheet.conflicts {
            self.line(format!("x {run} {clause}"))?;
        }
        for (variable, clause) in encoding.negative_assertions() {
            self.line(format!("n {variable} {clause}"))?;
        }
        for decided in encoding.decisions() {
            let value = u8::from(decided.value);
            let clause = decided.clause.map_or("-".to_string(), |clause| clause.to_string());
            self.line(format!("d {} {value} {} {clause}", decided.variable, decided.level))?;
        }
        self.waiting(encoding)
    }

    fn clause(&mut self, encoding: &dyn Encoding, clause: usize) -> Going {
        let kind = encoding.clause(clause);
        self.write(format!("c {clause} {}", clause_word(kind)))?;
        if kind == ClauseKind::Lock {
            // The reference walks a lock's literals the other way round.
            let mut literals = Vec::new();
            encoding.visit_literals(clause, &mut |literal| {
                literals.push(literal);
                ControlFlow::Continue(())
            });
            literals.iter().rev().try_for_each(|&literal| self.literal(literal))?;
        } else {
            encoding.visit_literals(clause, &mut |literal| self.literal(literal));
        }
        self.line(String::new())
    }

    fn literal(&mut self, literal: SignedVariable) -> Going {
        let sign = if literal.positive { '+' } else { '-' };
        self.write(format!(" {sign}{}", literal.variable))
    }

    fn waiting(&mut self, encoding: &dyn Encoding) -> Going {
        for entry in encoding.waiting() {
            let owner = owner_text(entry.owner.map(|solvable| solvable.into_raw() as u16));
            let goal = goal_text(entry.requirement);
            let mut line = format!("w {} {owner} {goal}", entry.condition.as_u32());
            for range in entry.version_sets {
                let _ = write!(line, " {}", range.0);
            }
            self.line(line)?;
        }
        ControlFlow::Continue(())
    }

    fn line(&mut self, line: String) -> Going {
        self.write(line + "\n")
    }

    fn write(&mut self, text: String) -> Going {
        self.text.push_str(&text);
        if self.text.len() > self.area {
            return ControlFlow::Break(());
        }
        ControlFlow::Continue(())
    }
}

fn origin_text(origin: Origin) -> String {
    match origin {
        Origin::Root => "root".to_string(),
        Origin::Solvable(solvable) => format!("part {}", solvable.into_raw()),
        Origin::ForbidMultiple(name) => format!("forbid {}", name.into_raw()),
        Origin::AtLeastOne(name) => format!("one {}", name.into_raw()),
        Origin::ConstrainsViolation(range) => format!("violation {}", range.0),
        Origin::RequiresGate(requirement) => format!("gate {}", goal_text(requirement)),
    }
}

fn clause_word(kind: ClauseKind) -> String {
    let word = match kind {
        ClauseKind::InstallRoot => "install",
        ClauseKind::Requires => "requires",
        ClauseKind::ForbidMultipleInstances => "forbid",
        ClauseKind::Constrains => "constrains",
        ClauseKind::ConstrainsExcluded => "aux-out",
        ClauseKind::ConstrainsParent => "aux-owner",
        ClauseKind::Lock => "lock",
        ClauseKind::Excluded(reason) => return format!("excluded {}", reason.0),
        ClauseKind::AnyOf => "any",
    };
    word.to_string()
}

fn owner_text(owner: Owner) -> String {
    owner.map_or("root".to_string(), |part| part.to_string())
}

fn goal_text(requirement: Requirement) -> String {
    match requirement {
        Requirement::Single(range) => format!("range {}", range.0),
        Requirement::Union(union) => format!("union {}", union.0),
    }
}
