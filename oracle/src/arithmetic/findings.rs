//! What the published Rust does where document 01 refuses, counted by operation and reason, and what it answers
//! where a rate is limited (request Q-5).

use std::cmp::Reverse;
use std::collections::BTreeMap;
use std::fmt;

use crate::operations::{find, Kind, Operands, Operation};

#[derive(Default)]
pub struct Findings {
    refused: BTreeMap<(u8, &'static str), Refused>,
    limited: BTreeMap<u8, Limited>,
    faults: Vec<String>,
}

/// The lines of one operation that are refused for one reason.
#[derive(Default)]
struct Refused {
    panics: usize,
    answers: usize,
    smallest: Option<(Operands, u64)>,
}

/// The lines of one operation that the limit changed, and of those whose operands lie from 0 to it the one whose
/// published answer is the least, with the largest first operand.
#[derive(Default)]
struct Limited {
    answers: usize,
    least: Option<(u64, Reverse<Operands>)>,
}

impl Findings {
    /// A call whose answer is limited, with the published Rust's.
    pub fn limited(&mut self, operation: &Operation, operands: Operands, published: u64) {
        let limited = self.limited.entry(operation.number).or_default();
        limited.answers += 1;
        if operands.iter().all(|&operand| (0.0..=1e15).contains(&f64::from_bits(operand))) {
            let call = (published, Reverse(operands));
            limited.least = Some(limited.least.map_or(call, |least| least.min(call)));
        }
    }

    /// A refused call, with the answer of the Rust or None for a panic.
    pub fn refused(
        &mut self,
        operation: &Operation,
        reason: &'static str,
        operands: Operands,
        answer: Option<u64>,
    ) {
        let refused = self.refused.entry((operation.number, reason)).or_default();
        let Some(answer) = answer else {
            refused.panics += 1;
            return;
        };
        refused.answers += 1;
        let smaller = refused.smallest.is_none_or(|(least, _)| {
            magnitudes(operation.kinds, operands) < magnitudes(operation.kinds, least)
        });
        if smaller {
            refused.smallest = Some((operands, answer));
        }
    }

    /// A call on which the Rust and document 01 cannot both be right.
    pub fn fault(&mut self, operation: &Operation, operands: Operands, what: &str) {
        let [a, b, c] = operands;
        let (number, name) = (operation.number, operation.name);
        self.faults.push(format!("{number:02x} {a:016x} {b:016x} {c:016x} {name}: {what}"));
    }

    pub fn has_faults(&self) -> bool {
        !self.faults.is_empty()
    }
}

/// Operands without their signs, the less the smaller; of two signs the positive comes first.
fn magnitudes(kinds: &[Kind], operands: Operands) -> Vec<(u64, u64)> {
    let magnitude = |(&kind, operand): (&Kind, u64)| match kind {
        Kind::Float => (operand & (u64::MAX >> 1), operand >> 63),
        Kind::Signed => ((operand as i64).unsigned_abs(), operand >> 63),
        _ => (operand, 0),
    };
    kinds.iter().zip(operands).map(magnitude).collect()
}

impl fmt::Display for Findings {
    fn fmt(&self, f: &mut fmt::Formatter<'_>) -> fmt::Result {
        writeln!(f, "Refused with 7:")?;
        writeln!(
            f,
            "op {:<24} {:<30} {:>6} {:>7}  smallest that Rust answers",
            "name", "reason", "panics", "answers"
        )?;
        for (&(number, reason), refused) in &self.refused {
            let name = find(number).name;
            let (panics, answers) = (refused.panics, refused.answers);
            write!(f, "{number:02x} {name:<24} {reason:<30} {panics:>6} {answers:>7}")?;
            if let Some(([a, b, c], answer)) = refused.smallest {
                write!(f, "  {a:016x} {b:016x} {c:016x}: {answer:016x}")?;
            }
            writeln!(f)?;
        }
        writeln!(
            f,
            "Limited to 10^15 bit/s (Q-5), and the least that the published Rust answers there:"
        )?;
        for (&number, Limited { answers, least }) in &self.limited {
            write!(f, "{number:02x} {:<24} {answers:>6}", find(number).name)?;
            if let Some((published, Reverse([a, b, _]))) = least {
                write!(f, "  {a:016x} {b:016x}: {published:016x}")?;
            }
            writeln!(f)?;
        }
        writeln!(f, "Faults: {}", self.faults.len())?;
        for fault in &self.faults {
            writeln!(f, "{fault}")?;
        }
        Ok(())
    }
}
