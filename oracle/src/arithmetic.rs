//! Writes a list of calls on `Bitrate`, `DataSize`, times and f64, and the answer to each: 7 and zero
//! where document 01 refuses the call, else 0 and what the published Rust answers. Standard error
//! gets what the Rust does where document 01 refuses, and how many rates are limited. See README.md.

use std::fmt::Write;
use std::io;
use std::panic;
use std::process::ExitCode;

#[path = "../vendor/bandwidth.rs"]
#[rustfmt::skip]
mod bandwidth;
#[path = "arithmetic/calls.rs"]
mod calls;
#[path = "arithmetic/edges.rs"]
mod edges;
#[path = "arithmetic/findings.rs"]
mod findings;
mod instant;
#[cfg_attr(unlimited, path = "no_limit.rs")]
mod limit;
#[allow(dead_code)]
mod no_limit;
#[path = "arithmetic/operations.rs"]
mod operations;
mod random;
mod replay_files;
#[path = "arithmetic/rules.rs"]
mod rules;
#[path = "arithmetic/times.rs"]
mod times;

use findings::Findings;
use operations::{all, find, float, Operands, Operation, TWINS};

const _: () = assert!(usize::BITS == 64, "document 01's usize has 64 bits");

#[derive(Default)]
struct Replay {
    calls: String,
    answers: String,
    lines: usize,
    left: Vec<usize>,
    findings: Findings,
}

impl Replay {
    fn add(&mut self, operation: &Operation, operands: Operands) {
        limit::changed();
        let rust = run(operation, operands);
        if limit::changed() {
            self.limited(operation, operands);
        }
        let (refusal, result) = match (operation.rule.reason(operands), rust) {
            (None, Some(result)) => (0, result),
            (None, None) => {
                self.findings.fault(operation, operands, "a panic without a 7");
                return;
            }
            (Some(reason), rust) => {
                self.findings.refused(operation, reason, operands, rust);
                (7, operation.zero)
            }
        };
        self.compare_twins(operation, operands, rust);
        self.write(operation.number, operands, refusal, result);
    }

    /// A call whose answer the limit changed (request Q-5).
    fn limited(&mut self, operation: &Operation, operands: Operands) {
        let [a, b, _] = operands.map(float);
        let published = match operation.number {
            0x23 => no_limit::product(a, b),
            0x25 => no_limit::sum(a, b),
            _ => return self.findings.fault(operation, operands, "limited"),
        };
        self.findings.limited(operation, operands, published.to_bits());
        self.left.push(self.lines + 1);
    }

    fn compare_twins(&mut self, operation: &Operation, operands: Operands, rust: Option<u64>) {
        for &(number, twin) in TWINS {
            if number == operation.number && rust != run(find(twin), operands) {
                self.findings.fault(operation, operands, "differs from its operator");
            }
        }
    }

    fn write(&mut self, number: u8, [a, b, c]: Operands, refusal: u8, result: u64) {
        writeln!(self.calls, "{number:02x} {a:016x} {b:016x} {c:016x}").expect("a String grows");
        writeln!(self.answers, "{refusal} {result:016x}").expect("a String grows");
        self.lines += 1;
    }
}

/// What the Rust answers, or None where it panics.
fn run(operation: &Operation, operands: Operands) -> Option<u64> {
    panic::catch_unwind(|| (operation.rust)(operands)).ok()
}

fn replay() -> Replay {
    let mut replay = Replay::default();
    let lists: Vec<_> = all().map(|op| (op, calls::calls(op))).collect();
    let hook = panic::take_hook();
    panic::set_hook(Box::new(|_| {}));
    for (operation, calls) in lists {
        for operands in calls {
            replay.add(operation, operands);
        }
    }
    panic::set_hook(hook);
    replay
}

fn main() -> io::Result<ExitCode> {
    let Some(files) = replay_files::Files::named() else {
        eprintln!("usage: arithmetic CALLS ANSWERS [LEFT]");
        return Ok(ExitCode::from(2));
    };
    let replay = replay();
    eprintln!("{} calls", replay.lines);
    eprint!("{}", replay.findings);
    if replay.findings.has_faults() {
        return Ok(ExitCode::FAILURE);
    }
    files.write(&replay.calls, &replay.answers, &replay.left)?;
    Ok(ExitCode::SUCCESS)
}
