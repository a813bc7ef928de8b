//! Answers the call list on standard input with `f64::ln` and `f64::powi`, as the published Rust has them.
//! Edits and limit are those of `answer`. What it answers depends on the platform and on the optimisation
//! level; see README.md.

use std::io;

mod answer_line;
#[path = "../vendor/bandwidth.rs"]
#[rustfmt::skip]
#[allow(dead_code)]
mod bandwidth;
mod instant;
mod limit;
mod line;
mod platform_bwe;
mod stream;

fn main() -> io::Result<()> {
    let mut program = platform_bwe::call_list::Program::new();
    stream::run(io::stdin().lock(), io::stdout().lock(), |line| program.answer(line))
}
