//! Answers the call list on standard input as `answer` does, without the limit of request Q-5: what demand 2
//! compares with.

use std::io;

mod answer_line;
#[path = "../vendor/bandwidth.rs"]
#[rustfmt::skip]
#[allow(dead_code)]
mod bandwidth;
mod bwe;
mod instant;
#[path = "no_limit.rs"]
mod limit;
mod line;
mod stream;

fn main() -> io::Result<()> {
    let mut program = bwe::call_list::Program::new();
    stream::run(io::stdin().lock(), io::stdout().lock(), |line| program.answer(line))
}
