//! Answers the call list on standard input, line by line, in constant memory.

use std::io;

mod answer_line;
#[path = "../vendor/bandwidth.rs"]
#[rustfmt::skip]
#[allow(dead_code)]
mod bandwidth;
mod bwe;
mod instant;
mod limit;
mod line;
mod stream;

fn main() -> io::Result<()> {
    let mut program = bwe::call_list::Program::new();
    stream::run(io::stdin().lock(), io::stdout().lock(), |line| program.answer(line))
}
