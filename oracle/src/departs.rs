//! Prints the number of the first line of the call list on standard input at which the limit of request Q-5
//! changed a result, inner ones too, or 0 if it changed none. From that line on a list has left demand 2.
//! With the word 'profiles' how many lines a controller by bytes answers, and one by packets (request Q-7), stand
//! behind it. Constant memory.

use std::{env, io};

#[allow(dead_code)]
mod answer_line;
#[path = "../vendor/bandwidth.rs"]
#[rustfmt::skip]
#[allow(dead_code)]
mod bandwidth;
mod bwe;
mod instant;
mod limit;
mod line;
mod stream;

use line::Profile;

fn main() -> io::Result<()> {
    let mut program = bwe::call_list::Program::new();
    let (mut lines, mut first, mut by_packets) = (0_u64, 0_u64, 0_u64);
    stream::run(io::stdin().lock(), io::sink(), |line| {
        let answer = program.answer(line);
        lines += 1;
        by_packets += u64::from(program.profile() == Profile::Packets);
        if limit::changed() && first == 0 {
            first = lines;
        }
        answer
    })?;
    match env::args().nth(1).as_deref() {
        Some("profiles") => println!("{first} {} {by_packets}", lines - by_packets),
        _ => println!("{first}"),
    }
    Ok(())
}
