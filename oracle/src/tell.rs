//! Finds lists of the kind near, or packets-near, that tell a wrong port, which is the tree under ../wrong. Prints
//! the seed of the first. Usage: tell KIND TRIES.

use std::env;
use std::process::ExitCode;

#[allow(dead_code)]
mod answer_line;
#[path = "../vendor/bandwidth.rs"]
#[rustfmt::skip]
#[allow(dead_code)]
mod bandwidth;
mod bwe;
mod instant;
mod limit;
#[allow(dead_code)]
mod line;
#[allow(dead_code)]
mod random;
#[allow(dead_code)]
mod tie;
#[path = "../wrong/src/bwe.rs"]
mod wrong;

use line::Profile;
use tie::{best, start, text, Line, Tie};

const NEIGHBOURS: u64 = 100;

macro_rules! last {
    ($tree:ident, $lines:expr) => {{
        let mut program = $tree::call_list::Program::new();
        $lines.iter().map(|line| program.answer(text(line).as_bytes())).last()
    }};
}

fn choice(lines: &[Line]) -> Option<usize> {
    let (last, before) = lines.split_last()?;
    let mut program = bwe::call_list::Program::new();
    for line in before {
        program.answer(text(line).as_bytes());
    }
    best(&program.into_judged(text(last).as_bytes()))
}

/// The first seed of a tie's number that tells.
fn tells(profile: Profile, number: u64) -> Option<u64> {
    let tie = Tie::numbered(profile, number);
    let whole = |lines: &[Line]| [start(profile), lines].concat();
    let flip = tie.flip(|lines| choice(&whole(lines)))?;
    let is_told = |near: &u64| {
        let lines = whole(&tie.with(flip + near - NEIGHBOURS / 2));
        last!(bwe, lines) != last!(wrong, lines)
    };
    (0..NEIGHBOURS).find(is_told).map(|near| number * NEIGHBOURS + near)
}

fn main() -> ExitCode {
    let arguments: Vec<String> = env::args().skip(1).collect();
    let arguments: Vec<&str> = arguments.iter().map(String::as_str).collect();
    let (profile, tries) = match arguments.as_slice() {
        ["near", tries] => (Profile::Bytes, tries.parse()),
        ["packets-near", tries] => (Profile::Packets, tries.parse()),
        _ => {
            eprintln!("usage: tell near|packets-near TRIES");
            return ExitCode::from(2);
        }
    };
    let Ok(tries) = tries else {
        eprintln!("TRIES is not a number");
        return ExitCode::from(2);
    };
    match (1..=tries).find_map(|number| tells(profile, number)) {
        Some(seed) => {
            println!("{} {seed}", arguments[0]);
            ExitCode::SUCCESS
        }
        None => ExitCode::FAILURE,
    }
}
