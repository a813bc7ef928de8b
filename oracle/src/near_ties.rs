//! Finds call lists on which the platform's logarithm and powers publish another rate or state than
//! document 01's. Usage: near_ties [packets] COUNT SEED DIRECTORY. With the word 'packets' the lists start a
//! controller by packets.
//!
//! A short list has one float that is bisected to where the choice between two candidates flips;
//! the floats next to that place are tried with both logarithms. The list ends where the two part.

use std::process::ExitCode;
use std::{env, fs, io};

#[allow(dead_code)]
mod answer_line;
#[path = "../vendor/bandwidth.rs"]
#[rustfmt::skip]
#[allow(dead_code)]
mod bandwidth;
mod bwe;
mod instant;
mod limit;
#[allow(dead_code)]
mod line;
mod platform_bwe;
#[allow(dead_code)]
mod random;
#[allow(dead_code)]
mod tie;

use answer_line::{Answer, ANSWER_LENGTH};
use line::Profile;
use random::Random;
use tie::{best, start, text, Line, Tie};

const START: u64 = 1_000_000_000;
const NEIGHBOURS: u64 = 40;

/// What both logarithms make of a list: the last answer and the candidates behind it.
struct Both {
    exact: (Answer, Vec<[f64; 3]>),
    platform: (Answer, Vec<[f64; 3]>),
}

macro_rules! play {
    ($tree:ident, $lines:expr) => {{
        let lines: Vec<String> = $lines.iter().map(text).collect();
        let (last, before) = lines.split_last().expect("a list has lines");
        let mut program = $tree::call_list::Program::new();
        let mut again = $tree::call_list::Program::new();
        for line in before {
            program.answer(line.as_bytes());
            again.answer(line.as_bytes());
        }
        (program.answer(last.as_bytes()), again.into_judged(last.as_bytes()))
    }};
}

fn both(lines: &[Line]) -> Both {
    Both { exact: play!(bwe, lines), platform: play!(platform_bwe, lines) }
}

impl Both {
    /// Whether a viewer would notice: rates that differ by more than a hundredth.
    fn part(&self) -> bool {
        let (ours, theirs) = (self.exact.0.rate, self.platform.0.rate);
        let (ours, theirs) = (f64::from_bits(ours), f64::from_bits(theirs));
        (ours - theirs).abs() > 0.01 * ours.max(theirs)
    }

    fn explain(&self) -> String {
        let mut out = String::new();
        for (who, (answer, judged)) in
            [("document 01", &self.exact), ("the platform", &self.platform)]
        {
            let mut line = [0; ANSWER_LENGTH + 1];
            answer.write(&mut line);
            let rate = f64::from_bits(answer.rate);
            out += &format!("{who}: {}", String::from_utf8_lossy(&line));
            out += &format!("  state {}, rate {rate}\n", answer.state);
            for (place, [rate, loss, objective]) in judged.iter().enumerate() {
                let mark = if best(judged) == Some(place) { "*" } else { " " };
                let bits = objective.to_bits();
                out += &format!("  {mark} {rate:.17e} loss {loss:.6} objective {objective:.17e}");
                out += &format!(" {bits:016X}\n");
            }
        }
        out
    }
}

/// The list up to the first line after which they part.
fn until_parted(lines: &[Line]) -> &[Line] {
    let parted = (1..lines.len()).find(|&end| both(&lines[..end]).part());
    &lines[..parted.unwrap_or(lines.len())]
}

fn search(profile: Profile, count: usize, seed: u64, directory: &str) -> io::Result<()> {
    let mut random = Random::new(seed);
    let (mut found, mut tries, mut places) = (0, 0_u64, 0_u64);
    while found < count {
        tries += 1;
        let tie = Tie::random_of(profile, &mut random, START);
        let whole = |lines: &[Line]| [start(profile), lines].concat();
        for flip in tie.flips(|lines| best(&play!(bwe, whole(lines)).1)) {
            places += 1;
            let near = flip.saturating_sub(NEIGHBOURS)..flip + NEIGHBOURS;
            let Some(a) = near.into_iter().find(|&a| both(&whole(&tie.with(a))).part()) else {
                continue;
            };
            found += 1;
            let lines = whole(&tie.with(a));
            let lines = until_parted(&lines);
            let list: Vec<String> = lines.iter().map(|line| text(line) + "\n").collect();
            fs::write(format!("{directory}/near_tie_{found}.txt"), list.concat())?;
            fs::write(format!("{directory}/near_tie_{found}.why"), both(lines).explain())?;
            break;
        }
    }
    println!("{found} found in {tries} lists, {places} places where the choice flips");
    Ok(())
}

fn main() -> io::Result<ExitCode> {
    let arguments: Vec<String> = env::args().skip(1).collect();
    let (profile, arguments) = match arguments.as_slice() {
        [word, rest @ ..] if word == "packets" => (Profile::Packets, rest),
        all => (Profile::Bytes, all),
    };
    let [count, seed, directory] = arguments else {
        eprintln!("usage: near_ties [packets] COUNT SEED DIRECTORY");
        return Ok(ExitCode::from(2));
    };
    let (Ok(count), Ok(seed)) = (count.parse(), seed.parse()) else {
        eprintln!("COUNT and SEED are numbers");
        return Ok(ExitCode::from(2));
    };
    search(profile, count, seed, directory)?;
    Ok(ExitCode::SUCCESS)
}
