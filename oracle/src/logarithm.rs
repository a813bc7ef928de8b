//! Writes a list of calls on the logarithm, the power and the weights, and the answer to each by
//! document 01's steps. Every answer is held to a second one, found another way; where they part
//! the program writes no files and exits with 1. See README.md.

use std::collections::BTreeSet;
use std::fmt::Write;
use std::process::ExitCode;
use std::{env, fs, io};

mod random;
mod steps;

use random::Random;

const SEED: u64 = 0x0001_3741_A4A9_4001;
const SIGN: u64 = 1 << 63;
const INFINITY: u64 = 0x7FF0_0000_0000_0000;
const SMALLEST_NORMAL: u64 = 0x0010_0000_0000_0000;
const ONE: u64 = 0x3FF0_0000_0000_0000;

#[derive(Default)]
struct Replay {
    calls: String,
    answers: String,
    faults: String,
}

impl Replay {
    fn ln(&mut self, argument: u64) {
        let x = f64::from_bits(argument);
        let taken = x.is_normal() && x.is_sign_positive();
        let answer = taken.then(|| steps::ln(x));
        self.call(format_args!("l {argument:016x}"), answer, ln_checks(argument, answer));
    }

    fn power(&mut self, base: f64, n: u32) {
        let answer = steps::powi(base, n);
        let checks = bits(answer) == bits(digit_product(base, n));
        self.call(format_args!("p {:016x} {n:08x}", base.to_bits()), Some(answer), checks);
    }

    fn weight(&mut self, age: u64) {
        let answer = if age < 15 { steps::powi(0.9, age as u32) } else { 0.0 };
        let near = if age < 15 { 0.9_f64.powf(age as f64) } else { 0.0 };
        self.call(format_args!("w {age:016x}"), Some(answer), (answer - near).abs() < 1e-15);
    }

    fn call(&mut self, call: std::fmt::Arguments, answer: Option<f64>, checks: bool) {
        let (refusal, result) = answer.map_or((6, 0), |x| (0, bits(x)));
        writeln!(self.calls, "{call}").expect("a String grows");
        writeln!(self.answers, "{refusal} {result:016x}").expect("a String grows");
        if !checks {
            writeln!(self.faults, "{call}: {refusal} {result:016x}").expect("a String grows");
        }
    }
}

/// Every NaN is written as one.
fn bits(x: f64) -> u64 {
    if x.is_nan() {
        return 0x7FF8_0000_0000_0000;
    }
    x.to_bits()
}

/// The argument is refused by its bits alone; else it is exactly the reduced argument times 2^k,
/// and the answer at most one float from the platform's logarithm.
fn ln_checks(argument: u64, answer: Option<f64>) -> bool {
    let Some(answer) = answer else {
        return !(SMALLEST_NORMAL..INFINITY).contains(&argument);
    };
    let x = f64::from_bits(argument);
    let (k, reduced) = steps::reduce(x);
    let scale = |k: i32| 2.0_f64.powi(k);
    let k = k as i32;
    let back = reduced * scale(k / 2) * scale(k - k / 2);
    let platform = x.ln();
    back == x && platform.to_bits().abs_diff(answer.to_bits()) <= 1
}

/// The product of base^(2^i) over the binary digits i of n that are 1.
fn digit_product(base: f64, n: u32) -> f64 {
    let squares = std::iter::successors(Some(base), |square| Some(square * square));
    let digits = (0..32).map(|i| (n >> i) & 1 == 1);
    squares.zip(digits).filter(|&(_, digit)| digit).map(|(square, _)| square).product()
}

/// All arguments, each once.
fn arguments(random: &mut Random) -> BTreeSet<u64> {
    let mut arguments = BTreeSet::from_iter(outside(random));
    arguments.extend(binades());
    arguments.extend(near_one());
    for _ in 0..45_000 {
        arguments.insert(SMALLEST_NORMAL + random.below(INFINITY - SMALLEST_NORMAL));
    }
    for _ in 0..20_000 {
        let scale = random.pick(&[1.0, 1e-3, 1e-6]);
        arguments.insert((scale * random.fraction()).to_bits());
    }
    for _ in 0..10_000 {
        let offset = random.fraction() * 0.5_f64.powi(random.below(40) as i32);
        arguments.extend([(1.0 + offset).to_bits(), (1.0 - offset / 2.0).to_bits()]);
    }
    arguments
}

/// Zeros, subnormals, infinities, negatives and NaNs.
fn outside(random: &mut Random) -> Vec<u64> {
    let mut arguments = vec![0, 1, SMALLEST_NORMAL - 1, INFINITY, INFINITY + 1, u64::MAX >> 1];
    for _ in 0..400 {
        arguments.push(random.below(SMALLEST_NORMAL));
        arguments.push(INFINITY + random.below(SIGN - INFINITY));
        arguments.push(random.below(SIGN) | SIGN);
    }
    let negative: Vec<u64> = arguments.iter().map(|argument| argument | SIGN).collect();
    [arguments, negative, vec![SMALLEST_NORMAL | SIGN, ONE | SIGN]].concat()
}

/// The ends of every binade, and in it both sides of where k becomes the next.
fn binades() -> Vec<u64> {
    let mut arguments = Vec::new();
    for field in 1..0x7FF {
        let (first, boundary) = (field << 52, (field << 52) + (0x6_A09E << 32));
        arguments.extend([first, first + 1, first + SMALLEST_NORMAL - 1]);
        arguments.extend([boundary - 1, boundary, boundary + 1]);
    }
    arguments
}

fn near_one() -> Vec<u64> {
    let steps = 1..=2_000;
    let powers = (0..52).flat_map(|i| [(1 << i) - 1, 1 << i, (1 << i) + 1]);
    let distances: Vec<u64> = steps.chain(powers).collect();
    distances.iter().flat_map(|distance| [ONE - distance, ONE, ONE + distance]).collect()
}

fn powers(replay: &mut Replay, random: &mut Random) {
    let ordinary = [0.9, 1.0, -1.0, -0.9, 0.5, 2.0, -2.0, 1.1, 3.0, 10.0];
    let ends = [0.0, -0.0, f64::from_bits(1), f64::MIN_POSITIVE, f64::MAX, f64::MIN];
    let beyond = [f64::INFINITY, f64::NEG_INFINITY, f64::NAN];
    let by_one = [1.0_f64.next_up(), 1.0_f64.next_down()];
    let small = [0, 1, 2, 3, 4, 7, 8, 13, 14, 15, 16, 31, 32, 1_023, 1_024, 1_074, 1_075];
    let large = [0xFFFF, 1 << 16, 1 << 31, u32::MAX - 1, u32::MAX];
    for base in ordinary.into_iter().chain(ends).chain(beyond).chain(by_one) {
        for n in small.into_iter().chain(large) {
            replay.power(base, n);
        }
    }
    for _ in 0..1_000 {
        let n = random.bits() as u32;
        let close = 1.0 + (random.fraction() - 0.5) * 0.5_f64.powi(random.below(32) as i32);
        replay.power(2.0 * random.fraction(), n >> (24 + random.below(8)));
        replay.power(close, n >> random.below(32));
        replay.power(f64::from_bits(random.bits()), n >> (28 + random.below(4)));
    }
}

fn weights(replay: &mut Replay, random: &mut Random) {
    let ends = [1 << 32, (1 << 32) + 14, 1 << 61, 1 << 63, (1 << 63) + 14, u64::MAX];
    for age in (0..=40).chain(ends) {
        replay.weight(age);
    }
    for _ in 0..60 {
        replay.weight(random.bits() >> random.below(64));
    }
}

fn main() -> io::Result<ExitCode> {
    let paths: Vec<String> = env::args().skip(1).collect();
    let [calls, answers] = paths.as_slice() else {
        eprintln!("usage: logarithm CALLS ANSWERS");
        return Ok(ExitCode::from(2));
    };
    let mut random = Random::new(SEED);
    let mut replay = Replay::default();
    for argument in arguments(&mut random) {
        replay.ln(argument);
    }
    powers(&mut replay, &mut random);
    weights(&mut replay, &mut random);
    eprintln!("{} calls", replay.calls.lines().count());
    if !replay.faults.is_empty() {
        eprint!("answers that differ from the second ones:\n{}", replay.faults);
        return Ok(ExitCode::FAILURE);
    }
    fs::write(calls, replay.calls)?;
    fs::write(answers, replay.answers)?;
    Ok(ExitCode::SUCCESS)
}
