//! The list of calls: for every operation its edges, random operands, operands next to each other
//! or to a limit, and a few chosen ones.

use std::collections::BTreeSet;

use crate::edges;
use crate::operations::{float, signed, Kind, Operands, Operation};
use crate::random::Random;
use crate::rules::Rule;

const SEED: u64 = 0x0001_3741_A4A9_4000;
const RANDOM_CALLS: usize = 150;
const CLOSE_CALLS: usize = 60;
/// A time's case and its ns are two operations, so that the number of calls doubles.
const TIME_CALLS: usize = 30;

/// The calls of one operation, each once.
pub fn calls(operation: &Operation) -> BTreeSet<Operands> {
    let mut random = Random::new(SEED + u64::from(operation.number));
    let mut calls = combinations(operation.kinds);
    let times = matches!(operation.kinds, [.., Kind::Cases(..)]);
    for _ in 0..if times { TIME_CALLS } else { RANDOM_CALLS } {
        calls.push(random_operands(operation.kinds, &mut random));
    }
    for _ in 0..if times { TIME_CALLS } else { CLOSE_CALLS } {
        calls.extend(close_operands(operation, &mut random));
        calls.extend(next_operands(operation.kinds, &mut random));
    }
    calls.extend(chosen(operation.number));
    let asked = calls.into_iter().filter(|call| !left_out(operation, call));
    asked.collect()
}

/// Of two zeros of different sign, Rust's min and max give one or the other by optimisation level.
fn left_out(operation: &Operation, &[a, b, _]: &Operands) -> bool {
    let either = matches!(operation.number, 0x00 | 0x01 | 0x1B | 0x1C);
    either && float(a) == 0.0 && float(b) == 0.0 && a != b
}

/// All combinations of the operands' edges.
fn combinations(kinds: &[Kind]) -> Vec<Operands> {
    let mut calls = vec![[0; 3]];
    for (place, &kind) in kinds.iter().enumerate() {
        let edges = edges::edges(kind, kinds.len());
        calls = calls
            .iter()
            .flat_map(|&call| edges.iter().map(move |&edge| with(call, place, edge)))
            .collect();
    }
    calls
}

fn with(mut call: Operands, place: usize, operand: u64) -> Operands {
    call[place] = operand;
    call
}

fn random_operands(kinds: &[Kind], random: &mut Random) -> Operands {
    let mut call = [0; 3];
    for (operand, &kind) in call.iter_mut().zip(kinds) {
        *operand = random_operand(kind, random);
    }
    call
}

fn random_operand(kind: Kind, random: &mut Random) -> u64 {
    match kind {
        Kind::Float => random_float(random),
        Kind::Signed => random_signed(random) as u64,
        Kind::Unsigned => random.bits() >> random.below(64),
        Kind::Byte => random.below(256),
        Kind::Nanos | Kind::Instant => random_nanos(random),
        Kind::Divisor => random.below(1 << 32) >> random.below(32),
        Kind::Cases(first, second) => random.below(first) + 16 * random.below(second),
        Kind::None => 0,
    }
}

/// Any bits, an ordinary rate with a fraction or without, a whole or half number, or a factor.
fn random_float(random: &mut Random) -> u64 {
    let scale = random.pick(&[1e3, 1e4, 1e5, 1e6, 1e7, 1e8, 1e9]);
    let rate = scale * (1.0 + 9.0 * random.fraction());
    let halves = random.below(200) as f64 - 100.0;
    match random.below(5) {
        0 => random.bits(),
        1 => rate.to_bits(),
        2 => rate.trunc().to_bits(),
        3 => (halves / 2.0).to_bits(),
        _ => (2.0 * random.fraction()).to_bits(),
    }
}

/// Every length and either sign.
fn random_signed(random: &mut Random) -> i64 {
    signed(random.bits()) >> random.below(64)
}

/// Up to an hour in ns or whole ms, or of any length.
fn random_nanos(random: &mut Random) -> u64 {
    match random.below(3) {
        0 => random.below(3_600_000_000_000),
        1 => random.below(3_600_000) * 1_000_000,
        _ => random.bits() >> random.below(64),
    }
}

/// Operands whose result lies at most one step from the limit at which the operation is refused.
fn close_operands(operation: &Operation, random: &mut Random) -> Option<Operands> {
    let a = random_signed(random);
    let limit = random.pick(&[i64::MIN, i64::MAX]);
    let step = random.pick(&[-1, 0, 1]);
    let b = match operation.rule {
        Rule::Product | Rule::UnsignedProduct => limit.checked_div(a)?.wrapping_add(step),
        Rule::Difference => a.wrapping_sub(limit).wrapping_add(step),
        Rule::Sum if operation.kinds.len() > 1 => limit.wrapping_sub(a).wrapping_add(step),
        _ => return None,
    };
    let c = match operation.kinds.len() {
        3 => random_signed(random),
        _ => 0,
    };
    Some([a, b, c].map(|n| n as u64))
}

/// Two floats, sizes or times that are equal or next to each other.
fn next_operands(kinds: &[Kind], random: &mut Random) -> Option<Operands> {
    let a = random_operand(*kinds.first()?, random);
    let b = match kinds {
        [Kind::Float, Kind::Float] => {
            let x = float(a);
            random.pick(&[x.next_down(), x, x.next_up(), -x]).to_bits()
        }
        [Kind::Signed, Kind::Signed] => a.wrapping_add(random.pick(&[u64::MAX, 0, 1])),
        [Kind::Instant, Kind::Instant, cases] => {
            let b = a.wrapping_add(random.pick(&[u64::MAX, 0, 1]));
            return Some([a, b, random_operand(*cases, random)]);
        }
        _ => return None,
    };
    Some([a, b, 0])
}

const MILLISECOND: u64 = 1_000_000;
const SECOND: u64 = 1_000_000_000;

fn chosen(number: u8) -> Vec<Operands> {
    match number {
        0x22 => [edge_bytes(), half_bytes()].concat(),
        0x23 => edges::pairs(&edges::limit_rates(), &edges::limit_factors()),
        0x25 => edges::pairs(&edges::limit_rates(), &edges::limit_terms()),
        0x4C => [edge_sizes(), vec![[125_000, 500 * MILLISECOND, 0]]].concat(),
        0xA3 => seconds(),
        _ => Vec::new(),
    }
}

/// Rates whose number of bytes in 1 s, or in 8 s, is an edge of the floats.
fn edge_bytes() -> Vec<Operands> {
    let floats = edges::floats();
    let in_one = floats.iter().map(|&x| [(8.0 * float(x)).to_bits(), SECOND, 0]);
    let in_eight = floats.iter().map(|&x| [x, 8 * SECOND, 0]);
    in_one.chain(in_eight).collect()
}

/// Rates that carry some bytes and a half, and their neighbours. First the seconds are powers of
/// two, so that the half is exact; then they are not, and it depends on the roundings.
fn half_bytes() -> Vec<Operands> {
    let small: [u64; 8] = [0, 1, 2, 3, 7, 1_000, 125_000, 1 << 31];
    let large = [(1 << 51) - 1, (1 << 52) - 1];
    let exact = [125, 250, 500, 1_000, 2_000, 8_000];
    let inexact = [1, 10, 20, 100, 300, 700, 60_000, 86_400_000];
    let mut calls = Vec::new();
    for milliseconds in exact.into_iter().chain(inexact) {
        for whole in small.into_iter().chain(large) {
            let bytes = whole as f64 + 0.5;
            let rate = bytes * 8.0 * (1_000.0 / milliseconds as f64);
            for x in [rate.next_down(), rate, rate.next_up()] {
                let nanos = milliseconds * MILLISECOND;
                calls.extend([[x.to_bits(), nanos, 0], [(-x).to_bits(), nanos, 0]]);
            }
        }
    }
    calls
}

fn edge_sizes() -> Vec<Operands> {
    let over = |nanos| edges::signeds().into_iter().map(move |size| [size, nanos, 0]);
    let spans = [0, 250 * MILLISECOND, 500 * MILLISECOND, SECOND, 60 * SECOND];
    spans.into_iter().flat_map(over).collect()
}

/// Seconds whose ns are halfway between two whole numbers, or next to that; the hold's spans and
/// their doubles; the last seconds that have a u64 of ns.
fn seconds() -> Vec<Operands> {
    let halves = (0..64).map(|n| (2 * n + 1) as f64 / 1_024.0);
    let small = (0..200).map(|n| f64::from(n) / 2.0 * 1e-9);
    let holds = (0..10).map(|n| 0.3 * f64::from(1 << n));
    let limits = [18_446_744_073.0, 18_446_744_073.709_55, 18_446_744_074.0, 34_359_738_368.0];
    let near = |x: f64| [x.next_down().next_down(), x.next_down(), x, x.next_up(), x.next_up().next_up()];
    let all = halves.chain(small).chain(holds).chain(limits);
    all.flat_map(near).map(|x| [x.to_bits(), 0, 0]).collect()
}
