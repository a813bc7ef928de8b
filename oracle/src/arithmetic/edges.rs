//! Operands at which an operation may change its behaviour. The fewer operands an operation has,
//! the more values each of them takes, since all combinations are called.

use crate::operations::Kind;

pub fn edges(kind: Kind, operands: usize) -> Vec<u64> {
    match (kind, operands) {
        (Kind::Float, 1) => floats(),
        (Kind::Float, 2) => float_pairs(),
        (Kind::Float, _) => float_triples(),
        (Kind::Signed, 1) => signeds(),
        (Kind::Signed, 2) => signed_pairs(),
        (Kind::Signed, _) => signed_triples(),
        (Kind::Unsigned, 1) => unsigneds(),
        (Kind::Unsigned, _) => factors(),
        (Kind::Byte, _) => (0..=255).collect(),
        (Kind::Nanos, _) => durations(),
        (Kind::Instant, _) => instants(),
        (Kind::Divisor, _) => vec![0, 1, 2, 3, 1_000, (1 << 32) - 1],
        (Kind::Cases(first, second), _) => cases(first, second),
        (Kind::None, _) => vec![0],
    }
}

const TWO_51: f64 = 2_251_799_813_685_248.0;
const TWO_52: f64 = 4_503_599_627_370_496.0;
const TWO_53: f64 = 9_007_199_254_740_992.0;
const TWO_63: f64 = 9_223_372_036_854_775_808.0;
const TWO_64: f64 = 18_446_744_073_709_551_616.0;

const SMALLEST: f64 = f64::from_bits(1);
const LARGEST_SUBNORMAL: f64 = f64::from_bits(0x000F_FFFF_FFFF_FFFF);

const QUIET_NAN: u64 = 0x7FF8_0000_0000_0000;
const SIGNALLING_NAN: u64 = 0x7FF0_0000_0000_0001;
const SIGN: u64 = 1 << 63;

fn with_neighbours(x: f64) -> [f64; 3] {
    [x.next_down(), x, x.next_up()]
}

fn bits_of(floats: &[f64]) -> Vec<u64> {
    floats.iter().map(|x| x.to_bits()).collect()
}

fn nans() -> Vec<u64> {
    let payloads = [0x7FF7_FFFF_FFFF_FFFF, 0x7FF8_0000_0000_002A, 0x7FFF_FFFF_FFFF_FFFF];
    let positive = [&[QUIET_NAN, SIGNALLING_NAN], &payloads[..]].concat();
    let negative = positive.iter().map(|nan| nan | SIGN);
    positive.iter().copied().chain(negative).collect()
}

pub fn floats() -> Vec<u64> {
    let mut magnitudes = vec![0.0, SMALLEST, LARGEST_SUBNORMAL, f64::MIN_POSITIVE, 0.1];
    for x in [0.5, 1.0, 1.5, 2.5, 1e3, 1e15, TWO_63, TWO_64] {
        magnitudes.extend(with_neighbours(x));
    }
    magnitudes.extend([TWO_51 - 0.5, TWO_51 + 0.5, TWO_52 - 1.5, TWO_52 - 1.0, TWO_52 - 0.5]);
    magnitudes.extend([TWO_52, TWO_52 + 1.0, TWO_52 + 2.0]);
    magnitudes.extend([TWO_53 - 1.0, TWO_53, TWO_53 + 2.0]);
    magnitudes.extend([f64::MAX, f64::INFINITY]);
    let negative = magnitudes.iter().map(|x| -x);
    let both: Vec<f64> = magnitudes.iter().copied().chain(negative).collect();
    [bits_of(&both), nans()].concat()
}

fn float_pairs() -> Vec<u64> {
    let ordinary = bits_of(&[-1.0, 0.1, 0.5, 1.0, 2.5, 1e3, 1e15, TWO_53, TWO_63, TWO_64]);
    let smallest = bits_of(&[0.0, -0.0, SMALLEST, -SMALLEST, f64::MIN_POSITIVE]);
    let largest = bits_of(&[f64::MAX, f64::MIN, f64::INFINITY, f64::NEG_INFINITY]);
    let nans = vec![QUIET_NAN, QUIET_NAN | SIGN, SIGNALLING_NAN];
    [ordinary, smallest, largest, nans].concat()
}

/// Where the limit of rates (request Q-5) begins: the products and sums of these with the factors and terms
/// below lie on it, one float above and below it, overflow, are negative, or have an operand that is not
/// finite.
pub fn limit_rates() -> Vec<f64> {
    let mut rates = vec![0.0, 1.0, 0.5e15, f64::MAX, f64::INFINITY, f64::NAN];
    for x in [1e15, 1e15 / 1.02, 1e15 / 1.3, 1e15 / 60.0] {
        rates.extend(with_neighbours(x));
    }
    rates.extend([1e15 - 1.0, 1e15 + 1.0, 1e300]);
    let negative: Vec<f64> = rates.iter().map(|x| -x).collect();
    [rates, negative].concat()
}

pub fn limit_factors() -> Vec<f64> {
    let factors = [0.0, 0.95, 1.02, 1.2, 1.3, 1.5, 2.0, 60.0, 1e15, 1e300, f64::MAX, f64::INFINITY];
    let positive = [&factors[..], &with_neighbours(1.0)].concat();
    let negative = positive.iter().map(|x| -x);
    positive.iter().copied().chain(negative).chain([f64::NAN]).collect()
}

/// A float at 10^15 is 1/8 from the next.
pub fn limit_terms() -> Vec<f64> {
    let small = [0.0, 0.0625, 0.0625_f64.next_up(), 0.125, 1.0, 0.5e15];
    let large = [1e300, f64::MAX, f64::INFINITY];
    let positive = [&small[..], &with_neighbours(0.5e15), &with_neighbours(1e15), &large].concat();
    let negative = positive.iter().map(|x| -x);
    positive.iter().copied().chain(negative).chain([f64::NAN]).collect()
}

/// All calls with an operand of the first and one of the second, in either order.
pub fn pairs(first: &[f64], second: &[f64]) -> Vec<[u64; 3]> {
    let both = |a: f64| second.iter().flat_map(move |&b| [[a, b], [b, a]]);
    first.iter().flat_map(|&a| both(a)).map(|[a, b]| [a.to_bits(), b.to_bits(), 0]).collect()
}

fn float_triples() -> Vec<u64> {
    let numbers = bits_of(&[-1.0, -0.0, 0.0, SMALLEST, 1.0, 1e3, TWO_53]);
    let infinities = bits_of(&[f64::NEG_INFINITY, f64::INFINITY]);
    [numbers, infinities, vec![QUIET_NAN, SIGNALLING_NAN | SIGN]].concat()
}

/// The whole numbers around 2^53, where floats start to leave some out: 2^53 + 1 is a tie that goes
/// down, 2^53 + 3 one that goes up, and so are 2^54 + 2 and 2^54 + 6.
const AROUND_TWO_53: [u64; 7] = [
    (1 << 53) - 1,
    1 << 53,
    (1 << 53) + 1,
    (1 << 53) + 2,
    (1 << 53) + 3,
    (1 << 54) + 2,
    (1 << 54) + 6,
];
const SMALL: [u64; 9] = [0, 1, 2, 999, 1_000, 1_023, 1_024, 1 << 31, 1 << 32];

/// The square root of 2^63 lies between these two.
const ROOT: u64 = 3_037_000_499;

pub fn signeds() -> Vec<u64> {
    let mut edges = [&SMALL[..], &AROUND_TWO_53, &[ROOT, ROOT + 1]].concat();
    let negative: Vec<u64> = edges.iter().map(|n| n.wrapping_neg()).collect();
    edges.extend(negative);
    for unit in [1 << 10, 1 << 20, 1 << 30] {
        let (most, least) = (i64::MAX / unit, i64::MIN / unit);
        edges.extend([most, most + 1, least, least - 1].map(|n| n as u64));
    }
    edges.extend([i64::MIN, i64::MIN + 1, i64::MAX - 1, i64::MAX].map(|n| n as u64));
    edges
}

fn signed_pairs() -> Vec<u64> {
    let magnitudes = [1, 2, ROOT, ROOT + 1, 1 << 32, 1 << 53, 1 << 62];
    let negative = magnitudes.map(|n: u64| n.wrapping_neg());
    let ends = [i64::MIN, i64::MIN + 1, i64::MAX - 1, i64::MAX].map(|n| n as u64);
    [&[0, 1_000, (1 << 53) + 1], &magnitudes[..], &negative, &ends].concat()
}

fn signed_triples() -> Vec<u64> {
    let low = [i64::MIN, i64::MIN + 1, -(1 << 62), -1, 0];
    let high = [1, 1_000, 1 << 53, 1 << 62, i64::MAX - 1, i64::MAX];
    low.iter().chain(&high).map(|&n| n as u64).collect()
}

pub fn unsigneds() -> Vec<u64> {
    let mut edges = [&SMALL[..], &AROUND_TWO_53].concat();
    for unit in [1_000, 1_000_000, 1_000_000_000] {
        edges.extend([u64::MAX / unit, u64::MAX / unit + 1]);
    }
    edges.extend([(1 << 63) - 1, 1 << 63, (1 << 63) + 1]);
    // 2^64 - 1024 is a tie between the last two floats that a u64 reaches.
    edges.extend([2_049, 2_048, 2_047, 1_025, 1_024, 1_023, 1_022, 1, 0].map(|n| u64::MAX - n));
    edges
}

fn factors() -> Vec<u64> {
    let small = [0, 1, 2, 1_000, 1_024, ROOT, ROOT + 1, 1 << 32, 1 << 53, 1 << 62];
    let large = [(1 << 63) - 1, 1 << 63, (1 << 63) + 1];
    let wrapping = [ROOT + 1, ROOT, 2, 1].map(u64::wrapping_neg);
    [&small[..], &large, &wrapping].concat()
}

pub fn durations() -> Vec<u64> {
    let short = [0, 1, 999, 1_000_000, 250_000_000, 250_000_001, 500_000_000, 999_999_999];
    let seconds = [1, 60, 3_600, 4_000_000_000].map(|s| s * 1_000_000_000);
    let odd = [1_000_000_001, 1 << 53, (1 << 53) + 1, u64::MAX - 1, u64::MAX];
    [&short[..], &seconds, &odd].concat()
}

fn instants() -> Vec<u64> {
    vec![0, 1, 250_000_001, 1 << 63, u64::MAX]
}

fn cases(first: u64, second: u64) -> Vec<u64> {
    (0..second).flat_map(|b| (0..first).map(move |a| a + 16 * b)).collect()
}
