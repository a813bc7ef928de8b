//! The operations of time.rs and of `Duration` in ns. A time is ns in one operand and its case, a
//! digit of C; an operation that answers a time has two numbers, an even one for the case and the
//! next one for the ns (0 for a case without ns).

use std::time::Duration;

use crate::bandwidth::{Bitrate, DataSize};
use crate::instant::Instant;
use crate::operations::{float, nanos, op, signed, size, Digits, Kind, Operands, Operation};
use crate::rules::Rule;

#[path = "../../vendor/time.rs"]
#[rustfmt::skip]
#[allow(dead_code)]
mod time;

use time::{TimeDelta, Timestamp};

/// DistantPast 0, Exact 1, DistantFuture 2.
fn timestamp(case: u64, ns: u64) -> Timestamp {
    match case {
        0 => Timestamp::DistantPast,
        1 => Timestamp::Exact(Instant(ns)),
        _ => Timestamp::DistantFuture,
    }
}

/// NegativeInfinity 0, Negative 1, Positive 2, PositiveInfinity 3.
fn delta(case: u64, ns: u64) -> TimeDelta {
    match case {
        0 => TimeDelta::NegativeInfinity,
        1 => TimeDelta::Negative(nanos(ns)),
        2 => TimeDelta::Positive(nanos(ns)),
        _ => TimeDelta::PositiveInfinity,
    }
}

/// What A and the first digit of C stand for, and B and the second.
fn first_time([a, _, c]: Operands) -> Timestamp {
    timestamp(c % 16, a)
}

fn second_time([_, b, c]: Operands) -> Timestamp {
    timestamp(c / 16, b)
}

fn first_delta([a, _, c]: Operands) -> TimeDelta {
    delta(c % 16, a)
}

fn second_delta([_, b, c]: Operands) -> TimeDelta {
    delta(c / 16, b)
}

/// At most u64::MAX, which only a refused call passes.
fn ns(duration: Duration) -> u64 {
    duration.as_nanos().try_into().unwrap_or(u64::MAX)
}

/// A time as its case and its ns.
trait Parts {
    fn case(self) -> u64;
    fn ns(self) -> u64;
}

impl Parts for Timestamp {
    fn case(self) -> u64 {
        match self {
            Timestamp::DistantPast => 0,
            Timestamp::Exact(_) => 1,
            Timestamp::DistantFuture => 2,
        }
    }

    fn ns(self) -> u64 {
        match self {
            Timestamp::Exact(instant) => instant.0,
            _ => 0,
        }
    }
}

impl Parts for TimeDelta {
    fn case(self) -> u64 {
        match self {
            TimeDelta::NegativeInfinity => 0,
            TimeDelta::Negative(_) => 1,
            TimeDelta::Positive(_) => 2,
            TimeDelta::PositiveInfinity => 3,
        }
    }

    fn ns(self) -> u64 {
        match self {
            TimeDelta::Negative(d) | TimeDelta::Positive(d) => ns(d),
            _ => 0,
        }
    }
}

fn assigned<T, U>(mut value: T, operand: U, assign: fn(&mut T, U)) -> T {
    assign(&mut value, operand);
    value
}

// ---- when document 01 refuses: a result that fits no u64 ns, and a finite difference over 0

fn outside_u64(ns: i128) -> Option<&'static str> {
    let inside = 0 <= ns && ns <= i128::from(u64::MAX);
    (!inside).then_some("result outside u64 ns")
}

/// An exact time and a finite difference of this sign.
fn moved([a, b, c]: Operands, sign: i128) -> Option<&'static str> {
    let towards = match (c % 16, c / 16) {
        (1, 1) => -sign,
        (1, 2) => sign,
        _ => return None,
    };
    outside_u64(i128::from(a) + towards * i128::from(b))
}

fn later(operands: Operands) -> Option<&'static str> {
    moved(operands, 1)
}

fn earlier(operands: Operands) -> Option<&'static str> {
    moved(operands, -1)
}

fn later_by_duration([a, b, c]: Operands) -> Option<&'static str> {
    moved([a, b, c % 16 + 32], 1)
}

fn earlier_by_duration([a, b, c]: Operands) -> Option<&'static str> {
    moved([a, b, c % 16 + 32], -1)
}

/// Two finite differences, of which the sum's magnitude is the sum of the magnitudes.
fn joined(operands: Operands, alike: bool) -> Option<&'static str> {
    let [a, b, c] = operands;
    let (this, that) = (c % 16, c / 16);
    let finite = matches!(this, 1 | 2) && matches!(that, 1 | 2);
    if finite && (this == that) == alike {
        return outside_u64(i128::from(a) + i128::from(b));
    }
    None
}

fn sum(operands: Operands) -> Option<&'static str> {
    joined(operands, true)
}

fn difference(operands: Operands) -> Option<&'static str> {
    joined(operands, false)
}

fn seconds([a, ..]: Operands) -> Option<&'static str> {
    outside_u64(i128::from(signed(a)).abs() * 1_000_000_000)
}

fn milliseconds([a, ..]: Operands) -> Option<&'static str> {
    outside_u64(i128::from(signed(a)).abs() * 1_000_000)
}

fn divided([_, b, c]: Operands) -> Option<&'static str> {
    let finite = matches!(c % 16, 1 | 2);
    (finite && b == 0).then_some("a finite difference over 0")
}

/// The nearest ns of the exact seconds, ties to even, where there is none below 0 or from 2^64 on.
fn from_seconds([a, ..]: Operands) -> Option<&'static str> {
    let x = float(a);
    if x.is_nan() {
        return Some("NaN seconds");
    }
    if x < 0.0 {
        return Some("negative seconds");
    }
    (!below_limit(x)).then_some("result outside u64 ns")
}

/// Whether x * 10^9 is below 2^64 - 1/2, from which on the nearest whole number is 2^64 or more: a
/// comparison of whole numbers, for an x that is not negative.
fn below_limit(x: f64) -> bool {
    if x >= 34_359_738_368.0 {
        return false;
    }
    if x < 1.0 {
        return true;
    }
    // x is digits / 2^shift, and 1 <= x < 2^35, so that the shift is from 18 to 52.
    let digits = u128::from(x.to_bits() % (1 << 52) + (1 << 52));
    let shift = 1_075 - (x.to_bits() >> 52);
    digits * 2_000_000_000 < ((1 << 65) - 1) << shift
}

const A: &[Kind] = &[Kind::Instant];
const N: &[Kind] = &[Kind::Nanos];
const F: &[Kind] = &[Kind::Float];
const S: &[Kind] = &[Kind::Signed];
const TIME: &[Kind] = &[Kind::Instant, Kind::None, Kind::Cases(3, 1)];
const DELTA: &[Kind] = &[Kind::Instant, Kind::None, Kind::Cases(4, 1)];
const TIME_DELTA: &[Kind] = &[Kind::Instant, Kind::Instant, Kind::Cases(3, 4)];
const TIME_TIME: &[Kind] = &[Kind::Instant, Kind::Instant, Kind::Cases(3, 3)];
const TIME_NS: &[Kind] = &[Kind::Instant, Kind::Instant, Kind::Cases(3, 1)];
const DELTA_DELTA: &[Kind] = &[Kind::Instant, Kind::Instant, Kind::Cases(4, 4)];
const DELTA_NS: &[Kind] = &[Kind::Instant, Kind::Instant, Kind::Cases(4, 1)];
const DELTA_U32: &[Kind] = &[Kind::Instant, Kind::Divisor, Kind::Cases(4, 1)];
const SIZE_DELTA: &[Kind] = &[Kind::Signed, Kind::Instant, Kind::Cases(1, 4)];

const EXACT: u64 = 1;
const POSITIVE: u64 = 2;

/// The case of what the function answers, where `$zero` is that of 0 ns, and its ns.
macro_rules! time {
    ($number:expr, $name:expr, $kinds:expr, $rule:expr, $zero:expr, $rust:expr) => {
        [
            Operation { zero: $zero, ..op($number, $name, $kinds, $rule, |o| $rust(o).case()) },
            op($number + 1, $name, $kinds, $rule, |o| $rust(o).ns()),
        ]
    };
}

/// The operations that answer a time, two numbers each.
#[rustfmt::skip]
const TIMES: &[[Operation; 2]] = &[
    time!(0x60, "Timestamp + TimeDelta", TIME_DELTA, Rule::Of(later), EXACT, |o| first_time(o) + second_delta(o)),
    time!(0x62, "Timestamp - TimeDelta", TIME_DELTA, Rule::Of(earlier), EXACT, |o| first_time(o) - second_delta(o)),
    time!(0x64, "Timestamp + Duration", TIME_NS, Rule::Of(later_by_duration), EXACT, |o: Operands| first_time(o) + nanos(o[1])),
    time!(0x66, "Timestamp - Duration", TIME_NS, Rule::Of(earlier_by_duration), EXACT, |o: Operands| first_time(o) - nanos(o[1])),
    time!(0x68, "Timestamp - Timestamp", TIME_TIME, Rule::Never, POSITIVE, |o| first_time(o) - second_time(o)),
    time!(0x6A, "Timestamp - Instant", TIME_NS, Rule::Never, POSITIVE, |o: Operands| first_time(o) - Instant(o[1])),
    time!(0x6C, "Timestamp from Instant", A, Rule::Never, EXACT, |o: Operands| Timestamp::from(Instant(o[0]))),
    time!(0x6E, "Timestamp += TimeDelta", TIME_DELTA, Rule::Of(later), EXACT, |o| assigned(first_time(o), second_delta(o), |t, d| *t += d)),
    time!(0x70, "Timestamp -= TimeDelta", TIME_DELTA, Rule::Of(earlier), EXACT, |o| assigned(first_time(o), second_delta(o), |t, d| *t -= d)),
    time!(0x72, "Timestamp += Duration", TIME_NS, Rule::Of(later_by_duration), EXACT, |o: Operands| assigned(first_time(o), nanos(o[1]), |t, d| *t += d)),
    time!(0x74, "Timestamp -= Duration", TIME_NS, Rule::Of(earlier_by_duration), EXACT, |o: Operands| assigned(first_time(o), nanos(o[1]), |t, d| *t -= d)),
    time!(0x80, "TimeDelta::ZERO", &[], Rule::Never, POSITIVE, |_| TimeDelta::ZERO),
    time!(0x82, "TimeDelta::from_secs", S, Rule::Of(seconds), POSITIVE, |o: Operands| TimeDelta::from_secs(signed(o[0]))),
    time!(0x84, "TimeDelta::from_millis", S, Rule::Of(milliseconds), POSITIVE, |o: Operands| TimeDelta::from_millis(signed(o[0]))),
    time!(0x86, "TimeDelta + TimeDelta", DELTA_DELTA, Rule::Of(sum), POSITIVE, |o| first_delta(o) + second_delta(o)),
    time!(0x88, "TimeDelta - TimeDelta", DELTA_DELTA, Rule::Of(difference), POSITIVE, |o| first_delta(o) - second_delta(o)),
    time!(0x8A, "TimeDelta += TimeDelta", DELTA_DELTA, Rule::Of(sum), POSITIVE, |o| assigned(first_delta(o), second_delta(o), |t, d| *t += d)),
    time!(0x8C, "TimeDelta -= TimeDelta", DELTA_DELTA, Rule::Of(difference), POSITIVE, |o| assigned(first_delta(o), second_delta(o), |t, d| *t -= d)),
    time!(0x8E, "TimeDelta / u32", DELTA_U32, Rule::Of(divided), POSITIVE, |o: Operands| first_delta(o) / o[1] as u32),
    time!(0x90, "TimeDelta from Duration", N, Rule::Never, POSITIVE, |o: Operands| TimeDelta::from(nanos(o[0]))),
    time!(0x92, "TimeDelta max", DELTA_DELTA, Rule::Never, POSITIVE, |o| first_delta(o).max(second_delta(o))),
];

#[rustfmt::skip]
const OTHERS: &[Operation] = &[
    op(0x76, "Timestamp is_exact", TIME, Rule::Never, |o| first_time(o).is_exact().digits()),
    op(0x77, "Timestamp ==", TIME_TIME, Rule::Never, |o| (first_time(o) == second_time(o)).digits()),
    op(0x78, "Timestamp cmp", TIME_TIME, Rule::Never, |o| first_time(o).cmp(&second_time(o)).digits()),
    op(0x79, "Timestamp <", TIME_TIME, Rule::Never, |o| (first_time(o) < second_time(o)).digits()),
    op(0x7A, "Timestamp <=", TIME_TIME, Rule::Never, |o| (first_time(o) <= second_time(o)).digits()),
    op(0x7B, "Timestamp >", TIME_TIME, Rule::Never, |o| (first_time(o) > second_time(o)).digits()),
    op(0x7C, "Timestamp >=", TIME_TIME, Rule::Never, |o| (first_time(o) >= second_time(o)).digits()),
    op(0x94, "TimeDelta as_secs_f64", DELTA, Rule::Never, |o| first_delta(o).as_secs_f64().digits()),
    op(0x95, "TimeDelta ==", DELTA_DELTA, Rule::Never, |o| (first_delta(o) == second_delta(o)).digits()),
    op(0x96, "TimeDelta cmp", DELTA_DELTA, Rule::Never, |o| first_delta(o).cmp(&second_delta(o)).digits()),
    op(0x97, "TimeDelta <", DELTA_DELTA, Rule::Never, |o| (first_delta(o) < second_delta(o)).digits()),
    op(0x98, "TimeDelta <=", DELTA_DELTA, Rule::Never, |o| (first_delta(o) <= second_delta(o)).digits()),
    op(0x99, "TimeDelta >", DELTA_DELTA, Rule::Never, |o| (first_delta(o) > second_delta(o)).digits()),
    op(0x9A, "TimeDelta >=", DELTA_DELTA, Rule::Never, |o| (first_delta(o) >= second_delta(o)).digits()),
    op(0x9B, "TimeDelta == Duration", DELTA_NS, Rule::Never, |o| (first_delta(o) == nanos(o[1])).digits()),
    op(0x9C, "TimeDelta cmp Duration", DELTA_NS, Rule::Never, |o| first_delta(o).partial_cmp(&nanos(o[1])).digits()),
    op(0x9D, "TimeDelta < Duration", DELTA_NS, Rule::Never, |o| (first_delta(o) < nanos(o[1])).digits()),
    op(0x9E, "TimeDelta <= Duration", DELTA_NS, Rule::Never, |o| (first_delta(o) <= nanos(o[1])).digits()),
    op(0x9F, "TimeDelta > Duration", DELTA_NS, Rule::Never, |o| (first_delta(o) > nanos(o[1])).digits()),
    op(0xA0, "TimeDelta >= Duration", DELTA_NS, Rule::Never, |o| (first_delta(o) >= nanos(o[1])).digits()),
    op(0xA1, "DataSize / TimeDelta", SIZE_DELTA, Rule::SizeOverDuration, |o| (size(o[0]) / second_delta(o)).digits()),
    op(0xA2, "Duration as_secs_f64", N, Rule::Never, |o| nanos(o[0]).as_secs_f64().digits()),
    op(0xA3, "Duration::from_secs_f64", F, Rule::Of(from_seconds), |o| ns(Duration::from_secs_f64(float(o[0])))),
];

pub fn operations() -> impl Iterator<Item = &'static Operation> {
    TIMES.iter().flatten().chain(OTHERS)
}
