//! The operations: their numbers, what their operands are, when document 01 refuses them, and the
//! Rust that answers them.

use std::cmp::Ordering;
use std::time::Duration;

use crate::bandwidth::{Bitrate, DataSize};
use crate::rules::Rule;
use crate::times;

/// A, B and C as their line shows them; an operand that an operation does not have is 0.
pub type Operands = [u64; 3];

#[derive(Clone, Copy, PartialEq)]
pub enum Kind {
    Float,
    Signed,
    Unsigned,
    Byte,
    Nanos,
    /// ns of a time, with fewer edges than Nanos, since a time has cases too.
    Instant,
    /// The u32 that a time is divided by.
    Divisor,
    /// C as two digits, each the case of a time: so many of the first, and of the second.
    Cases(u64, u64),
    /// No operand.
    None,
}

pub struct Operation {
    pub number: u8,
    pub name: &'static str,
    pub kinds: &'static [Kind],
    pub rule: Rule,
    /// The result beside a 7: zero, which for the case of a time is that of 0 ns.
    pub zero: u64,
    pub rust: fn(Operands) -> u64,
}

pub fn float(bits: u64) -> f64 {
    f64::from_bits(bits)
}

pub fn signed(bits: u64) -> i64 {
    bits as i64
}

fn rate(bits: u64) -> Bitrate {
    Bitrate::from(float(bits))
}

pub fn size(bits: u64) -> DataSize {
    DataSize::bytes(signed(bits))
}

pub fn nanos(n: u64) -> Duration {
    Duration::from_nanos(n)
}

fn sum(sizes: &[u64]) -> DataSize {
    sizes.iter().map(|&bits| size(bits)).sum()
}

fn sub_assign(a: u64, b: u64) -> DataSize {
    let mut rest = size(a);
    rest -= size(b);
    rest
}

fn add_assign(a: u64, b: u64) -> DataSize {
    let mut sum = size(a);
    sum += size(b);
    sum
}

/// The digits that stand for a result on an answer line.
pub trait Digits {
    fn digits(self) -> u64;
}

impl Digits for f64 {
    fn digits(self) -> u64 {
        if self.is_nan() {
            return 0x7FF8_0000_0000_0000;
        }
        self.to_bits()
    }
}

impl Digits for i64 {
    fn digits(self) -> u64 {
        self as u64
    }
}

impl Digits for u64 {
    fn digits(self) -> u64 {
        self
    }
}

impl Digits for usize {
    fn digits(self) -> u64 {
        self as u64
    }
}

impl Digits for bool {
    fn digits(self) -> u64 {
        u64::from(self)
    }
}

impl Digits for Ordering {
    fn digits(self) -> u64 {
        match self {
            Ordering::Less => 0,
            Ordering::Equal => 1,
            Ordering::Greater => 2,
        }
    }
}

impl Digits for Option<Ordering> {
    fn digits(self) -> u64 {
        self.map_or(3, Digits::digits)
    }
}

impl Digits for Bitrate {
    fn digits(self) -> u64 {
        self.as_f64().digits()
    }
}

impl Digits for Option<Bitrate> {
    fn digits(self) -> u64 {
        self.map_or(u64::MAX, Digits::digits)
    }
}

impl Digits for DataSize {
    fn digits(self) -> u64 {
        self.as_bytes_i64().digits()
    }
}

pub const fn op(
    number: u8,
    name: &'static str,
    kinds: &'static [Kind],
    rule: Rule,
    rust: fn(Operands) -> u64,
) -> Operation {
    Operation { number, name, kinds, rule, zero: 0, rust }
}

const F: &[Kind] = &[Kind::Float];
const FF: &[Kind] = &[Kind::Float; 2];
const FFF: &[Kind] = &[Kind::Float; 3];
const FN: &[Kind] = &[Kind::Float, Kind::Nanos];
const U: &[Kind] = &[Kind::Unsigned];
const Y: &[Kind] = &[Kind::Byte];
const S: &[Kind] = &[Kind::Signed];
const SS: &[Kind] = &[Kind::Signed; 2];
const SSS: &[Kind] = &[Kind::Signed; 3];
const SU: &[Kind] = &[Kind::Signed, Kind::Unsigned];
const SN: &[Kind] = &[Kind::Signed, Kind::Nanos];

/// One row for each operation: letters F, S, U, Y and N name the kinds of its operands.
#[rustfmt::skip]
const OPERATIONS: &[Operation] = &[
    op(0x00, "f64 min", FF, Rule::Never, |[a, b, _]| float(a).min(float(b)).digits()),
    op(0x01, "f64 max", FF, Rule::Never, |[a, b, _]| float(a).max(float(b)).digits()),
    op(0x02, "f64 clamp", FFF, Rule::Clamp, |[a, b, c]| float(a).clamp(float(b), float(c)).digits()),
    op(0x03, "f64 abs", F, Rule::Never, |[a, ..]| float(a).abs().digits()),
    op(0x04, "f64 is_finite", F, Rule::Never, |[a, ..]| float(a).is_finite().digits()),
    op(0x05, "f64 ceil", F, Rule::Never, |[a, ..]| float(a).ceil().digits()),
    op(0x06, "f64 round", F, Rule::Never, |[a, ..]| float(a).round().digits()),
    op(0x07, "f64 as i64", F, Rule::Never, |[a, ..]| (float(a) as i64).digits()),
    op(0x08, "f64 as u64", F, Rule::Never, |[a, ..]| (float(a) as u64).digits()),
    op(0x09, "f64 from_bits, to_bits", F, Rule::Never, |[a, ..]| float(a).digits()),

    op(0x10, "Bitrate::ZERO", &[], Rule::Never, |_| Bitrate::ZERO.digits()),
    op(0x11, "Bitrate::MAX", &[], Rule::Never, |_| Bitrate::MAX.digits()),
    op(0x12, "Bitrate::INFINITY", &[], Rule::Never, |_| Bitrate::INFINITY.digits()),
    op(0x13, "Bitrate::NEG_INFINITY", &[], Rule::Never, |_| Bitrate::NEG_INFINITY.digits()),
    op(0x14, "Bitrate::bps", U, Rule::Never, |[a, ..]| Bitrate::bps(a).digits()),
    op(0x15, "Bitrate::kbps", U, Rule::WholeRate(1_000), |[a, ..]| Bitrate::kbps(a).digits()),
    op(0x16, "Bitrate::mbps", U, Rule::WholeRate(1_000_000), |[a, ..]| Bitrate::mbps(a).digits()),
    op(0x17, "Bitrate::gbps", U, Rule::WholeRate(1_000_000_000), |[a, ..]| Bitrate::gbps(a).digits()),
    op(0x18, "Bitrate as_f64", F, Rule::Never, |[a, ..]| rate(a).as_f64().digits()),
    op(0x19, "Bitrate as_u64", F, Rule::Never, |[a, ..]| rate(a).as_u64().digits()),
    op(0x1A, "Bitrate clamp", FFF, Rule::Clamp, |[a, b, c]| rate(a).clamp(rate(b), rate(c)).digits()),
    op(0x1B, "Bitrate min", FF, Rule::Never, |[a, b, _]| rate(a).min(rate(b)).digits()),
    op(0x1C, "Bitrate max", FF, Rule::Never, |[a, b, _]| rate(a).max(rate(b)).digits()),
    op(0x1D, "Bitrate is_valid", F, Rule::Never, |[a, ..]| rate(a).is_valid().digits()),
    op(0x1E, "Bitrate as_valid", F, Rule::Never, |[a, ..]| rate(a).as_valid().digits()),
    op(0x1F, "Bitrate is_zero", F, Rule::Never, |[a, ..]| rate(a).is_zero().digits()),
    op(0x20, "Bitrate from u64", U, Rule::Never, |[a, ..]| Bitrate::from(a).digits()),
    op(0x21, "Bitrate from f64", F, Rule::Never, |[a, ..]| Bitrate::from(float(a)).digits()),
    op(0x22, "Bitrate * Duration", FN, Rule::Never, |[a, b, _]| (rate(a) * nanos(b)).digits()),
    op(0x23, "Bitrate * f64", FF, Rule::Never, |[a, b, _]| (rate(a) * float(b)).digits()),
    op(0x24, "Bitrate - Bitrate", FF, Rule::RateDifference, |[a, b, _]| (rate(a) - rate(b)).digits()),
    op(0x25, "Bitrate + Bitrate", FF, Rule::Never, |[a, b, _]| (rate(a) + rate(b)).digits()),
    op(0x26, "Bitrate / f64", FF, Rule::Never, |[a, b, _]| (rate(a) / float(b)).digits()),
    op(0x27, "Bitrate ==", FF, Rule::Never, |[a, b, _]| (rate(a) == rate(b)).digits()),
    op(0x28, "Bitrate partial_cmp", FF, Rule::Never, |[a, b, _]| rate(a).partial_cmp(&rate(b)).digits()),
    op(0x29, "Bitrate <", FF, Rule::Never, |[a, b, _]| (rate(a) < rate(b)).digits()),
    op(0x2A, "Bitrate <=", FF, Rule::Never, |[a, b, _]| (rate(a) <= rate(b)).digits()),
    op(0x2B, "Bitrate >", FF, Rule::Never, |[a, b, _]| (rate(a) > rate(b)).digits()),
    op(0x2C, "Bitrate >=", FF, Rule::Never, |[a, b, _]| (rate(a) >= rate(b)).digits()),

    op(0x40, "DataSize::ZERO", &[], Rule::Never, |_| DataSize::ZERO.digits()),
    op(0x41, "DataSize::bytes", S, Rule::Never, |[a, ..]| DataSize::bytes(signed(a)).digits()),
    op(0x42, "DataSize::kbytes", S, Rule::Units(1 << 10), |[a, ..]| DataSize::kbytes(signed(a)).digits()),
    op(0x43, "DataSize::mbytes", S, Rule::Units(1 << 20), |[a, ..]| DataSize::mbytes(signed(a)).digits()),
    op(0x44, "DataSize::gbytes", S, Rule::Units(1 << 30), |[a, ..]| DataSize::gbytes(signed(a)).digits()),
    op(0x45, "DataSize as_bytes_f64", S, Rule::SizeToFloat, |[a, ..]| size(a).as_bytes_f64().digits()),
    op(0x46, "DataSize as_bytes_usize", S, Rule::NegativeSize, |[a, ..]| size(a).as_bytes_usize().digits()),
    op(0x47, "DataSize as_bytes_i64", S, Rule::Never, |[a, ..]| size(a).as_bytes_i64().digits()),
    op(0x48, "DataSize saturating_sub", SS, Rule::Difference, |[a, b, _]| size(a).saturating_sub(size(b)).digits()),
    op(0x49, "DataSize as_kb", S, Rule::SizeToFloat, |[a, ..]| size(a).as_kb().digits()),
    op(0x4A, "DataSize from usize", U, Rule::UnsignedSize, |[a, ..]| DataSize::from(a as usize).digits()),
    op(0x4B, "DataSize from u8", Y, Rule::Never, |[a, ..]| DataSize::from(a as u8).digits()),
    op(0x4C, "DataSize / Duration", SN, Rule::SizeOverDuration, |[a, b, _]| (size(a) / nanos(b)).digits()),
    op(0x4D, "DataSize * i64", SS, Rule::Product, |[a, b, _]| (size(a) * signed(b)).digits()),
    op(0x4E, "DataSize * u64", SU, Rule::UnsignedProduct, |[a, b, _]| (size(a) * b).digits()),
    op(0x4F, "DataSize - DataSize", SS, Rule::Difference, |[a, b, _]| (size(a) - size(b)).digits()),
    op(0x50, "DataSize + DataSize", SS, Rule::Sum, |[a, b, _]| (size(a) + size(b)).digits()),
    op(0x51, "DataSize -= DataSize", SS, Rule::Difference, |[a, b, _]| sub_assign(a, b).digits()),
    op(0x52, "DataSize += DataSize", SS, Rule::Sum, |[a, b, _]| add_assign(a, b).digits()),
    op(0x53, "sum of no DataSize", &[], Rule::Sum, |_| sum(&[]).digits()),
    op(0x54, "sum of one DataSize", S, Rule::Sum, |[a, ..]| sum(&[a]).digits()),
    op(0x55, "sum of two DataSizes", SS, Rule::Sum, |[a, b, _]| sum(&[a, b]).digits()),
    op(0x56, "sum of three DataSizes", SSS, Rule::Sum, |[a, b, c]| sum(&[a, b, c]).digits()),
    op(0x57, "DataSize ==", SS, Rule::Never, |[a, b, _]| (size(a) == size(b)).digits()),
    op(0x58, "DataSize cmp", SS, Rule::Never, |[a, b, _]| size(a).cmp(&size(b)).digits()),
    op(0x59, "DataSize <", SS, Rule::Never, |[a, b, _]| (size(a) < size(b)).digits()),
    op(0x5A, "DataSize <=", SS, Rule::Never, |[a, b, _]| (size(a) <= size(b)).digits()),
    op(0x5B, "DataSize >", SS, Rule::Never, |[a, b, _]| (size(a) > size(b)).digits()),
    op(0x5C, "DataSize >=", SS, Rule::Never, |[a, b, _]| (size(a) >= size(b)).digits()),
];

/// Pairs of operations that must answer alike.
pub const TWINS: &[(u8, u8)] = &[
    (0x51, 0x4F),
    (0x52, 0x50),
    (0x6E, 0x60),
    (0x6F, 0x61),
    (0x70, 0x62),
    (0x71, 0x63),
    (0x72, 0x64),
    (0x73, 0x65),
    (0x74, 0x66),
    (0x75, 0x67),
    (0x8A, 0x86),
    (0x8B, 0x87),
    (0x8C, 0x88),
    (0x8D, 0x89),
];

/// All operations, those of time.rs too.
pub fn all() -> impl Iterator<Item = &'static Operation> {
    OPERATIONS.iter().chain(times::operations())
}

pub fn find(number: u8) -> &'static Operation {
    all().find(|op| op.number == number).expect("a number of the tables")
}
