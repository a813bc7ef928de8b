//! When document 01 refuses a call with 7 ("Codes from the input"; "Corners, file by file",
//! bandwidth.rs and time.rs). Nothing here calls the published Rust: whole numbers are compared exactly, in 128
//! bits, and floats by `partial_cmp`.

use std::cmp::Ordering;

use crate::operations::{float, signed, Operands};

#[derive(Clone, Copy)]
pub enum Rule {
    /// Not on document 01's list.
    Never,
    /// "a whole rate above 2^64 - 1 bit/s": A times so many bit/s.
    WholeRate(u64),
    /// "a clamp whose lower bound is above its upper, or with a NaN bound".
    Clamp,
    /// "Rate minus rate .. unless the first is at least the second".
    RateDifference,
    /// "an arithmetic result that fits no i64 size": A times so many bytes.
    Units(i64),
    /// The same for A × B.
    Product,
    /// The same, and "an unsigned .. factor above 2^63 - 1 going to i64".
    UnsignedProduct,
    /// The same for A - B ("the difference inside `saturating_sub` too").
    Difference,
    /// The same for every partial sum of A, B and C.
    Sum,
    /// "an unsigned size .. above 2^63 - 1 going to i64".
    UnsignedSize,
    /// A negative size going to usize. Document 01 does not list it; Rust panics.
    NegativeSize,
    /// "a size beyond 2^53 in magnitude going to a float".
    SizeToFloat,
    /// The same, which comes before the duration is looked at.
    SizeOverDuration,
    /// A rule of times, which stands beside their operations.
    Of(fn(Operands) -> Option<&'static str>),
}

impl Rule {
    /// Why the call is refused, or None where it is not.
    pub fn reason(self, operands: Operands) -> Option<&'static str> {
        let [a, b, c] = operands;
        match self {
            Rule::Never => None,
            Rule::WholeRate(unit) => whole_rate(a, unit),
            Rule::Clamp => clamp(float(b), float(c)),
            Rule::RateDifference => rate_difference(float(a), float(b)),
            Rule::Units(unit) => outside_i64(wide(a) * i128::from(unit)),
            Rule::Product => outside_i64(wide(a) * wide(b)),
            Rule::UnsignedProduct => unsigned_product(a, b),
            Rule::Difference => outside_i64(wide(a) - wide(b)),
            Rule::Sum => partial_sums(operands),
            Rule::UnsignedSize => (a > LARGEST_I64).then_some("size above 2^63 - 1"),
            Rule::NegativeSize => (signed(a) < 0).then_some("negative size"),
            Rule::SizeToFloat => size_to_float(signed(a)),
            Rule::SizeOverDuration => size_over_duration(signed(a), b),
            Rule::Of(reason) => reason(operands),
        }
    }
}

const LARGEST_I64: u64 = (1 << 63) - 1;
const LARGEST_FLOAT_SIZE: u64 = 1 << 53;

/// The i64 with these bits, where no sum or product of two overflows.
fn wide(bits: u64) -> i128 {
    i128::from(signed(bits))
}

fn outside_i64(result: i128) -> Option<&'static str> {
    let inside = i128::from(i64::MIN) <= result && result <= i128::from(i64::MAX);
    (!inside).then_some("result outside i64")
}

fn whole_rate(n: u64, unit: u64) -> Option<&'static str> {
    let rate = u128::from(n) * u128::from(unit);
    (rate > u128::from(u64::MAX)).then_some("rate above 2^64 - 1")
}

fn clamp(min: f64, max: f64) -> Option<&'static str> {
    match min.partial_cmp(&max) {
        Some(Ordering::Less | Ordering::Equal) => None,
        Some(Ordering::Greater) => Some("lower bound above upper"),
        None => Some("NaN bound"),
    }
}

fn rate_difference(first: f64, second: f64) -> Option<&'static str> {
    match first.partial_cmp(&second) {
        Some(Ordering::Greater | Ordering::Equal) => None,
        Some(Ordering::Less) => Some("larger second"),
        None => Some("NaN operand"),
    }
}

fn unsigned_product(size: u64, factor: u64) -> Option<&'static str> {
    if factor <= LARGEST_I64 {
        return outside_i64(wide(size) * i128::from(factor));
    }
    match size {
        0 => Some("factor above 2^63 - 1, size 0"),
        _ => Some("factor above 2^63 - 1"),
    }
}

fn partial_sums(sizes: Operands) -> Option<&'static str> {
    let mut sum = 0;
    for size in sizes {
        sum += wide(size);
        let reason = outside_i64(sum);
        if reason.is_some() {
            return reason;
        }
    }
    None
}

fn size_to_float(size: i64) -> Option<&'static str> {
    if size.unsigned_abs() <= LARGEST_FLOAT_SIZE {
        return None;
    }
    let nearest = size as f64;
    if nearest as i128 == i128::from(size) {
        return Some("size beyond 2^53, a float");
    }
    Some("size beyond 2^53, no float")
}

fn size_over_duration(size: i64, nanos: u64) -> Option<&'static str> {
    let reason = size_to_float(size)?;
    match nanos {
        0 => Some("size beyond 2^53, duration 0"),
        _ => Some(reason),
    }
}
