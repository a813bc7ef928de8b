//! The limit of rates (request Q-5): where the operands are finite and the result is larger than 10^15
//! bit/s, the result is 10^15. An operand that is not finite leaves a result as it was.

use std::cell::Cell;

const LIMIT: f64 = 1e15;

thread_local! {
    static CHANGED: Cell<bool> = const { Cell::new(false) };
}

/// A rate times a factor, or a factor times a rate.
pub fn product(rate: f64, factor: f64) -> f64 {
    limited(rate.is_finite() && factor.is_finite(), rate * factor)
}

/// A rate plus a rate.
pub fn sum(first: f64, second: f64) -> f64 {
    limited(first.is_finite() && second.is_finite(), first + second)
}

/// A candidate: the rate that it is made of, and what the bounds leave of it. An infinite bound is none.
#[allow(dead_code)]
pub fn candidate(rate: f64, cut: f64) -> f64 {
    limited(rate.is_finite(), cut)
}

/// A result that overflows to infinity is larger too.
fn limited(is_finite: bool, result: f64) -> f64 {
    if is_finite && result > LIMIT {
        CHANGED.set(true);
        return LIMIT;
    }
    result
}

/// Whether the rule changed a result of this thread since this was last asked.
#[allow(dead_code)]
pub fn changed() -> bool {
    CHANGED.replace(false)
}
