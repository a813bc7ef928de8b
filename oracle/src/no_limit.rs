//! The operations of `limit.rs` as the published Rust has them, without the limit of request Q-5.

pub fn product(rate: f64, factor: f64) -> f64 {
    rate * factor
}

pub fn sum(first: f64, second: f64) -> f64 {
    first + second
}

#[allow(dead_code)]
pub fn candidate(_rate: f64, cut: f64) -> f64 {
    cut
}

/// No rule changes a result.
#[allow(dead_code)]
pub fn changed() -> bool {
    false
}
