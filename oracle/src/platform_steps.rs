//! The logarithm and powers of the published Rust, which are the platform's.

pub fn ln(x: f64) -> f64 {
    f64::ln(x)
}

pub fn powi(base: f64, n: u32) -> f64 {
    f64::powi(base, n as i32)
}
