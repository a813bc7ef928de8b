//! Prints the fifteen weights of a fresh controller: by document 01's steps, and by the published
//! Rust's `f64::powi` as this program was optimised.

#[allow(dead_code)]
mod answer_line;
#[path = "../vendor/bandwidth.rs"]
#[rustfmt::skip]
#[allow(dead_code)]
mod bandwidth;
#[allow(dead_code)]
mod bwe;
mod instant;
mod limit;
#[allow(dead_code)]
mod line;
#[allow(dead_code)]
mod platform_bwe;

fn main() {
    let steps = bwe::loss_controller::LossController::new();
    let published = platform_bwe::loss_controller::LossController::new();
    for (age, (ours, theirs)) in steps.weights().iter().zip(published.weights()).enumerate() {
        let mark = if ours == theirs { "" } else { " differs" };
        println!("{age:2} {:016X} {:016X}{mark}", ours.to_bits(), theirs.to_bits());
    }
}
