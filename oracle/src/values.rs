//! Holds the steps to the values that document 01 gives for them. Exit status 1 at the first miss.

use std::process::ExitCode;

mod steps;

fn main() -> ExitCode {
    let values = [
        ("ln 1", steps::ln(1.0), 0),
        ("ln 2", steps::ln(2.0), 0x3FE6_2E42_FEFA_39EF),
        ("0.9 to the 0", steps::powi(0.9, 0), 0x3FF0_0000_0000_0000),
        ("0.9 to the 1", steps::powi(0.9, 1), 0.9_f64.to_bits()),
        ("0.9 to the 4", steps::powi(0.9, 4), ((0.9 * 0.9) * (0.9 * 0.9_f64)).to_bits()),
        ("0.9 to the 3", steps::powi(0.9, 3), (0.9 * (0.9 * 0.9_f64)).to_bits()),
    ];
    for (name, value, bits) in values {
        if value.to_bits() != bits {
            eprintln!("{name} is {:016X}, not {bits:016X}", value.to_bits());
            return ExitCode::FAILURE;
        }
    }
    ExitCode::SUCCESS
}
