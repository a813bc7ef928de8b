//! Prints call lists. Usage: generate KIND SEED, or generate kinds, or generate stream NAME.

use std::env;
use std::io::{self, Write};
use std::process::ExitCode;

#[allow(dead_code)]
mod answer_line;
#[path = "../vendor/bandwidth.rs"]
#[rustfmt::skip]
#[allow(dead_code)]
mod bandwidth;
mod bwe;
mod instant;
#[allow(dead_code)]
mod kinds;
mod limit;
mod line;
mod list;
mod random;
mod streams;
mod tie;

fn main() -> io::Result<ExitCode> {
    let arguments: Vec<String> = env::args().skip(1).collect();
    let arguments: Vec<&str> = arguments.iter().map(String::as_str).collect();
    let mut out = io::stdout().lock();
    match arguments.as_slice() {
        ["kinds"] => {
            for (name, what, _) in kinds::KINDS {
                writeln!(out, "{name:8} {what}")?;
            }
            writeln!(out, "packets-KIND: each of these above pads, behind a start by packets")?;
            for (name, what, _) in streams::STREAMS {
                writeln!(out, "stream {name}: {what}")?;
            }
        }
        ["stream", name] if streams::known(name) => streams::write(name, &mut out)?,
        [kind, seed] => match seed.parse().ok().and_then(|seed| kinds::make(kind, seed)) {
            Some(text) => out.write_all(&text)?,
            None => return Ok(usage()),
        },
        _ => return Ok(usage()),
    }
    Ok(ExitCode::SUCCESS)
}

fn usage() -> ExitCode {
    eprintln!("usage: generate KIND SEED | generate stream NAME | generate kinds");
    ExitCode::from(2)
}
