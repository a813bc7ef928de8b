//! Lists that are too long to store, written as they go.

use std::io::{self, Write};

use crate::answer_line::right_justify;
use crate::line::NARROW;
use crate::random::Random;
use crate::tie::text;

type Stream = fn(&mut dyn Write) -> io::Result<()>;

pub const STREAMS: &[(&str, &str, Stream)] = &[
    ("bytes", "10^12 running bytes, one more, and on after the refusal (15 million lines)", bytes),
    ("packets", "10^9 running packets and one more (10^9 lines)", packets),
    ("count", "10^9 observations and one more (2 x 10^9 lines)", count),
    (
        "infinity",
        "zero bytes drive the rate to 10^15, and without the limit to infinity (68,000 lines)",
        infinity,
    ),
    ("six-hours", "six hours without loss and without a delay estimate (860,000 lines)", six_hours),
    ("realistic", "dense lists end to end, two million lines", realistic),
    ("pads", "matches of the four pads by packets, each behind its start, two million lines", pads),
    ("wide", "the calls of realistic in wide lines", |out| realistic_in(out, widened)),
    ("mixed", "the same with each line's width at random", |out| realistic_in(out, either_width)),
    (
        "changing",
        "estimates, each another rate, so that every answer changes, two million lines",
        changing,
    ),
];

pub fn known(name: &str) -> bool {
    STREAMS.iter().any(|stream| stream.0 == name)
}

pub fn write(name: &str, out: &mut impl Write) -> io::Result<()> {
    let mut out = io::BufWriter::with_capacity(1 << 16, out);
    for stream in STREAMS {
        if stream.0 == name {
            stream.2(&mut out)?;
        }
    }
    out.flush()
}

fn call(out: &mut dyn Write, kind: u64, a: u64, b: u64, c: u64) -> io::Result<()> {
    let mut line = [b'\n'; NARROW + 1];
    right_justify(kind, &mut line[..2]);
    right_justify(a, &mut line[2..22]);
    right_justify(b, &mut line[22..42]);
    right_justify(c, &mut line[42..NARROW]);
    out.write_all(&line)
}

fn estimate(out: &mut dyn Write, rate: f64) -> io::Result<()> {
    call(out, 1, rate.to_bits(), 0, 0)
}

fn packet(out: &mut dyn Write, time: u64, bytes: u64) -> io::Result<()> {
    call(out, 5, time, 0, bytes)
}

fn report(out: &mut dyn Write) -> io::Result<()> {
    call(out, 6, 1e9_f64.to_bits(), 0, 0)
}

/// `total` bytes in reports of at most 4,096 packets at time 1,000.
fn fill(out: &mut dyn Write, mut total: u64) -> io::Result<()> {
    while total > 0 {
        for _ in 0..4_096 {
            let size = total.min(65_535);
            packet(out, 1_000, size)?;
            total -= size;
            if total == 0 {
                break;
            }
        }
        report(out)?;
    }
    Ok(())
}

fn bytes(out: &mut dyn Write) -> io::Result<()> {
    estimate(out, 1e6)?;
    fill(out, 1_000_000_000_000)?;
    // One byte more is refused, also where the report would complete the observation.
    for time in [1_000, 1_000_000_000] {
        packet(out, time, 1)?;
        report(out)?;
    }
    // Nothing is as good as an empty report; zero bytes are taken and complete.
    report(out)?;
    packet(out, 1_000, 0)?;
    report(out)?;
    packet(out, 1_000_000_000, 0)?;
    report(out)?;
    for time in 2..20 {
        packet(out, time * 1_000_000_000, 60_000)?;
        report(out)?;
    }
    // An ALR change forgets the sums.
    call(out, 3, 1, 1, 0)?;
    packet(out, 1_000, 65_535)?;
    report(out)
}

fn packets(out: &mut dyn Write) -> io::Result<()> {
    let mut left = 1_000_000_000;
    while left > 0 {
        let size = left.min(4_096);
        for _ in 0..size {
            packet(out, 1_000, 0)?;
        }
        report(out)?;
        left -= size;
    }
    for time in [1_000, 1_000_000_000] {
        packet(out, time, 0)?;
        report(out)?;
    }
    report(out)
}

fn count(out: &mut dyn Write) -> io::Result<()> {
    for i in 0..=1_000_000_000_u64 {
        packet(out, i * 250_000_001, 1)?;
        report(out)?;
    }
    estimate(out, 1e6)?;
    // One more is refused; what completes nothing is not.
    for time in [250_000_002_000_000_000, 1_000, 250_000_003_000_000_000] {
        packet(out, time, 1)?;
        report(out)?;
    }
    Ok(())
}

fn infinity(out: &mut dyn Write) -> io::Result<()> {
    estimate(out, 1e15)?;
    for i in 0..34_300_u64 {
        packet(out, i * 300_000_000, 0)?;
        call(out, 6, f64::INFINITY.to_bits(), 0, 0)?;
    }
    estimate(out, 1e15)?;
    report(out)
}

/// Thirty packets and ten reports a second, so that every third report completes an observation.
fn six_hours(out: &mut dyn Write) -> io::Result<()> {
    const MS: u64 = 1_000_000;
    let mut random = Random::new(1);
    estimate(out, 1e6)?;
    for tenth in 0..6 * 3_600 * 10 {
        for place in [0, 33, 67] {
            let time = (tenth * 100 + place) * MS + random.below(5 * MS);
            packet(out, time, 900 + random.below(300))?;
        }
        call(out, 6, f64::INFINITY.to_bits(), 0, 0)?;
    }
    Ok(())
}

fn realistic(out: &mut dyn Write) -> io::Result<()> {
    realistic_in(out, |_, line| line.to_vec())
}

fn pads(out: &mut dyn Write) -> io::Result<()> {
    let mut lines = 0;
    for seed in 0.. {
        let list = crate::kinds::match_of_pads(seed);
        out.write_all(&list)?;
        lines += list.len() / (NARROW + 1);
        if lines >= 2_000_000 {
            break;
        }
    }
    Ok(())
}

/// What a line is written as.
type Form = fn(&mut Random, &[u8]) -> Vec<u8>;

fn realistic_in(out: &mut dyn Write, form: Form) -> io::Result<()> {
    // The next list's times start anew, which an ALR change allows.
    let between = [[3, 1, 1, 0], [3, 0, 0, 0]].map(|line| text(&line) + "\n").concat();
    let mut random = Random::new(1);
    let mut lines = 0;
    for seed in 0.. {
        let list = crate::kinds::make("dense", seed).expect("a kind's name");
        for line in [&list, between.as_bytes()].concat().split_inclusive(|&byte| byte == b'\n') {
            out.write_all(&form(&mut random, line))?;
        }
        lines += list.len() / (NARROW + 1);
        if lines >= 2_000_000 {
            break;
        }
    }
    Ok(())
}

/// A narrow line with two spaces more before C.
fn widened(_: &mut Random, narrow: &[u8]) -> Vec<u8> {
    [&narrow[..42], b"  ", &narrow[42..]].concat()
}

fn either_width(random: &mut Random, narrow: &[u8]) -> Vec<u8> {
    match random.below(2) {
        0 => narrow.to_vec(),
        _ => widened(random, narrow),
    }
}

fn changing(out: &mut dyn Write) -> io::Result<()> {
    let mut random = Random::new(1);
    for _ in 0..2_000_000 {
        estimate(out, 1e5 + 9.99e7 * random.fraction())?;
    }
    Ok(())
}
