//! Writes call sequences for the controller, refused calls among them, and what the Rust, with the
//! edits that README.md lists, answers to each call.

use std::fmt::Write;
use std::ops::Range;
use std::process::ExitCode;
use std::{io, mem};

#[allow(dead_code)]
mod answer_line;
#[path = "../vendor/bandwidth.rs"]
#[rustfmt::skip]
#[allow(dead_code)]
mod bandwidth;
mod bwe;
mod instant;
#[allow(dead_code)]
mod kinds;
#[cfg_attr(unlimited, path = "no_limit.rs")]
mod limit;
#[allow(dead_code)]
mod line;
#[allow(dead_code)]
mod list;
mod random;
mod replay_files;
mod tie;

use answer_line::Answer;
use bwe::call_list::{Program, Reads};
use line::{Code, Profile};
use random::Random;
use tie::Line;

/// Kinds and seeds of the generator. The ties, near and argument tell roundings of objective and logarithm.
const LISTS: &[(&str, &[Range<u64>])] = &[
    ("single", &[1..21]),
    ("sparse", &[1..6]),
    ("hold", &[1..9]),
    ("wild", &[1..4]),
    ("small", &[1..5]),
    ("corners", &[1..4, 10..11]),
    ("ties", &[1..5, 87..88, 335..336, 366..367, 915..916, 1_010..1_011]),
    ("targets", &[0..13]),
    ("dense", &[1..2]),
    ("runaway", &[1..2]),
    ("asides", &[1..3]),
    ("fresh", &[1..2]),
    ("near", &[2_701..2_702, 2_706..2_707, 91_630..91_631]),
    ("argument", &[20..21, 24..25, 31..32, 138..139, 140..141, 218..219, 229..230, 463..464]),
];

/// The same for lists with frames, whose refused reports have sizes that are too large.
const WIDE_LISTS: &[(&str, &[Range<u64>])] = &[
    ("frames", &[1..4, 34..35, 49..50, 60..61]),
    ("mixed", &[1..4]),
    ("wide-asides", &[10..12, 18..19]),
];

/// The same for lists about the limit of rates.
const LIMIT_LISTS: &[(&str, &[Range<u64>])] = &[("limit", &[63..64, 78..79, 80..81])];

/// The same for controllers by packets, and for both profiles in one list.
const PACKET_LISTS: &[(&str, &[Range<u64>])] = &[
    ("packets-single", &[1..5]),
    ("packets-sparse", &[28..29]),
    ("packets-hold", &[1..3]),
    ("packets-wild", &[1..3]),
    ("packets-small", &[1..3]),
    ("packets-corners", &[32..33]),
    ("packets-ties", &[1..2, 3..4, 64..65]),
    ("packets-targets", &[0..3, 6..7]),
    ("packets-argument", &[12..13]),
    ("packets-asides", &[44..45, 46..47]),
    ("packets-frames", &[1..2]),
    ("packets-wide-asides", &[39..40]),
    ("packets-limit", &[63..64]),
    ("pads", &[1..4]),
    ("start-asides", &[13..15, 18..19, 20..21]),
];

/// A list of `examples/` on which the Rust's grouping of the bias publishes another rate.
const GROUPING: &[u8] = include_bytes!("../../examples/grouping_keeps_8200_bit.txt");

/// The seed of the refused calls that are put between the generator's.
const SEED: u64 = 9;

const ESTIMATE: u64 = 1;
const ACKNOWLEDGED: u64 = 2;
const ALR: u64 = 3;
const CAPACITY: u64 = 4;
const QUEUE: u64 = 5;
const REPORT: u64 = 6;
/// A fresh controller and an empty queue, by bytes if B is 0.
const START: u64 = 8;
/// A packet that is queued unasked, so that only its report can refuse it.
const UNASKED: u64 = 9;

const LONGEST_HOLD: u64 = 60_000_000_000;

/// The oracle, and the refusal of the first packet in its queue that no line of a list could queue.
struct Oracle {
    program: Program,
    refused: Code,
}

impl Oracle {
    fn new() -> Self {
        Oracle { program: Program::new(), refused: 0 }
    }

    fn answer(&mut self, call: Line) -> Answer {
        match call[0] {
            START => self.start(call),
            REPORT => self.report(call),
            UNASKED => self.queue_unasked(call),
            _ => self.listed(call),
        }
    }

    fn start(&mut self, call: Line) -> Answer {
        let answer = self.listed(call);
        if answer.refusal == 0 {
            self.refused = 0;
        }
        answer
    }

    /// A call of a list.
    fn listed(&mut self, call: Line) -> Answer {
        self.program.answer(&wide(call))
    }

    /// Another packet takes the place of one that is not in order, since their report is never played.
    fn queue_unasked(&mut self, [_, time, flag, bytes]: Line) -> Answer {
        let Err(refusal) = line::packet(time, flag, bytes) else {
            return self.listed([QUEUE, time, flag, bytes]);
        };
        let placed = self.listed([QUEUE, 0, 0, 0]);
        if placed.refusal == 0 && self.refused == 0 {
            self.refused = refusal;
        }
        placed
    }

    /// The delay estimate's 2 comes before the packets' 3, 17 and 8.
    fn report(&mut self, call: Line) -> Answer {
        let refused = mem::take(&mut self.refused);
        if refused == 0 || line::read(&wide(call)) == Err(line::RATE) {
            return self.listed(call);
        }
        self.program.refuse_report(refused)
    }
}

fn wide([kind, a, b, c]: Line) -> Vec<u8> {
    format!("{kind:2}{a:20}{b:20}{c:8}").into_bytes()
}

fn lists(named: &[(&str, &[Range<u64>])]) -> Vec<Vec<u8>> {
    let seeds = |ranges: &[Range<u64>]| ranges.iter().cloned().flatten().collect::<Vec<_>>();
    let make = |name, seed| kinds::make(name, seed).expect("a kind's name");
    named
        .iter()
        .flat_map(|&(name, ranges)| seeds(ranges).into_iter().map(move |seed| make(name, seed)))
        .collect()
}

fn sequences() -> Vec<Vec<Line>> {
    let mut random = Random::new(SEED);
    let narrow = [vec![GROUPING.to_vec()], lists(LISTS)].concat();
    let mut all = vec![];
    for list in narrow {
        all.push(sequence(&list, &mut random, (11, refused)));
    }
    for list in lists(WIDE_LISTS) {
        all.push(sequence(&list, &mut random, (3, refused_among_frames)));
    }
    all.push(large_sums(Profile::Bytes));
    for list in [lists(LIMIT_LISTS), lists(PACKET_LISTS)].concat() {
        all.push(sequence(&list, &mut random, (11, refused)));
    }
    all.push(large_sums(Profile::Packets));
    all
}

/// Frames whose bytes, and lost bytes, pass 2^32 within a report.
fn large_sums(profile: Profile) -> Vec<Line> {
    let rate = 1e9_f64.to_bits();
    let b = (profile == Profile::Packets).into();
    let mut calls = vec![[START, 0, b, 0], [ESTIMATE, rate, 0, 0]];
    for (seconds, lost) in [(0, 1), (0, 0), (1, 0), (2, 1)] {
        calls.extend([[QUEUE, seconds * 1_000_000_000, lost, line::LARGEST_SIZE]; 450]);
        calls.push([REPORT, rate, 0, 0]);
    }
    calls
}

/// After one report in how many a call is refused, and the maker of that call.
type Refused = (u64, fn(&mut Random, &mut Vec<Line>));

/// The calls of a list that are in shape, behind a fresh controller; after some of the reports, where
/// the queue is empty, a call that is refused.
fn sequence(list: &[u8], random: &mut Random, (every, refused): Refused) -> Vec<Line> {
    let mut calls = vec![[START, 0, 0, 0]];
    for line in list.split(|&byte| byte == b'\n') {
        if line::read(line) == Err(line::NOT_IN_SHAPE) {
            continue;
        }
        let (kind, a, b, c) = line::columns(line).expect("a line in shape");
        calls.push([kind, a, b, c]);
        if kind == REPORT && random.below(every) == 0 {
            refused(random, &mut calls);
        }
    }
    calls
}

fn refused(random: &mut Random, calls: &mut Vec<Line>) {
    match random.below(8) {
        kind @ (ESTIMATE | ACKNOWLEDGED | REPORT) => {
            calls.push([kind, refused_rate(random), 0, 0]);
        }
        ALR => calls.push([ALR, late(random), 1, 0]),
        CAPACITY => calls.push([CAPACITY, refused_rate(random), 1, 0]),
        _ => refused_report(random, calls),
    }
}

/// The same among frames: mostly reports.
fn refused_among_frames(random: &mut Random, calls: &mut Vec<Line>) {
    match random.below(4) {
        0 => refused(random, calls),
        _ => refused_frames(random, calls),
    }
}

/// A finite rate that is negative or above 10^15.
fn refused_rate(random: &mut Random) -> u64 {
    match random.below(4) {
        0 => line::HIGHEST_RATE.to_bits() + 1 + random.below(1 << 53),
        1 => random.pick(&[1 << 63, 1 << 63 | 1, f64::MAX.to_bits(), f64::MIN.to_bits()]),
        2 => line::HIGHEST_RATE.to_bits() + 1,
        _ => (-1e7 * random.fraction()).to_bits(),
    }
}

fn late(random: &mut Random) -> u64 {
    match random.below(3) {
        0 => u64::MAX - random.below(2),
        _ => line::LATEST_TIME + 1 + random.below(1_000_000),
    }
}

/// Up to four packets, of which at least one is not in order.
fn refused_report(random: &mut Random, calls: &mut Vec<Line>) {
    let count = 1 + random.below(4);
    let wrong = random.below(count);
    for place in 0..count {
        let is_right = place != wrong && random.below(4) != 0;
        let (time, flag) = match random.below(4) {
            _ if is_right => (random.below(1 << 40), random.below(2)),
            0 => (late(random), random.below(2)),
            1 => (late(random), wrong_flag(random)),
            _ => (random.below(1 << 40), wrong_flag(random)),
        };
        calls.push([UNASKED, time, flag, random.below(65_536)]);
    }
    let delay = if random.below(8) == 0 { refused_rate(random) } else { 1e6_f64.to_bits() };
    calls.push([REPORT, delay, 0, 0]);
}

/// Up to five frames, of which some are not in order: late, too large, with a wrong flag, or two or three
/// of these at once.
fn refused_frames(random: &mut Random, calls: &mut Vec<Line>) {
    let count = 1 + random.below(5);
    let wrong = random.below(count);
    for place in 0..count {
        let faults = match random.below(3) {
            _ if place == wrong => 1 + random.below(7),
            0 => random.below(8),
            _ => 0,
        };
        let time = if faults & 1 != 0 { late(random) } else { random.below(1 << 40) };
        let bytes =
            if faults & 2 != 0 { large(random) } else { random.below(line::LARGEST_SIZE + 1) };
        let flag = if faults & 4 != 0 { wrong_flag(random) } else { random.below(2) };
        calls.push([UNASKED, time, flag, bytes]);
    }
    let delay = if random.below(8) == 0 { refused_rate(random) } else { 1e6_f64.to_bits() };
    calls.push([REPORT, delay, 0, 0]);
}

/// A size that is too large, of 32 bits.
fn large(random: &mut Random) -> u64 {
    const EDGES: [u64; 6] =
        [10_000_000, 16_777_216, 99_999_999, 100_000_000, 1 << 31, u32::MAX as u64];
    match random.below(2) {
        0 => random.pick(&EDGES),
        _ => random.below(u64::from(u32::MAX) - line::LARGEST_SIZE) + line::LARGEST_SIZE + 1,
    }
}

fn wrong_flag(random: &mut Random) -> u64 {
    2 + random.below(254)
}

const CODES: usize = line::SIZE as usize + 1;

/// How many answers have what.
#[derive(Default)]
struct Counts {
    calls: u64,
    by_packets: u64,
    starts: u64,
    observations: u64,
    refusals: [u64; CODES],
    refused_reports: [u64; CODES],
    states: [u64; 3],
    unpublished: u64,
    longer_holds: u64,
    longest_holds: u64,
    sequences: u64,
    left: u64,
}

impl Counts {
    fn add(&mut self, call: Line, answer: &Answer, before: &Reads, after: &Reads) {
        self.calls += 1;
        self.by_packets += u64::from(after.profile == Profile::Packets);
        self.starts += u64::from(call[0] == START && answer.refusal == 0);
        self.observations += after.count.saturating_sub(before.count);
        self.refusals[usize::from(answer.refusal)] += 1;
        self.refused_reports[usize::from(answer.refusal)] += u64::from(call[0] == REPORT);
        self.states[usize::from(answer.state)] += 1;
        self.unpublished += u64::from(answer.published == 0);
        self.longer_holds += u64::from(after.hold > before.hold);
        self.longest_holds += u64::from(after.hold == LONGEST_HOLD);
    }

    fn show(&self) {
        eprintln!("calls {}, observations completed {}", self.calls, self.observations);
        eprintln!("by packets {}, controllers started {}", self.by_packets, self.starts);
        eprintln!("sequences {}, in {} the limit changed a result", self.sequences, self.left);
        for code in (1..CODES).filter(|&code| self.refusals[code] != 0) {
            let (all, reports) = (self.refusals[code], self.refused_reports[code]);
            eprintln!("refusal {code}: {all}, of reports {reports}");
        }
        let [delay_based, increasing, decreasing] = self.states;
        eprintln!("DelayBased {delay_based}, Increasing {increasing}, Decreasing {decreasing}");
        eprintln!("no published rate {}", self.unpublished);
        eprintln!("hold made longer {}, hold of 60 s {}", self.longer_holds, self.longest_holds);
    }
}

fn write_call(text: &mut String, [kind, a, b, c]: Line) {
    writeln!(text, "{kind:016x} {a:016x} {b:016x} {c:016x}").expect("a String grows");
}

fn write_answer(text: &mut String, answer: &Answer, reads: &Reads) {
    let Answer { refusal, state, published, rate, inherent_loss } = answer;
    let Reads { ratio, count, .. } = reads;
    writeln!(
        text,
        "{refusal:02x} {state} {published} {rate:016x} {inherent_loss:016x} {ratio:016x} {count:08x}"
    )
    .expect("a String grows");
}

fn main() -> io::Result<ExitCode> {
    let Some(files) = replay_files::Files::named() else {
        eprintln!("usage: calls CALLS ANSWERS [LEFT]");
        return Ok(ExitCode::from(2));
    };
    let (mut lines, mut answered) = (String::new(), String::new());
    let mut oracle = Oracle::new();
    let mut counts = Counts::default();
    let (mut calls, mut left) = (0, vec![]);
    let sequences = sequences();
    // What was changed before, by their making.
    limit::changed();
    for sequence in sequences {
        let mut has_left = false;
        for call in sequence {
            let before = oracle.program.reads();
            let answer = oracle.answer(call);
            let after = oracle.program.reads();
            counts.add(call, &answer, &before, &after);
            write_call(&mut lines, call);
            write_answer(&mut answered, &answer, &after);
            calls += 1;
            has_left |= limit::changed();
            if has_left {
                left.push(calls);
            }
        }
        counts.sequences += 1;
        counts.left += u64::from(has_left);
    }
    counts.show();
    files.write(&lines, &answered, &left)?;
    Ok(ExitCode::SUCCESS)
}
