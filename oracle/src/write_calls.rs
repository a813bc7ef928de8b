//! Writes random calls for the line writer and what writing each gives. Usage: write_calls COUNT SEED DIRECTORY
//! writes DIRECTORY/stdin, the calls, and DIRECTORY/stdout, the answers; standard error gets how many answers
//! have what. Usage: write_calls differs DIRECTORY FILE says at which call the answers in FILE differ first.
//!
//! A call is a line of 34 bytes, five fields in lower-case hex: variant (1 digit), A (16: rate bits or ns), lost
//! (2), size (8), room (2), a space between and a newline behind; a field that the variant lacks is 0. An answer
//! is the refusal in two columns, a space, the buffer after the call, and a newline. The buffer has `room` bytes,
//! all '.' before the call; a line that is written ends in it with its own newline.
//!
//! Exit status: 0, or 1 if FILE differs, or 2 if the files cannot be made or read.

use std::fs::{self, File};
use std::io::{self, BufWriter, Write};
use std::path::Path;
use std::process::ExitCode;
use std::{env, iter};

#[allow(dead_code)]
mod answer_line;
mod call_line;
#[allow(dead_code)]
mod line;
mod random;
#[allow(dead_code)]
mod stream;

use line::{Call, Code};
use random::Random;
use stream::Reply;

/// The buffer is too short for the line.
const ROOM: Code = 13;
const WRITTEN: usize = line::WIDE + 1;

const UNTOUCHED: u8 = b'.';
const LONGEST: u64 = 64;
/// The bytes of a call's line, and of an answer besides its buffer.
const CALL: usize = 34;
const BESIDE: usize = 4;

const ESTIMATE: u8 = 0;
const ACKNOWLEDGED: u8 = 1;
const ALR_ON: u8 = 2;
const ALR_OFF: u8 = 3;
const CAPACITY_IS: u8 = 4;
const CAPACITY_NONE: u8 = 5;
const PACKET: u8 = 6;
const REPORT: u8 = 7;
const READ: u8 = 8;
const START_BYTES: u8 = 9;
const START_PACKETS: u8 = 10;

const SIGN: u64 = 1 << 63;
const INFINITY: u64 = 0x7FF << 52;
const QUIET: u64 = 1 << 51;

/// A call as it is handed over, whether or not the reader would take it.
#[derive(Default)]
struct Handed {
    variant: u8,
    a: u64,
    lost: u8,
    size: u32,
    room: usize,
}

impl Handed {
    fn random(random: &mut Random) -> Self {
        // Four in fifteen are packets, which have most fields.
        let variant = random.pick(&[
            ESTIMATE,
            ACKNOWLEDGED,
            ALR_ON,
            ALR_ON,
            ALR_OFF,
            CAPACITY_IS,
            CAPACITY_NONE,
            PACKET,
            PACKET,
            PACKET,
            PACKET,
            REPORT,
            READ,
            START_BYTES,
            START_PACKETS,
        ]);
        let room = room(random);
        match variant {
            ESTIMATE | ACKNOWLEDGED | CAPACITY_IS | REPORT => {
                Handed { variant, a: rate(random), room, ..Handed::default() }
            }
            ALR_ON => Handed { variant, a: time(random), room, ..Handed::default() },
            PACKET => {
                Handed { variant, a: time(random), lost: lost(random), size: size(random), room }
            }
            _ => Handed { variant, room, ..Handed::default() },
        }
    }

    /// The line of the call, without its newline.
    fn line(&self) -> String {
        let Handed { variant, a, lost, size, .. } = self;
        let (kind, b) = match *variant {
            ESTIMATE => (1, 0),
            ACKNOWLEDGED => (2, 0),
            ALR_ON => (3, 1),
            ALR_OFF => (3, 0),
            CAPACITY_IS => (4, 1),
            CAPACITY_NONE => (4, 0),
            PACKET => (5, *lost),
            REPORT => (6, 0),
            START_BYTES => (8, 0),
            START_PACKETS => (8, 1),
            _ => (7, 0),
        };
        format!("{kind:2}{a:20}{b:20}{size:8}")
    }

    /// What the reader says to the call. A size of more than eight digits has no line; a packet is judged
    /// without one.
    fn judged(&self, line: &str) -> Result<Call, Code> {
        let read = line::read(line.as_bytes());
        if self.variant != PACKET {
            return read;
        }
        let packet = line::packet(self.a, self.lost.into(), self.size.into()).map(Call::Queue);
        assert!(line.len() > line::WIDE || read == packet, "the line is read otherwise");
        packet
    }

    /// The refusal, and the buffer after the call.
    fn answer(&self) -> (Code, Vec<u8>) {
        let line = self.line();
        let mut buffer = vec![UNTOUCHED; self.room];
        let refusal = match self.judged(&line) {
            Err(code) => code,
            Ok(_) if self.room < WRITTEN => ROOM,
            read => {
                let text = line + "\n";
                assert_eq!(read.text(), text, "the call that was read is written otherwise");
                buffer[..WRITTEN].copy_from_slice(text.as_bytes());
                0
            }
        };
        assert_ne!(refusal, line::NOT_IN_SHAPE, "no call has a line out of shape");
        (refusal, buffer)
    }

    fn write(&self, mut calls: impl Write) -> io::Result<()> {
        let Handed { variant, a, lost, size, room } = self;
        writeln!(calls, "{variant:x} {a:016x} {lost:02x} {size:08x} {room:02x}")
    }
}

/// 10^0 to 10^19, with the numbers next to them.
fn near_ten(random: &mut Random) -> u64 {
    (10_u64.pow(random.below(20) as u32) - 1) + random.below(3)
}

/// Up to three floats away.
fn next_to(random: &mut Random, bits: u64) -> u64 {
    bits.wrapping_sub(3).wrapping_add(random.below(7))
}

fn rate(random: &mut Random) -> u64 {
    match random.below(16) {
        0 => random.pick(&[
            0,
            1,
            SIGN,
            SIGN | 1,
            u64::MAX,
            u64::MAX - 1,
            SIGN - 1,
            1.0_f64.to_bits(),
        ]),
        1 => random.pick(&[INFINITY, SIGN | INFINITY]),
        2 => not_a_number(random),
        3 => next_to(random, line::HIGHEST_RATE.to_bits()),
        4 => {
            random.pick(&[INFINITY - 1, SIGN | (INFINITY - 1), INFINITY + 1, SIGN | (INFINITY + 1)])
        }
        5 => near_ten(random),
        6 => random.bits(),
        7 => random.bits() >> random.below(64),
        // Subnormals, and the smallest normal ones.
        8 => random.bits() >> (11 + random.below(53)) | SIGN & random.bits(),
        9 => (-1e7 * random.fraction()).to_bits(),
        10 => (line::HIGHEST_RATE * random.fraction()).to_bits(),
        11 => (10_u64.pow(random.below(16) as u32) as f64).to_bits(),
        _ => (random.below(100_000_000) as f64).to_bits(),
    }
}

/// Of either sign, quiet or signalling, with any payload.
fn not_a_number(random: &mut Random) -> u64 {
    let payload = match random.below(3) {
        0 => 1,
        1 => QUIET - 1,
        _ => 1 + random.below(QUIET - 1),
    };
    let pattern = random.pick(&[INFINITY | QUIET, INFINITY | QUIET | payload, INFINITY | payload]);
    pattern | SIGN & random.bits()
}

fn time(random: &mut Random) -> u64 {
    match random.below(10) {
        0 => random.pick(&[0, 1, u64::MAX, u64::MAX - 1, SIGN, SIGN - 1]),
        1 | 2 => line::LATEST_TIME - 1 + random.below(3),
        3 => near_ten(random),
        4 => random.bits(),
        5 => random.bits() >> random.below(64),
        6 => random.below(line::LATEST_TIME + 1),
        _ => random.below(10_000_000_000_000),
    }
}

fn lost(random: &mut Random) -> u8 {
    match random.below(8) {
        0 => random.pick(&[2, 255]),
        1 => random.below(256) as u8,
        _ => random.below(2) as u8,
    }
}

fn size(random: &mut Random) -> u32 {
    match random.below(8) {
        0 => random.pick(&[0, 1, 9, 10, 99, 100, 255, 256, 999, 1_000, 9_999, 10_000, 99_999]),
        1 => random.pick(&[65_535, 65_536, 100_000, 999_999, 1_000_000, 9_999_998, 9_999_999]),
        2 => random.pick(&[10_000_000, 10_000_001, 99_999_999, 100_000_000, u32::MAX]),
        3 => random.bits() as u32,
        4 => random.bits() as u32 >> random.below(32),
        5 => random.below(1_500) as u32,
        _ => random.below(line::LARGEST_SIZE + 1) as u32,
    }
}

fn room(random: &mut Random) -> usize {
    let room = match random.below(8) {
        0 => random.pick(&[0, 1, 2, 48, 49, 50]),
        1 => random.below(LONGEST + 1),
        2 => random.pick(&[52, LONGEST]),
        3 => WRITTEN as u64 + random.below(LONGEST - WRITTEN as u64 + 1),
        _ => WRITTEN as u64,
    };
    room as usize
}

const CODES: usize = line::SIZE as usize + 1;

/// How many answers have what.
#[derive(Default)]
struct Counts {
    refusals: [u64; CODES],
    /// The same where the buffer would have been too short as well.
    short: [u64; CODES],
    /// The same where the size is too large as well, and where the flag is wrong.
    large: [u64; CODES],
    flagged: [u64; CODES],
    longer: u64,
}

impl Counts {
    fn add(&mut self, call: &Handed, refusal: Code) {
        let place = usize::from(refusal);
        self.refusals[place] += 1;
        self.short[place] += u64::from(call.room < WRITTEN);
        self.large[place] += u64::from(u64::from(call.size) > line::LARGEST_SIZE);
        self.flagged[place] += u64::from(call.lost > 1);
        self.longer += u64::from(refusal == 0 && call.room > WRITTEN);
    }

    fn show(&self) {
        eprintln!(
            "written {}, of which {} with bytes behind the newline",
            self.refusals[0], self.longer
        );
        for code in [line::RATE, line::TIME, line::SIZE, line::FLAG].map(usize::from) {
            eprintln!(
                "refusal {code}: {}, with a short buffer {}, a large size {}, a wrong flag {}",
                self.refusals[code], self.short[code], self.large[code], self.flagged[code]
            );
        }
        eprintln!("refusal 13: {}", self.refusals[usize::from(ROOM)]);
    }
}

fn make(count: u64, seed: u64, directory: &Path) -> io::Result<()> {
    fs::create_dir_all(directory)?;
    let mut calls = BufWriter::new(File::create(directory.join("stdin"))?);
    let mut answers = BufWriter::new(File::create(directory.join("stdout"))?);
    let mut random = Random::new(seed);
    let mut counts = Counts::default();
    for _ in 0..count {
        let call = Handed::random(&mut random);
        let (refusal, buffer) = call.answer();
        counts.add(&call, refusal);
        call.write(&mut calls)?;
        write!(answers, "{refusal:2} ")?;
        answers.write_all(&buffer)?;
        answers.write_all(b"\n")?;
    }
    counts.show();
    calls.flush()?;
    answers.flush()
}

/// The answers apart; how long each is its call says. What is left behind the last comes as one more.
fn apart<'a>(calls: &'a [u8], mut answers: &'a [u8]) -> impl Iterator<Item = &'a [u8]> {
    let rooms = calls.chunks(CALL).map(|call| {
        let digits = std::str::from_utf8(&call[CALL - 3..CALL - 1]).expect("hex digits");
        usize::from_str_radix(digits, 16).expect("hex digits")
    });
    rooms.map(|room| BESIDE + room).chain(iter::once(usize::MAX)).map(move |length| {
        let (answer, rest) = answers.split_at(length.min(answers.len()));
        answers = rest;
        answer
    })
}

fn differs(directory: &Path, file: &Path) -> io::Result<bool> {
    let calls = fs::read(directory.join("stdin"))?;
    let right = fs::read(directory.join("stdout"))?;
    let found = fs::read(file)?;
    let pairs = apart(&calls, &right).zip(apart(&calls, &found));
    let Some((place, (right, found))) = pairs.enumerate().find(|(_, (a, b))| a != b) else {
        println!("{} calls: no difference", calls.len() / CALL);
        return Ok(false);
    };
    let call = calls.chunks(CALL).nth(place).unwrap_or(b"behind the last\n");
    print!("call {}: {}", place + 1, String::from_utf8_lossy(call));
    println!("the oracle's answer: {:?}", String::from_utf8_lossy(right));
    println!("the other's answer:  {:?}", String::from_utf8_lossy(found));
    Ok(true)
}

fn run(arguments: &[&str]) -> io::Result<ExitCode> {
    match arguments {
        ["differs", directory, file] => {
            let code = if differs(directory.as_ref(), file.as_ref())? { 1 } else { 0 };
            return Ok(ExitCode::from(code));
        }
        [count, seed, directory] => {
            if let (Ok(count @ 1..), Ok(seed)) = (count.parse(), seed.parse()) {
                make(count, seed, directory.as_ref())?;
                return Ok(ExitCode::SUCCESS);
            }
        }
        _ => {}
    }
    eprintln!("usage: write_calls COUNT SEED DIRECTORY | write_calls differs DIRECTORY FILE");
    Ok(ExitCode::from(2))
}

fn main() -> ExitCode {
    let arguments: Vec<String> = env::args().skip(1).collect();
    let arguments: Vec<&str> = arguments.iter().map(String::as_str).collect();
    run(&arguments).unwrap_or_else(|error| {
        eprintln!("write_calls: {error}");
        ExitCode::from(2)
    })
}
