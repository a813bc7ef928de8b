//! Writes call lists. A list is also played to the oracle as it grows, so that the next value can
//! be chosen close to what is published.

use crate::answer_line::Answer;
use crate::bwe::call_list::Program;
use crate::line::{self, Profile};

pub struct List {
    pub text: Vec<u8>,
    program: Program,
    pub last: Answer,
    /// Whether lines are written with 50 columns.
    pub wide: bool,
    /// Plays a narrow line with a C above 65,535 as one out of shape, which it was when the kinds that only
    /// write narrow lines were made: their lists depend on what is published.
    pub small_c: bool,
    /// Plays kind 8 as a kind out of the table, which it was when the kinds before `pads` were made.
    pub seven_kinds: bool,
}

const LARGEST_SMALL_C: u64 = 65_535;

impl List {
    pub fn new() -> Self {
        List::played_by(Profile::Bytes)
    }

    /// An empty list, for a controller of that profile.
    pub fn played_by(profile: Profile) -> Self {
        let mut program = Program::of(profile);
        let last = program.answer(b"");
        let text = vec![];
        List { text, program, last, wide: false, small_c: false, seven_kinds: false }
    }

    /// A line of any bytes.
    pub fn raw(&mut self, line: &[u8]) {
        self.text.extend_from_slice(line);
        self.text.push(b'\n');
        for line in line.split(|&byte| byte == b'\n') {
            let is_former = self.small_c && has_large_c(line) || self.seven_kinds && is_start(line);
            self.last = self.program.answer(if is_former { b"" } else { line });
        }
    }

    pub fn line(&mut self, kind: u64, a: u64, b: u64, c: u64) {
        let places = if self.wide { 8 } else { 6 };
        self.raw(format!("{kind:2}{a:20}{b:20}{c:places$}").as_bytes());
    }

    pub fn estimate(&mut self, rate: f64) {
        self.line(1, rate.to_bits(), 0, 0);
    }

    pub fn acknowledged(&mut self, rate: f64) {
        self.line(2, rate.to_bits(), 0, 0);
    }

    pub fn alr(&mut self, start: Option<u64>) {
        self.line(3, start.unwrap_or(0), start.is_some().into(), 0);
    }

    pub fn capacity(&mut self, rate: Option<f64>) {
        self.line(4, rate.map_or(0, f64::to_bits), rate.is_some().into(), 0);
    }

    pub fn packet(&mut self, time: u64, lost: bool, bytes: u64) {
        self.line(5, time, lost.into(), bytes);
    }

    pub fn report(&mut self, delay: f64) {
        self.line(6, delay.to_bits(), 0, 0);
    }

    pub fn read(&mut self) {
        self.line(7, 0, 0, 0);
    }

    /// A fresh controller and an empty queue.
    pub fn start(&mut self, profile: Profile) {
        self.line(8, 0, (profile == Profile::Packets).into(), 0);
    }

    pub fn profile(&self) -> Profile {
        self.program.profile()
    }

    pub fn is_by_packets(&self) -> bool {
        self.profile() == Profile::Packets
    }

    /// The first kind that is not in the table.
    pub fn first_outside(&self) -> u64 {
        if self.seven_kinds {
            8
        } else {
            9
        }
    }

    /// The rate that the oracle publishes after the last line.
    pub fn published(&self) -> Option<f64> {
        (self.last.published == 1).then(|| f64::from_bits(self.last.rate))
    }

    pub fn is_decreasing(&self) -> bool {
        self.last.state == 2
    }

    pub fn is_increasing(&self) -> bool {
        self.last.state == 1
    }
}

fn is_start(line: &[u8]) -> bool {
    matches!(line::columns(line), Some((8, ..)))
}

fn has_large_c(line: &[u8]) -> bool {
    matches!(line::columns(line), Some((_, _, _, c)) if c > LARGEST_SMALL_C)
}
