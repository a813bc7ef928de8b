//! Writes a list of random states of the controller, each with a report, and what the Rust's private
//! steps answer there. See README.md.

use std::fmt::Write;
use std::process::ExitCode;
use std::{io, panic};

#[path = "../vendor/bandwidth.rs"]
#[rustfmt::skip]
#[allow(dead_code)]
mod bandwidth;
#[allow(dead_code)]
mod answer_line;
#[allow(dead_code)]
mod bwe;
mod instant;
#[cfg_attr(unlimited, path = "no_limit.rs")]
mod limit;
#[allow(dead_code)]
mod line;
mod random;
mod replay_files;

use bwe::loss_controller::LossController;
use random::Random;

const STATES: usize = 2_000;
/// States about the limit of rates (request Q-5), after the others.
const LIMIT_STATES: usize = 100;
const SEED: u64 = 6;

/// A slot without an observation.
const EMPTY_SLOT: [u64; 8] = [0, 0, 0, 0, 0, 0, 0, f64::NEG_INFINITY.to_bits()];

/// 250 ms is the span that an observation must exceed, 300 ms the recovery window and the first hold.
const STEPS_NS: &[u64] =
    &[0, 1, 250_000_000, 250_000_001, 300_000_000, 300_000_001, 600_000_000, 600_000_001];

/// Where a state's values come from.
struct States {
    random: Random,
    base: u64,
    rate: f64,
    plain: bool,
    about_the_limit: bool,
}

impl States {
    /// A rate about the state's, so that comparisons go both ways; in a state that is not plain also
    /// one that is infinite, negative or no number.
    fn rate(&mut self) -> u64 {
        const ODD: &[f64] =
            &[f64::INFINITY, f64::NEG_INFINITY, f64::NAN, 0.0, -0.5, -1.0, -3.0e5, 5e-324, 1e300];
        if self.about_the_limit && self.random.below(3) != 0 {
            return self.limit_rate().to_bits();
        }
        let rate = match self.random.below(if self.plain { 8 } else { 16 }) {
            0..=2 => self.rate,
            3 => self.rate * 1.3,
            4 => self.rate + 1.0,
            5..=7 => self.rate * (0.5 + self.random.fraction()),
            8 => f64::from_bits(self.random.bits() >> 1),
            9..=10 => self.random.pick(ODD),
            11..=12 => f64::INFINITY,
            _ => self.rate * (0.9 + self.random.fraction() / 5.0),
        };
        rate.to_bits()
    }

    /// The limit, the floats next to it, rates that a factor of the settings brings to it, rates beyond it, up to
    /// where a factor overflows, and those that are not finite.
    fn limit_rate(&mut self) -> f64 {
        const LIMIT: f64 = 1e15;
        const FACTORS: &[f64] = &[1.02, 1.2, 1.3, 1.5, 60.0];
        const BEYOND: &[f64] = &[1e300, f64::MAX, f64::INFINITY, f64::NAN, -1e300];
        match self.random.below(5) {
            0 => f64::from_bits(LIMIT.to_bits() - 2 + self.random.below(5)),
            1 => LIMIT / self.random.pick(FACTORS),
            2 => LIMIT,
            _ => self.random.pick(BEYOND),
        }
    }

    fn option_rate(&mut self) -> [u64; 2] {
        match self.random.below(3) {
            0 => [0, 0],
            _ => [1, self.rate()],
        }
    }

    fn time(&mut self) -> [u64; 2] {
        match self.random.below(8) {
            0 => [0, 0],
            1 => [2, 0],
            _ => [1, self.instant()],
        }
    }

    fn instant(&mut self) -> u64 {
        let after = match self.random.below(5) {
            0 => self.random.below(70_000_000_000),
            1 => self.random.below(700_000_000),
            _ => self.random.pick(STEPS_NS),
        };
        self.base.saturating_add(after)
    }

    fn inherent_loss(&mut self) -> u64 {
        let odd = [0.0, 1.0, -0.25, 1.5, f64::NAN, f64::INFINITY];
        let loss = match self.random.below(if self.plain { 6 } else { 8 }) {
            0 => 0.01,
            1 => 0.001,
            2 => self.random.fraction(),
            3..=5 => self.random.fraction() / 10.0,
            _ => self.random.pick(&odd),
        };
        loss.to_bits()
    }

    /// A size and a lost size; now and then more is lost than sent, which no list reaches.
    fn sizes(&mut self) -> [u64; 2] {
        if self.random.below(12) == 0 {
            return self.random.pick(&[[1_000, 50], [1_000, 10], [1_000, 0]]);
        }
        let size = self.random.bits() >> self.random.pick(&[24, 44, 50, 54]);
        let lost = match self.random.below(40) {
            0 => size + self.random.below(1_000),
            1 => size,
            2..=19 => 0,
            _ => (size as f64 * self.random.fraction() / 4.0) as u64,
        };
        [size, lost]
    }

    /// Packets, lost ones and received ones; now and then three that do not fit together, or of 2^53 and more.
    fn counts(&mut self) -> [u64; 3] {
        let packets = match self.random.below(12) {
            0 => return self.random.pick(&[[20, 1, 19], [20, 2, 18], [5, 1, 4], [3, 3, 0], [0; 3]]),
            1 => return [(); 3].map(|()| self.random.below(40)),
            2 => return [(); 3].map(|()| self.random.bits() >> self.random.below(64)),
            3 | 4 => self.random.below(1_000_000_001),
            5..=7 => self.random.below(100_000),
            _ => 1 + self.random.below(100),
        };
        let lost = match self.random.below(4) {
            0 | 1 => 0,
            2 => (packets as f64 * self.random.fraction() / 4.0) as u64,
            _ => self.random.below(packets + 1),
        };
        [packets, lost, packets - lost]
    }

    /// Fifteen slots, whose ids lie within the window in any order, and still do after the report.
    fn window(&mut self, count: u64, fields: &mut Vec<u64>) {
        let filled = self.random.below(16);
        let turned = self.random.below(15);
        for slot in 0..15 {
            let oldest = if slot == count % 15 { 14 } else { 13 };
            let age = oldest.min((slot + turned) % 15);
            if age < count && self.random.below(15) < filled {
                let [size, lost_size] = self.sizes();
                let [packets, lost, received] = self.counts();
                fields.extend([1, count - 1 - age, packets, size, lost, lost_size, received]);
                fields.push(self.rate());
            } else {
                fields.extend(EMPTY_SLOT);
            }
        }
    }

    fn partial(&mut self) -> [u64; 4] {
        if self.random.below(2) == 0 {
            return [0; 4];
        }
        let [size, lost_size] = self.sizes();
        let packets = self.random.below(1_000);
        let lost = self.random.below(packets + packets / 50 + 1);
        [packets, lost, size % 400_000_000_000, lost_size % 400_000_000_000]
    }

    fn state(&mut self) -> Vec<u64> {
        let highest = self.random.pick(&[4, 1_000, 1_000_000_000]);
        let count = self.random.below(highest);
        let mut fields = vec![self.random.below(3), self.random.below(2), count];
        fields.extend(self.partial());
        fields.extend(self.time());
        fields.extend(self.option_rate());
        self.window(count, &mut fields);
        fields.extend([self.inherent_loss(), self.rate()]);
        fields.extend(self.time());
        fields.push(self.random.pick(&[300_000_000, 600_000_000, 38_400_000_000, 60_000_000_000]));
        fields.push(self.rate());
        fields.extend(self.time());
        fields.extend(self.time());
        fields.extend([self.rate(), self.rate(), self.rate(), self.random.below(2)]);
        fields.extend(self.option_rate());
        fields.extend(self.report());
        let later = self.random.pick(&[0, 300_000_000, 600_000_000]);
        fields.push(self.instant().saturating_add(later));
        fields
    }

    /// Lost packets and received ones, of which there are some, and the bytes of each.
    fn report(&mut self) -> [u64; 4] {
        let [received_size, lost_size] = self.sizes().map(|size| size % 200_000_000_000);
        match (self.random.below(6), self.random.below(30)) {
            (0, received) => [0, 1 + received, 0, received_size],
            (lost, 0) => [lost, 0, lost_size, 0],
            (lost, received) => [lost, received, lost_size, received_size],
        }
    }
}

fn states() -> Vec<Vec<u64>> {
    let random = Random::new(SEED);
    let mut states = States { random, base: 0, rate: 0.0, plain: true, about_the_limit: false };
    let next = |number| {
        states.about_the_limit = number >= STATES;
        states.plain = states.random.below(3) != 0;
        let magnitude = states.random.pick(&[1e3, 1e4, 1e5, 1e6, 1e7]);
        states.rate = (magnitude * (1.0 + 9.0 * states.random.fraction())).floor();
        // The last times of a u64: a window or a hold that ends after them is refusal 7.
        let late = states.plain && states.random.below(12) == 0;
        states.base = if late { u64::MAX - 1_000_000_000 } else { states.random.bits() >> 4 };
        states.state()
    };
    (0..STATES + LIMIT_STATES).map(next).chain([below_every_rate()]).collect()
}

/// A state whose bound of candidates is minus infinity, where the limit still cuts one: the acknowledged rate is
/// far below 0, and 60 s after the last reduction the bound gets 60 times it.
fn below_every_rate() -> Vec<u64> {
    const TIME: u64 = 60_000_000_000;
    const ABSENT: u64 = f64::INFINITY.to_bits();
    let mut fields = vec![0, 1, 1, 0, 0, 0, 0, 1, TIME, 0, 0];
    fields.extend(EMPTY_SLOT.repeat(15));
    fields.extend([0.01, 1e300].map(f64::to_bits));
    fields.extend([0, 0, 300_000_000, ABSENT]);
    fields.extend([1, 0, 0, 0, ABSENT]);
    fields.extend([-1.7e308, 1.7e308].map(f64::to_bits));
    fields.extend([0, 0, 0]);
    fields.extend([1, 1, 0, 0, TIME]);
    fields
}

fn write_line(text: &mut String, fields: &[u64]) {
    for (i, field) in fields.iter().enumerate() {
        let end = if i + 1 == fields.len() { '\n' } else { ' ' };
        write!(text, "{field:016x}{end}").expect("a String grows");
    }
}

fn main() -> io::Result<ExitCode> {
    let Some(files) = replay_files::Files::named() else {
        eprintln!("usage: controller_steps STATES ANSWERS [LEFT]");
        return Ok(ExitCode::from(2));
    };
    panic::set_hook(Box::new(|_| {}));
    let (mut lines, mut answered) = (String::new(), String::new());
    let (mut states_in_all, mut left) = (0, vec![]);
    for state in states() {
        write_line(&mut lines, &state);
        write_line(&mut answered, &LossController::step_answers(&state));
        states_in_all += 1;
        if limit::changed() {
            left.push(states_in_all);
        }
    }
    let limited = left.len();
    eprintln!("{states_in_all} states, in {limited} of which the limit changed a result");
    files.write(&lines, &answered, &left)?;
    Ok(ExitCode::SUCCESS)
}
