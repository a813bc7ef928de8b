//! Short lists with one float that is free, to be bisected to where the choice between two candidates
//! flips: there the highest objectives lie one rounding apart.

use crate::line::Profile;
use crate::random::Random;

const MS: u64 = 1_000_000;

/// The four columns of a line.
pub type Line = [u64; 4];

/// Lines of which one has its A free.
pub struct Tie {
    lines: Vec<Line>,
    free: usize,
}

/// What stands before a tie's lines: by packets the line of kind 8.
#[allow(dead_code)]
pub fn start(profile: Profile) -> &'static [Line] {
    match profile {
        Profile::Bytes => &[],
        Profile::Packets => &[[8, 0, 1, 0]],
    }
}

/// The narrow line.
pub fn text(line: &Line) -> String {
    let [kind, a, b, c] = line;
    format!("{kind:2}{a:20}{b:20}{c:6}")
}

/// A report of the packets at a time: so many of them, the first `lost` lost, with `bytes` in all.
fn report_of(lines: &mut Vec<Line>, time: u64, (count, lost): (u64, u64), bytes: u64, delay: u64) {
    for place in 0..count {
        // The last one has the rest.
        let size = if place + 1 == count { bytes - bytes / count * place } else { bytes / count };
        lines.push([5, time, (place < lost).into(), size]);
    }
    lines.push([6, delay, 0, 0]);
}

impl Tie {
    /// A tie for a controller of that profile.
    pub fn random_of(profile: Profile, random: &mut Random, start: u64) -> Tie {
        match profile {
            Profile::Bytes => Tie::random(random, start),
            Profile::Packets => Tie::of_packets(random, start),
        }
    }

    /// One to three observations of some packets at a small rate, or of a fifth lost at any; the first report's
    /// packet is one of the first observation.
    fn of_packets(random: &mut Random, start: u64) -> Tie {
        let scale = random.pick(&[1, 100, 10_000]);
        let rate = |random: &mut Random| ((scale * (1 + random.below(200))) as f64).to_bits();
        let mut lines = vec![[1, rate(random), 0, 0]];
        if random.below(3) != 0 {
            lines.push([2, rate(random), 0, 0]);
        }
        let free = random.below(lines.len() as u64) as usize;
        let delay = if random.below(4) == 0 { f64::INFINITY.to_bits() } else { rate(random) };
        let mut time = start;
        report_of(&mut lines, time, (1, 0), 0, delay);
        for number in 0..1 + random.below(3) {
            let span = 260 + 10 * random.below(40);
            time += span * MS;
            let bytes = scale * span * (1 + random.below(300)) / 8_000;
            let packets = if scale == 10_000 { 5 } else { 2 + random.below(9) };
            let lost = if scale == 10_000 { 1 } else { random.below(packets) };
            let first = u64::from(number == 0);
            report_of(&mut lines, time, (packets - first, lost), bytes, delay);
        }
        Tie { lines, free }
    }

    /// One to three observations near a weighted loss of a fifth, or of any loss at a small rate.
    fn random(random: &mut Random, start: u64) -> Tie {
        let small = random.below(4) == 0;
        let rate = |random: &mut Random| {
            let scale =
                if small { 1 + random.below(40) } else { 1_000 * (50 + random.below(4_000)) };
            (scale as f64).to_bits()
        };
        let mut lines = vec![[1, rate(random), 0, 0]];
        if random.below(3) != 0 {
            lines.push([2, rate(random), 0, 0]);
        }
        let free = random.below(lines.len() as u64) as usize;
        let delay = if random.below(4) == 0 { f64::INFINITY.to_bits() } else { rate(random) };
        let mut time = start;
        lines.push([5, time, 0, 0]);
        lines.push([6, delay, 0, 0]);
        for _ in 0..1 + random.below(3) {
            time += (260 + 10 * random.below(40)) * MS;
            let bytes = if small { 10 + random.below(50) } else { 10_000 + random.below(50_000) };
            let lost = if small { random.below(bytes) } else { bytes / 5 + random.below(7) - 3 };
            lines.push([5, time, 0, bytes - lost]);
            lines.push([5, time, 1, lost]);
            lines.push([6, delay, 0, 0]);
        }
        Tie { lines, free }
    }

    /// The same behind up to fifteen observations without loss and an ALR change, so that slots wrap.
    fn behind_others(profile: Profile, random: &mut Random, start: u64) -> Tie {
        let mut lines = vec![[1, 1e6_f64.to_bits(), 0, 0]];
        let mut time = start;
        for _ in 0..=1 + random.below(15) {
            lines.push([5, time, 0, 1_000]);
            lines.push([6, 1.0_f64.to_bits(), 0, 0]);
            time += 300 * MS;
        }
        lines.push([3, 1, 1, 0]);
        lines.push([3, 0, 0, 0]);
        let tie = Tie::random_of(profile, random, time);
        let free = lines.len() + tie.free;
        lines.extend(tie.lines);
        Tie { lines, free }
    }

    /// One observation, sent about at the given acknowledged rate; the estimate is free.
    pub fn at_rate(profile: Profile, random: &mut Random, rate: f64, start: u64) -> Tie {
        let estimate = rate * (0.6 + random.fraction());
        let delay = rate * random.pick(&[0.5, 1.0, 2.0, f64::INFINITY]);
        let bytes = 10 + random.below(50);
        let lost = random.below(bytes + 1);
        let seconds = bytes as f64 * 8.0 / (rate * (0.5 + 2.0 * random.fraction()));
        let time = start + (seconds * 1e9) as u64;
        let mut lines = vec![
            [1, estimate.to_bits(), 0, 0],
            [2, rate.to_bits(), 0, 0],
            [5, start, 0, 0],
            [6, delay.to_bits(), 0, 0],
        ];
        if profile == Profile::Packets {
            let count = 1 + random.below(9);
            let lost = random.below(count + 1);
            report_of(&mut lines, time, (count, lost), bytes, delay.to_bits());
            return Tie { lines, free: 0 };
        }
        lines.extend([[5, time, 0, bytes - lost], [5, time, 1, lost], [6, delay.to_bits(), 0, 0]]);
        Tie { lines, free: 0 }
    }

    /// The tie of a number; every fourth stands behind others.
    pub fn numbered(profile: Profile, number: u64) -> Tie {
        let mut random = Random::new(number);
        match number % 4 {
            0 => Tie::behind_others(profile, &mut random, 1_000 * MS),
            _ => Tie::random_of(profile, &mut random, 1_000 * MS),
        }
    }

    /// The list of a seed: the tie of seed / 100, with a float up to fifty from where its choice flips first.
    pub fn near(
        profile: Profile,
        seed: u64,
        choice: impl Fn(&[Line]) -> Option<usize>,
    ) -> Vec<Line> {
        let tie = Tie::numbered(profile, seed / 100);
        let flip = tie.flip(choice).unwrap_or(tie.lines[tie.free][1]);
        tie.with(flip + seed % 100 - 50)
    }

    pub fn with(&self, a: u64) -> Vec<Line> {
        let mut lines = self.lines.clone();
        lines[self.free][1] = a;
        lines
    }

    /// Places where the choice, given all lines, flips between two floats next to each other.
    pub fn flips(&self, choice: impl Fn(&[Line]) -> Option<usize>) -> Vec<u64> {
        let flip = |pair: &[u64]| self.bisect(pair[0], pair[1], &choice);
        self.points().windows(2).filter_map(flip).collect()
    }

    /// The first of them.
    pub fn flip(&self, choice: impl Fn(&[Line]) -> Option<usize>) -> Option<u64> {
        self.points().windows(2).find_map(|pair| self.bisect(pair[0], pair[1], &choice))
    }

    fn points(&self) -> Vec<u64> {
        let start = f64::from_bits(self.lines[self.free][1]);
        (0..12).map(|i| (start * (0.4 + 0.1 * i as f64)).to_bits()).collect()
    }

    fn bisect(
        &self,
        mut low: u64,
        mut high: u64,
        choice: impl Fn(&[Line]) -> Option<usize>,
    ) -> Option<u64> {
        let at_low = choice(&self.with(low));
        if at_low == choice(&self.with(high)) {
            return None;
        }
        while high - low > 1 {
            let middle = low + (high - low) / 2;
            if choice(&self.with(middle)) == at_low {
                low = middle;
            } else {
                high = middle;
            }
        }
        Some(low)
    }
}

/// The first of the highest objectives, as `update_bandwidth_estimate` takes it.
pub fn best(judged: &[[f64; 3]]) -> Option<usize> {
    let mut best = None;
    let mut highest = f64::MIN;
    for (place, candidate) in judged.iter().enumerate() {
        if candidate[2] > highest {
            highest = candidate[2];
            best = Some(place);
        }
    }
    best
}
