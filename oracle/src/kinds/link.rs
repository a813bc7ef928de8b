//! Lists like those of a match: a link whose rate and loss move, a sender and its two estimates.

use crate::list::List;
use crate::random::Random;

pub const MS: u64 = 1_000_000;
pub const SECOND: u64 = 1_000 * MS;

/// What the link and the other estimators are doing.
pub struct Link {
    pub now: u64,
    pub loss: f64,
    pub sending: f64,
    pub delay: f64,
    pub in_alr: bool,
    rates: (f64, f64),
}

impl Link {
    pub fn new(random: &mut Random, list: &mut List) -> Self {
        Link::between(random, list, (5e4, 8e6), (3e4, 1e7))
    }

    /// A link whose rate lies between the first two at the start, and between the others after that.
    pub fn between(
        random: &mut Random,
        list: &mut List,
        first: (f64, f64),
        rates: (f64, f64),
    ) -> Self {
        let sending = log_uniform(random, first.0, first.1);
        if random.below(8) != 0 {
            list.estimate(whole_or_not(random, sending * 1.1));
        }
        if random.below(4) != 0 {
            list.acknowledged(whole_or_not(random, sending));
        }
        let now = if random.below(4) == 0 { 0 } else { random.below(1_000_000) * MS };
        Link { now, loss: 0.0, sending, delay: sending * 4.0, in_alr: false, rates }
    }

    /// The link and its estimators between two observations.
    pub fn drift(&mut self, random: &mut Random, list: &mut List) {
        if random.below(5) == 0 {
            self.loss = loss(random);
        }
        if random.below(6) == 0 {
            self.sending = log_uniform(random, self.rates.0, self.rates.1);
        }
        if random.below(4) == 0 {
            self.delay = near(random, list, self.sending);
        }
        if random.below(3) == 0 {
            let rate = near(random, list, self.sending * (1.0 - self.loss));
            list.acknowledged(rate);
        }
        if random.below(14) == 0 {
            let rate = near(random, list, self.sending);
            list.estimate(rate);
        }
        if random.below(12) == 0 {
            let rate = (random.below(4) != 0).then(|| near(random, list, self.sending));
            list.capacity(rate);
        }
        if random.below(16) == 0 {
            self.switch_alr(random, list);
        }
    }

    /// ALR on, on again, or off.
    fn switch_alr(&mut self, random: &mut Random, list: &mut List) {
        self.in_alr = !self.in_alr || random.below(4) == 0;
        list.alr(self.in_alr.then_some(self.now));
    }

    /// Packets that take `span` and carry what is sent in that time.
    pub fn packets(&mut self, random: &mut Random, list: &mut List, span: u64, count: u64) {
        let bytes = self.sending / 8.0 * (span as f64 / SECOND as f64) / count as f64;
        let start = self.now;
        for i in 1..=count {
            self.now = start + span / count * i;
            if i == count {
                self.now = start + span;
            }
            let size = bytes * (0.5 + random.fraction());
            let size = if random.below(40) == 0 { 0 } else { (size as u64).clamp(1, 65_535) };
            list.packet(self.now, random.fraction() < self.loss, size);
        }
    }

    pub fn report(&mut self, random: &mut Random, list: &mut List) {
        list.report(self.delay);
        if random.below(10) == 0 {
            list.read();
        }
        if random.below(30) == 0 {
            list.report(near(random, list, self.sending));
        }
    }
}

/// Loss of a link: none, little, about a threshold of the settings, or much.
pub fn loss(random: &mut Random) -> f64 {
    match random.below(6) {
        0 | 1 => 0.0,
        2 => random.fraction() * 0.03,
        3 => 0.05 + random.fraction() * 0.02,
        4 => 0.17 + random.fraction() * 0.06,
        _ => random.fraction(),
    }
}

/// A float between two others, every power of two as likely as the next. Picked by its bits, since
/// a power or logarithm of the platform would make other lists on another machine.
pub fn log_uniform(random: &mut Random, from: f64, to: f64) -> f64 {
    f64::from_bits(from.to_bits() + random.below(to.to_bits() - from.to_bits()))
}

fn whole_or_not(random: &mut Random, rate: f64) -> f64 {
    if random.below(2) == 0 {
        rate.round()
    } else {
        rate
    }
}

/// A rate about another or about the published one, where comparisons turn.
pub fn near(random: &mut Random, list: &List, about: f64) -> f64 {
    const FACTORS: [f64; 14] =
        [0.5, 0.8, 0.95, 1.0, 1.0, 1.0, 1.02, 1.05, 1.2, 1.3, 1.5, 2.0, 4.0, 20.0];
    let about = match list.published() {
        Some(rate) if random.below(3) != 0 => rate,
        _ => about,
    };
    match random.below(20) {
        0 => f64::INFINITY,
        1 => log_uniform(random, 2e3, 2e7),
        2 => about.next_up(),
        3 => about.next_down().max(0.0),
        4 | 5 => about * (0.3 + 2.0 * random.fraction()),
        _ => about * random.pick(&FACTORS),
    }
}

pub fn span(random: &mut Random) -> u64 {
    match random.below(20) {
        0 => 250 * MS,
        1 => 250 * MS + 1,
        2..=12 => 250 * MS + random.below(150 * MS),
        13 | 14 => 300 * MS + random.below(3) - 1,
        15..=17 => random.below(3 * SECOND),
        18 => random.below(70 * SECOND),
        _ => random.below(240 * MS),
    }
}

pub fn sparse(random: &mut Random, list: &mut List) {
    let mut link = Link::new(random, list);
    for _ in 0..40 + random.below(30) {
        link.drift(random, list);
        let (span, count) = (span(random), 1 + random.below(5));
        link.packets(random, list, span, count);
        if random.below(25) == 0 {
            late(&link, random, list);
        }
        link.report(random, list);
    }
}

/// A report of packets that were sent before the last observation ended.
fn late(link: &Link, random: &mut Random, list: &mut List) {
    list.report(link.delay);
    let time = link.now.saturating_sub(random.below(SECOND));
    list.packet(time, random.below(2) == 0, random.below(65_536));
}

/// An observation in three lines.
pub fn single(random: &mut Random, list: &mut List) {
    let mut link = Link::new(random, list);
    for _ in 0..150 {
        link.drift(random, list);
        let span = span(random);
        link.packets(random, list, span, 1);
        link.report(random, list);
    }
}

pub fn dense(random: &mut Random, list: &mut List) {
    let mut link = Link::new(random, list);
    for _ in 0..25 {
        link.drift(random, list);
        for _ in 0..4 + random.below(3) {
            let (span, count) = ((40 + random.below(60)) * MS, 3 + random.below(8));
            link.packets(random, list, span, count);
            link.report(random, list);
        }
    }
}
