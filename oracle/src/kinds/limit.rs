//! Rates about the limit of 10^15 bit/s (request Q-5): estimates at it and a few floats below, bounds that are
//! absent or near it, loss that brings Decreasing and the hold there, packets of zero bytes.

use super::link::{MS, SECOND};
use crate::line::HIGHEST_RATE;
use crate::list::List;
use crate::random::Random;

pub fn limit(random: &mut Random, list: &mut List) {
    list.wide = random.below(2) == 0;
    list.estimate(rate(random));
    let mut time = random.below(100) * MS;
    let mut delay = f64::INFINITY;
    for _ in 0..60 {
        settings(random, list, time);
        if random.below(3) == 0 {
            delay = or_absent(random);
        }
        time += span(random);
        let lost = observe(random, list, time, delay);
        // The window is emptied, so that a loss need not be waited out.
        if lost && random.below(3) != 0 {
            list.alr(Some(time));
            list.alr(None);
        }
    }
}

/// The limit, a float at most one bit/s below it, two hundredths below it, or where a factor of the settings
/// meets it.
fn rate(random: &mut Random) -> f64 {
    const FACTORS: [f64; 6] = [1.02, 1.2, 1.3, 1.5, 2.0, 60.0];
    match random.below(8) {
        0 | 1 => HIGHEST_RATE,
        2 | 3 => f64::from_bits(HIGHEST_RATE.to_bits() - 1 - random.below(9)),
        4 => HIGHEST_RATE * (0.98 + 0.02 * random.fraction()),
        5 | 6 => {
            let meets = HIGHEST_RATE / random.pick(&FACTORS);
            f64::from_bits(meets.to_bits() - 1 + random.below(3))
        }
        _ => HIGHEST_RATE * random.fraction(),
    }
}

fn or_absent(random: &mut Random) -> f64 {
    match random.below(3) {
        0 => f64::INFINITY,
        _ => rate(random),
    }
}

fn settings(random: &mut Random, list: &mut List, time: u64) {
    match random.below(16) {
        0..=2 => list.estimate(rate(random)),
        3 => list.estimate(f64::INFINITY),
        4..=6 => list.acknowledged(or_absent(random)),
        7 => list.acknowledged(1e6),
        8 => list.capacity(Some(or_absent(random))),
        9 => list.alr(Some(time)),
        10 => list.alr(None),
        _ => {}
    }
}

fn span(random: &mut Random) -> u64 {
    match random.below(8) {
        0 => 250 * MS + random.below(2),
        1 => 299 * MS + random.below(3 * MS),
        2 => random.below(70 * SECOND),
        _ => (251 + random.below(400)) * MS,
    }
}

/// A report, and whether some of its bytes are lost.
fn observe(random: &mut Random, list: &mut List, time: u64, delay: f64) -> bool {
    let lost = random.below(5) == 0;
    match random.below(4) {
        _ if lost => {
            list.packet(time, true, 30_000);
            list.packet(time, false, 10_000);
        }
        0 | 1 => list.packet(time, random.below(8) == 0, 0),
        _ => list.packet(time, false, 1 + random.below(60_000)),
    }
    list.report(delay);
    lost
}
