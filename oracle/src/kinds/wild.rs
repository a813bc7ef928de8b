//! Lists without a plan: any rate and any time that a line can hold.

use super::link::{log_uniform, loss, MS, SECOND};
use crate::line::{HIGHEST_RATE, LATEST_TIME};
use crate::list::List;
use crate::random::Random;

const RATES: [u64; 20] = [
    0,
    0x8000_0000_0000_0000,
    1,
    0x000F_FFFF_FFFF_FFFF,
    0x0010_0000_0000_0000,
    0x3CB0_0000_0000_0000,
    0x3FF0_0000_0000_0000,
    0x408F_4000_0000_0000,
    0x40B3_8800_0000_0000,
    0x40F8_6A00_0000_0000,
    0x430C_6BF5_2634_0000,
    0x430C_6BF5_2634_0001,
    0x7FEF_FFFF_FFFF_FFFF,
    0x7FF0_0000_0000_0000,
    0xFFF0_0000_0000_0000,
    0x7FF0_0000_0000_0001,
    0x7FF8_0000_0000_0000,
    0xFFF8_0000_0000_0000,
    0xFFFF_FFFF_FFFF_FFFF,
    0xC0F8_6A00_0000_0000,
];

fn rate(random: &mut Random, list: &List) -> u64 {
    let published = list.published().unwrap_or(1e5);
    match random.below(10) {
        0 | 1 => random.pick(&RATES),
        2 => random.bits(),
        3 | 4 => log_uniform(random, 1e-3, HIGHEST_RATE).to_bits(),
        5 => published.to_bits() + random.below(3),
        6 => (published / 4.0 * random.below(9) as f64).to_bits(),
        _ => log_uniform(random, 1e3, 1e7).to_bits(),
    }
}

pub fn wild(random: &mut Random, list: &mut List) {
    let mut now = random.pick(&[0, SECOND, LATEST_TIME - 30 * SECOND, 1 << 62]).min(LATEST_TIME);
    let mut lost = 0.0;
    for _ in 0..200 {
        match random.below(14) {
            0 => list.line(1, rate(random, list), 0, 0),
            1 => list.line(2, rate(random, list), 0, 0),
            2 if random.below(3) == 0 => {
                let start = (random.below(3) != 0).then_some(now);
                list.alr(start);
            }
            3 if random.below(2) == 0 => {
                let given = random.below(4) != 0;
                list.line(4, if given { rate(random, list) } else { 0 }, given.into(), 0);
            }
            4 => lost = loss(random),
            5 => list.line(random.below(9), random.pick(&[0, 1]), random.below(3), random.below(2)),
            6..=9 => {
                now = moved(random, now);
                list.packet(now, random.fraction() < lost, size(random));
            }
            _ => {
                now = moved(random, now);
                list.packet(now, random.fraction() < lost, size(random));
                list.line(6, rate(random, list), 0, 0);
            }
        }
    }
}

fn moved(random: &mut Random, now: u64) -> u64 {
    match random.below(30) {
        0 => LATEST_TIME + random.below(2),
        1 => random.bits(),
        2 => now.saturating_sub(random.below(SECOND)),
        3 => now.saturating_add(250 * MS + random.below(2)),
        _ => now.saturating_add(random.below(600 * MS)),
    }
}

fn size(random: &mut Random) -> u64 {
    match random.below(10) {
        0 => 0,
        1 => 65_535,
        2 => 65_536,
        3 => random.below(10),
        _ => random.below(20_000),
    }
}

/// Rates from the smallest subnormal to some bit/s, where 1 + rate rounds.
pub fn small(random: &mut Random, list: &mut List) {
    let mut now = 0;
    let mut lost = 0.2;
    list.estimate(tiny(random));
    for _ in 0..60 {
        match random.below(8) {
            0 => list.estimate(tiny(random)),
            1 => list.acknowledged(tiny(random)),
            2 => lost = loss(random),
            _ => {}
        }
        for _ in 0..1 + random.below(3) {
            now += random.below(400 * MS);
            list.packet(now, random.fraction() < lost, random.below(30) * random.below(30));
        }
        let delay = if random.below(3) == 0 { f64::INFINITY } else { tiny(random) };
        list.report(delay);
    }
}

fn tiny(random: &mut Random) -> f64 {
    match random.below(6) {
        0 => f64::from_bits(random.below(4)),
        1 => f64::from_bits(random.below(1 << 53)),
        2 => log_uniform(random, 1e-300, 1e-10),
        3 => log_uniform(random, 1e-18, 1e-14),
        _ => log_uniform(random, 1e-10, 1e4),
    }
}
