//! Whole frames, each one packet, in wide lines.

use super::link::{span, Link, MS, SECOND};
use crate::line::LARGEST_SIZE;
use crate::list::List;
use crate::random::Random;

/// Bit/s of a capture card: frames of some hundred bytes, up to more than one packet can have.
const RATES: (f64, f64) = (1e5, 4e9);
const SMALLEST: u64 = 100;

const QUEUE_LENGTH: u64 = 4_096;
const HIGHEST_BYTES: u64 = 1_000_000_000_000;

/// A match: frames every 16 to 40 ms, some reports per observation.
pub fn frames(random: &mut Random, list: &mut List) {
    list.wide = true;
    let mut link = Link::between(random, list, RATES, RATES);
    for _ in 0..24 {
        link.drift(random, list);
        for _ in 0..2 + random.below(3) {
            let (interval, count) = ((16 + random.below(25)) * MS, 1 + random.below(8));
            send(&mut link, random, list, interval, count);
            link.report(random, list);
        }
    }
}

/// One to three frames per report.
pub fn few(random: &mut Random, list: &mut List) {
    list.wide = true;
    let mut link = Link::between(random, list, RATES, RATES);
    for _ in 0..60 {
        link.drift(random, list);
        let count = 1 + random.below(3);
        let interval = span(random) / count;
        send(&mut link, random, list, interval, count);
        link.report(random, list);
    }
}

fn send(link: &mut Link, random: &mut Random, list: &mut List, interval: u64, count: u64) {
    let bytes = link.sending / 8.0 * (interval as f64 / SECOND as f64);
    for _ in 0..count {
        link.now += interval;
        // A frame that stands alone is some times as large as those that follow it.
        let factor = if random.below(12) == 0 { 4.0 } else { 0.25 + random.fraction() };
        let size = ((bytes * factor) as u64).clamp(SMALLEST, LARGEST_SIZE);
        list.packet(link.now, random.fraction() < link.loss, size);
    }
}

/// As many running bytes as there may be, by the largest frames, the first report's lost; more, which is
/// refused; and on after that. Nearly all lines are the same.
pub fn full(_: &mut Random, list: &mut List) {
    list.wide = true;
    list.estimate(1e6);
    for place in 1..=HIGHEST_BYTES / LARGEST_SIZE {
        list.packet(1_000, place <= QUEUE_LENGTH, LARGEST_SIZE);
        if place % QUEUE_LENGTH == 0 {
            list.report(1e9);
        }
    }
    list.report(1e9);
    let rest = HIGHEST_BYTES % LARGEST_SIZE;
    for bytes in [LARGEST_SIZE, rest + 1, rest] {
        list.packet(1_000, false, bytes);
        list.report(1e9);
    }
    refused_and_on(list);
}

fn refused_and_on(list: &mut List) {
    // One byte more is refused, also where the report would complete the observation.
    for time in [1_000, SECOND] {
        list.packet(time, false, 1);
        list.report(1e9);
    }
    // Nothing is as good as an empty report; zero bytes are taken and complete.
    list.report(1e9);
    for time in [1_000, SECOND] {
        list.packet(time, false, 0);
        list.report(1e9);
    }
    for time in 2..20 {
        list.packet(time * SECOND, time % 4 == 0, LARGEST_SIZE / time);
        list.report(1e9);
    }
    // An ALR change forgets the sums.
    list.alr(Some(1));
    list.packet(1_000, false, LARGEST_SIZE);
    list.report(1e9);
}
