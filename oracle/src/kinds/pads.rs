//! The four pads: packets of nearly equal size, and controllers of both profiles that start in mid-list.

use super::link::{loss, near, Link, MS, SECOND};
use crate::line::{Profile, LATEST_TIME};
use crate::list::List;
use crate::random::Random;

const PADS: u64 = 4;
const BOTH: [Profile; 2] = [Profile::Bytes, Profile::Packets];

/// Bytes of a pad's packet; they differ by a few.
const SIZE: u64 = 60;

/// Matches of a few observations, each on a fresh controller or on the one of the match before.
pub fn pads(random: &mut Random, list: &mut List) {
    list.wide = random.below(2) == 0;
    // One list in four starts by bytes, of which half say so.
    match random.below(8) {
        0 => {}
        1 => list.start(Profile::Bytes),
        _ => list.start(Profile::Packets),
    }
    let mut link = Link::between(random, list, (2e3, 2e5), (2e3, 2e5));
    for _ in 0..8 {
        for _ in 0..3 + random.below(4) {
            observe(&mut link, random, list);
        }
        between(&mut link, random, list);
    }
    if random.below(4) == 0 {
        values(list);
    }
}

/// A match of the stream: every pad sends each 16 ms, a report each 96 ms.
pub fn match_of_pads(random: &mut Random, list: &mut List) {
    let mut link = Link::between(random, list, (1e5, 2e5), (1e4, 4e5));
    for _ in 0..30 {
        link.drift(random, list);
        for _ in 0..3 {
            send(&mut link, random, list, 16 * MS, 6);
            link.report(random, list);
        }
    }
}

fn observe(link: &mut Link, random: &mut Random, list: &mut List) {
    link.drift(random, list);
    if random.below(4) == 0 {
        link.loss = if list.is_decreasing() { 0.0 } else { loss(random) };
    }
    for _ in 0..1 + random.below(3) {
        let span = (20 + random.below(120)) * MS;
        let count = 1 + random.below(3);
        send(link, random, list, span, count);
        link.report(random, list);
    }
}

/// Each pad's packet, `count` times, `interval` apart.
fn send(link: &mut Link, random: &mut Random, list: &mut List, interval: u64, count: u64) {
    for _ in 0..count {
        for pad in 0..PADS {
            let time = link.now + interval / PADS * pad;
            let size = if random.below(40) == 0 { 0 } else { SIZE + random.below(4) };
            list.packet(time, random.fraction() < link.loss, size);
        }
        link.now += interval;
    }
}

/// Between two matches: a fresh controller of either profile, lines that start none, both or nothing.
fn between(link: &mut Link, random: &mut Random, list: &mut List) {
    if random.below(2) == 0 {
        for _ in 0..1 + random.below(4) {
            list.packet(link.now, random.below(3) != 0, SIZE * random.below(40));
        }
    }
    for _ in 0..random.below(4) {
        refused(random, list);
    }
    if random.below(4) != 0 {
        list.start(if random.below(4) == 0 { Profile::Bytes } else { Profile::Packets });
        started(link, random, list);
    }
}

/// A line of kind 8 that is refused: A or C is not 0, B is no profile, or several of these; or a kind 18.
pub fn refused(random: &mut Random, list: &mut List) {
    const PROFILES: [u64; 2] = [0, 1];
    const OTHERS: [u64; 7] = [2, 3, 255, 256, 257, (1 << 32) + 1, u64::MAX];
    const NOT_ZERO: [u64; 3] = [1, 256, LATEST_TIME + 1];
    let (a, c) = (random.pick(&NOT_ZERO), random.pick(&[1, 256, 65_536]));
    let (profile, other) = (random.pick(&PROFILES), random.pick(&OTHERS));
    let (kind, a, b, c) = random.pick(&[
        (8, 0, other, 0),
        (8, 0, other, 0),
        (8, 0, other, 0),
        (8, a, profile, 0),
        (8, 0, profile, c),
        (8, a, other, 0),
        (8, 0, other, c),
        (8, a, other, c),
        (18, 0, profile, 0),
    ]);
    list.line(kind, a, b, c);
}

/// What shows that nothing is left of the controller before.
fn started(link: &mut Link, random: &mut Random, list: &mut List) {
    link.in_alr = false;
    if random.below(3) == 0 {
        // The rate as the delay estimate bounds it before the first observation: not at all.
        list.estimate(link.sending);
        list.report(link.sending / 2.0);
    }
    if random.below(4) == 0 {
        return;
    }
    list.estimate(link.sending * (1.0 + random.fraction()));
    if random.below(2) == 0 {
        let rate = near(random, list, link.sending);
        list.acknowledged(rate);
    }
    match random.below(4) {
        0 => link.now = link.now.saturating_sub(random.below(2 * SECOND)),
        1 => link.now += random.below(SECOND),
        _ => {}
    }
}

/// One, two and four of twenty packets lost, the same by bytes, and unequal sizes, by both profiles. The first
/// report's packet is one of them.
fn values(list: &mut List) {
    for profile in BOTH {
        for (lost, size) in [(1, 50), (2, 50), (4, 50), (2, 0)] {
            list.start(profile);
            list.packet(0, false, size);
            list.report(f64::INFINITY);
            for place in 1..20 {
                list.packet(300 * MS, place <= lost, size);
            }
            list.report(f64::INFINITY);
            list.estimate(1e15);
        }
        list.start(profile);
        list.packet(0, true, 1_000);
        list.report(f64::INFINITY);
        list.packet(300 * MS, false, 10);
        list.packet(300 * MS, false, 10);
        list.report(f64::INFINITY);
        list.estimate(1e15);
    }
}
