//! Calls that should change nothing, or one field alone, between observations in which every field counts:
//! ALR on, a link capacity and an acknowledged rate that bound the candidates, loss that comes and goes.

use super::link::{near, Link, MS};
use super::pads;
use crate::line::{Profile, LARGEST_SIZE, LATEST_TIME};
use crate::list::List;
use crate::random::Random;

pub fn asides(random: &mut Random, list: &mut List) {
    let mut link = bounded(random, list);
    for _ in 0..60 {
        step(&mut link, random, list, 2, aside);
    }
    // A last line that lacks its newline.
    list.read();
    list.text.pop();
}

/// Packets that are too large, in wide lines.
pub fn wide_asides(random: &mut Random, list: &mut List) {
    list.wide = true;
    let mut link = bounded(random, list);
    for _ in 0..60 {
        step(&mut link, random, list, 2, too_large);
    }
}

/// Lines of kind 8 that are refused, and some that are taken, behind which a part is given of what bounded the
/// controller before.
pub fn start_asides(random: &mut Random, list: &mut List) {
    for _ in 0..3 {
        list.start(random.pick(&[Profile::Bytes, Profile::Packets]));
        let mut link = bounded(random, list);
        for _ in 0..25 {
            step(&mut link, random, list, 2, |_, random, list| {
                if random.below(3) == 0 {
                    pads::refused(random, list);
                }
            });
        }
        // Running sums and a queue that the start forgets.
        link.packets(random, list, 100 * MS, 2);
        list.report(link.delay);
        link.packets(random, list, 10 * MS, 2);
        started(&mut link, random, list);
    }
}

/// Observations without loss on a fresh controller.
fn started(link: &mut Link, random: &mut Random, list: &mut List) {
    list.start(random.pick(&[Profile::Bytes, Profile::Packets]));
    list.estimate(link.sending);
    link.delay = link.sending * 8.0;
    match random.below(3) {
        0 => list.capacity(Some(link.sending * 1.01)),
        1 => list.alr(Some(link.now)),
        _ => {
            list.acknowledged(link.sending);
            link.delay = link.sending * 1.01;
        }
    }
    link.loss = 0.0;
    for _ in 0..4 {
        link.packets(random, list, 300 * MS, 2);
        list.report(link.delay);
    }
    list.report(f64::INFINITY);
}

/// A packet that finds the queue full, among observations as above and after a report that completes none.
pub fn brim(random: &mut Random, list: &mut List) {
    let mut link = bounded(random, list);
    for _ in 0..40 {
        step(&mut link, random, list, 2, none);
    }
    list.packet(link.now + MS, true, 5_000);
    list.report(link.delay);
    link.loss = 0.1;
    link.packets(random, list, 300 * MS, 4_096);
    // One more, also where the ceiling is what is published.
    let rate = list.published().unwrap_or(link.sending);
    for estimate in [rate, 1e12, rate] {
        list.estimate(estimate);
        list.packet(link.now, false, 1);
    }
    list.report(link.delay);
    list.alr(Some(link.now));
    for _ in 0..40 {
        step(&mut link, random, list, 2, none);
    }
}

/// Packets that find the queue full after the fall of a rate, within its hold, and after the rise that
/// follows it, within the recovery's window; nothing else bounds the candidates.
pub fn brim_after_a_fall(_: &mut Random, list: &mut List) {
    list.estimate(2e6);
    list.acknowledged(1e9);
    for (time, lost) in [(0, 0), (1_000, 40_000)] {
        list.packet(time * MS, true, lost);
        list.packet(time * MS, false, 60_000 - lost);
        list.report(9e9);
    }
    list.alr(Some(1));
    list.alr(None);
    for time in [1_001, 1_290, 1_580, 1_870, 2_160] {
        let fills = time == 1_290 || time == 1_870;
        for place in 0..if fills { 4_097 } else { 1 } {
            list.packet(time * MS - place, false, 20);
        }
        list.report(9e9);
    }
}

fn too_large(link: &Link, random: &mut Random, list: &mut List) {
    if random.below(3) == 0 {
        list.line(5, link.now, random.below(3), LARGEST_SIZE + 1);
    }
}

fn none(_: &Link, _: &mut Random, _: &mut List) {}

fn bounded(random: &mut Random, list: &mut List) -> Link {
    let link = Link::new(random, list);
    list.estimate(link.sending);
    list.acknowledged(link.sending);
    list.capacity(Some(link.sending * 1.01));
    list.alr(Some(link.now));
    link
}

type Aside = fn(&Link, &mut Random, &mut List);

fn step(link: &mut Link, random: &mut Random, list: &mut List, count: u64, aside: Aside) {
    match random.below(6) {
        0 | 1 => link.loss = random.pick(&[0.0, 0.0, 0.1, 0.5]),
        2 | 3 => link.loss = if list.is_decreasing() { 0.0 } else { 0.5 },
        _ => {}
    }
    if random.below(4) == 0 {
        list.acknowledged(near(random, list, link.sending));
    }
    if random.below(4) == 0 {
        let rate = list.published().unwrap_or(link.sending);
        list.capacity(Some(rate * (1.0 + random.fraction() / 20.0)));
    }
    link.delay =
        if random.below(6) == 0 { near(random, list, link.sending) } else { link.sending * 8.0 };
    aside(link, random, list);
    let span = (251 + random.below(400)) * MS;
    link.packets(random, list, span, count);
    aside(link, random, list);
    list.report(link.delay);
    aside(link, random, list);
}

fn aside(link: &Link, random: &mut Random, list: &mut List) {
    let refused = (-1.0_f64).to_bits();
    match random.below(24) {
        0 => list.raw(b""),
        1 => list.line(4, refused, 1, 0),
        2 => list.line(1, refused, 0, 0),
        3 => list.line(3, LATEST_TIME + 1, 1, 0),
        4 => list.line(5, LATEST_TIME + 1, 0, 9),
        5 => list.line(5, 1, 2, 9),
        6 => list.line(6, refused, 0, 0),
        7 => list.alr(Some(link.now)),
        8 => list.read(),
        9 => {
            let rate = list.published().unwrap_or(link.sending);
            list.estimate(f64::INFINITY);
            list.packet(link.now + 260 * MS, false, 1_000);
            list.report(link.delay);
            list.estimate(rate);
        }
        _ => {}
    }
}
