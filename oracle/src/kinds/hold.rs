//! Lists that go into Decreasing again and again, so that the hold doubles up to its 60 s, and look
//! at the times just before, at and after its end.

use super::link::{near, Link, MS, SECOND};
use crate::list::List;
use crate::random::Random;

pub fn hold(random: &mut Random, list: &mut List) {
    let mut link = Link::new(random, list);
    list.estimate(link.sending);
    let mut hold = 300 * MS;
    let careful = random.below(2) == 0;
    for _ in 0..70 {
        let was_decreasing = list.is_decreasing();
        link.loss = if list.is_decreasing() { 0.0 } else { 0.3 + random.fraction() / 2.0 };
        if !careful && random.below(6) == 0 {
            link.drift(random, list);
        }
        link.delay = match random.below(if careful { 40 } else { 12 }) {
            0 => near(random, list, link.sending),
            1 => f64::INFINITY,
            _ => link.sending * 8.0,
        };
        acknowledge(&link, random, list);
        let span = if was_decreasing { about(random, hold) } else { 251 * MS };
        link.packets(random, list, span.max(251 * MS), 3);
        link.report(random, list);
        if list.is_decreasing() && !was_decreasing {
            hold = (hold * 2).min(60 * SECOND);
        }
        if list.last.state == 0 {
            hold = 300 * MS;
        }
    }
}

fn acknowledge(link: &Link, random: &mut Random, list: &mut List) {
    if list.is_increasing() && random.below(3) != 0 {
        return;
    }
    let factor = random.pick(&[0.3, 0.9, 1.0, 1.2, 1.29, 1.3, 1.31, 1.5, 3.0]);
    let rate = if random.below(2) == 0 { list.published() } else { None };
    list.acknowledged(rate.unwrap_or(link.sending) * factor);
}

/// A span that ends about where the hold does, or before that.
fn about(random: &mut Random, hold: u64) -> u64 {
    let before = hold / 2;
    match random.below(8) {
        0 => before - 1,
        1 => before,
        2 => before + 1,
        3 => hold,
        4 => hold + 1,
        5 => random.below(hold),
        _ => 2 * hold,
    }
}
