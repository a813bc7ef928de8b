//! What only a fresh controller shows: no observation, no reduction, nothing acknowledged.

use super::link::{MS, SECOND};
use super::targets;
use crate::list::List;
use crate::random::Random;

pub fn fresh(_: &mut Random, list: &mut List) {
    list.read();
    list.estimate(1e6);
    list.report(4e5);
    list.read();
    list.packet(400 * MS, true, 1_000);
    list.report(4e5);
    targets::recovery_from_time_zero(list);
    list.estimate(1e5);
    list.acknowledged(3e5);
    list.capacity(Some(1.5e5));
    for step in 2..5 {
        list.packet(step * SECOND, false, 20_000);
        list.report(9e6);
    }
    list.alr(None);
    list.capacity(None);
}
