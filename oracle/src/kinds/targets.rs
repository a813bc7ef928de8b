//! Situations that random lists seldom meet. An ALR change empties the window, so that a loss need
//! not be waited out; hold, state and times of the last reduction stay.

use super::link::{MS, SECOND};
use crate::list::List;
use crate::random::Random;

pub const COUNT: u64 = TARGETS.len() as u64;
const TARGETS: [fn(&mut List); 12] = [
    hold_to_the_minute,
    ends_of_both_windows,
    recovery_from_time_zero,
    not_finite_while_increasing,
    not_finite_bounds,
    long_after_a_reduction,
    equal_objectives,
    loss_equal_to_inherent_loss,
    time_goes_back,
    rate_zero,
    below_five_kilobits,
    odd_spans,
];

pub fn target(number: u64, list: &mut List) {
    TARGETS[number as usize](list);
}

/// Three targets in a row, so that one meets the state that another left.
pub fn targets(random: &mut Random, list: &mut List) {
    for _ in 0..3 {
        target(random.below(COUNT), list);
        clear_window(list);
    }
}

/// Two reports: the reference time and an observation `span` later, `lost` of 20,000 bytes lost; by packets as
/// many thousandths of 20, of which the first report's is one.
fn observe(list: &mut List, start: u64, span: u64, lost: u64, delay: f64) {
    list.packet(start, list.is_by_packets() && lost == 20_000, 0);
    list.report(delay);
    if list.is_by_packets() {
        for place in 1..20 {
            list.packet(start + span, place <= lost / 1_000, 1_000);
        }
    } else {
        list.packet(start + span, false, 20_000 - lost);
        list.packet(start + span, true, lost);
    }
    list.report(delay);
}

fn clear_window(list: &mut List) {
    list.alr(Some(7));
    list.alr(None);
}

/// Loss at `time`, so that the state is Decreasing from there on.
fn fall(list: &mut List, time: u64, delay: f64) {
    clear_window(list);
    observe(list, time - SECOND, SECOND, 12_000, delay);
    clear_window(list);
}

/// Into Decreasing ten times, looking each time just before and just after the hold's end.
fn hold_to_the_minute(list: &mut List) {
    list.estimate(2e6);
    list.acknowledged(3e6);
    let mut time = 100 * SECOND;
    let mut hold = 300 * MS;
    for _ in 0..10 {
        fall(list, time, 9e6);
        if hold > 2 * SECOND {
            observe(list, time + hold - SECOND, SECOND - 1, 0, 9e6);
            clear_window(list);
        }
        observe(list, time + hold - 260 * MS, 260 * MS, 0, 9e6);
        observe(list, time + hold + MS, 260 * MS, 0, 9e6);
        time += hold + 10 * SECOND;
        hold = (2 * hold).min(60 * SECOND);
    }
    // Back to DelayBased, where the span starts anew.
    observe(list, time, 300 * MS, 0, 1e4);
    time += 10 * SECOND;
    list.estimate(2e6);
    fall(list, time, 9e6);
    observe(list, time + 310 * MS, 260 * MS, 0, 9e6);
}

/// Observations at the last ns of the 300 ms after a fall, one before and one after.
fn ends_of_both_windows(list: &mut List) {
    list.estimate(2e6);
    let mut time = 100 * SECOND;
    for acknowledged in [4e5, 2e6, 8e6] {
        for end in [300 * MS - 1, 300 * MS, 300 * MS + 1] {
            list.estimate(2e6);
            list.acknowledged(acknowledged);
            fall(list, time, 9e6);
            observe(list, time + 10 * MS, end - 10 * MS, 0, 9e6);
            observe(list, time + end, 299 * MS, 0, 9e6);
            // DelayBased again.
            observe(list, time + 5 * SECOND, 300 * MS, 0, 1e4);
            clear_window(list);
            time += 20 * SECOND;
        }
    }
}

/// A first fall within 300 ms of time 0, by a link capacity below the delay estimate.
pub fn recovery_from_time_zero(list: &mut List) {
    list.estimate(1e6);
    list.capacity(Some(1e6));
    list.alr(Some(0));
    observe(list, 0, 260 * MS, 0, 9e6);
    list.capacity(None);
    for time in [600, 900, 1_200] {
        list.packet(time * MS, false, 20_000);
        list.report(9e6);
    }
}

fn not_finite_while_increasing(list: &mut List) {
    let mut time = 100 * SECOND;
    for acknowledged in [f64::NEG_INFINITY, f64::INFINITY, f64::NAN, 0.0, 1.0, 1e6] {
        list.estimate(2e6);
        list.acknowledged(1e6);
        fall(list, time, 9e6);
        list.acknowledged(acknowledged);
        for after in [400, 1_000, 1_300] {
            observe(list, time + after * MS, 260 * MS, 0, 9e6);
        }
        time += 20 * SECOND;
    }
}

/// Delay estimates and link capacities that are not finite bound nothing.
fn not_finite_bounds(list: &mut List) {
    let mut time = 100 * SECOND;
    for bound in [f64::NEG_INFINITY, f64::INFINITY, f64::NAN, 0.0, 1e6] {
        for delay in [bound, 9e6] {
            list.estimate(1e6);
            list.capacity(Some(bound));
            list.alr(Some(time));
            for step in 0..3 {
                observe(list, time + step * SECOND, 300 * MS, 0, delay);
            }
            list.alr(None);
            time += 20 * SECOND;
        }
    }
}

/// The acceleration ends a minute after a reduction, also where the state is DelayBased.
fn long_after_a_reduction(list: &mut List) {
    list.acknowledged(1e6);
    let mut time = 200 * SECOND;
    for wait in [1, 30, 59, 60, 61, 70, 500] {
        list.estimate(2e6);
        fall(list, time, 9e6);
        observe(list, time + MS, 300 * MS, 0, 1e4);
        list.acknowledged(1e3);
        list.estimate(5e4);
        list.capacity(Some(1e5));
        list.alr(Some(time));
        observe(list, time + (wait - 1) * SECOND, SECOND, 0, 9e6);
        list.capacity(None);
        list.alr(None);
        list.acknowledged(1e6);
        time += 1_000 * SECOND;
    }
}

/// A ratio of exactly 0.2 has no bias, so that all candidates above the sent rate are equal. The
/// inherent loss is driven above 0.2 before, or else it would stop the increase.
fn equal_objectives(list: &mut List) {
    let mut time = 100 * SECOND;
    for (acknowledged, delay) in [(3e5, 2e5), (3e5, 4e5), (2e5, 3e5)] {
        list.acknowledged(f64::INFINITY);
        while f64::from_bits(list.last.inherent_loss) < 0.2 {
            list.estimate(1.5e5);
            time += 2 * SECOND;
            observe(list, time, 1_600 * MS, 20_000, 1e4);
        }
        clear_window(list);
        list.estimate(5e4);
        list.acknowledged(acknowledged);
        observe(list, time + 20 * SECOND, 1_600 * MS, 4_000, delay);
        clear_window(list);
        time += 100 * SECOND;
    }
}

/// One byte of 1,000 lost and an inherent loss of 0.001: the loss does not exceed it.
fn loss_equal_to_inherent_loss(list: &mut List) {
    list.estimate(1e6);
    for step in 0..4 {
        let time = (100 + step) * SECOND;
        list.packet(time, false, 999);
        list.packet(time, true, 1);
        list.report(3e6);
    }
}

/// After an ALR change times may lie before the last reduction and before the hold's end.
fn time_goes_back(list: &mut List) {
    list.acknowledged(1e6);
    let mut time = 300 * SECOND;
    for back in [10, 1, 100] {
        list.estimate(2e6);
        fall(list, time, 9e6);
        observe(list, time + SECOND, 300 * MS, 0, 9e6);
        clear_window(list);
        for step in 0..4 {
            observe(list, time - back * SECOND + step * SECOND, 300 * MS, 0, 9e6);
        }
        clear_window(list);
        observe(list, time - back * SECOND, 300 * MS, 15_000, 9e6);
        time += 100 * SECOND;
    }
}

/// A rate of 0 beside a sent rate of 0, where a quotient of both would be NaN.
fn rate_zero(list: &mut List) {
    for delay in [0.0, 1e5, f64::INFINITY] {
        clear_window(list);
        list.estimate(0.0);
        for step in 0..4 {
            list.packet((100 + step) * SECOND, step == 2, 0);
            list.report(delay);
        }
        list.packet(110 * SECOND, false, 1_000);
        list.report(delay);
        list.packet(111 * SECOND, true, 500);
        list.report(delay);
    }
}

/// The limit in the window is at least 5 kbit/s.
fn below_five_kilobits(list: &mut List) {
    let mut time = 100 * SECOND;
    for rate in [1e3, 3e3, 3.9e3, 5e3] {
        list.estimate(rate);
        fall(list, time, 9e6);
        observe(list, time + 400 * MS, 300 * MS, 0, 9e6);
        observe(list, time + 800 * MS, 300 * MS, 0, 9e6);
        observe(list, time + 2 * SECOND, 300 * MS, 0, 1e2);
        time += 20 * SECOND;
    }
}

/// Spans whose seconds round otherwise if whole seconds and rest are not taken apart.
fn odd_spans(list: &mut List) {
    let mut time = 100 * SECOND;
    for step in 1..30 {
        list.estimate(1e3 * step as f64);
        let mut span = 1_234_567_891 * step;
        while is_even_span(span) {
            span += 1;
        }
        time += span;
        list.packet(time, false, 40_000 - step * 700);
        list.packet(time, true, 1_000 + step * 300);
        list.report(2e6);
    }
}

fn is_even_span(ns: u64) -> bool {
    let (whole, rest) = (ns / SECOND, ns % SECOND);
    whole as f64 + rest as f64 / 1e9 == ns as f64 / 1e9
}

pub fn runaway(_: &mut Random, list: &mut List) {
    list.estimate(1e15);
    for step in 0..520 {
        list.packet(step * 300 * MS, false, 0);
        list.report(f64::INFINITY);
    }
    list.report(1e15);
    list.packet(600 * SECOND, true, 60_000);
    list.report(1e15);
}
