//! The values that document 01 names. Each list starts from a fresh controller with one of them,
//! and meets the others in a random order behind ALR changes.

use super::link::{MS, SECOND};
use crate::line::{HIGHEST_RATE, LATEST_TIME};
use crate::list::List;
use crate::random::Random;

type Corner = fn(&mut List, u64);

const CORNERS: [Corner; 10] = [
    spans,
    empty_and_late,
    rates,
    one_observation,
    zero_bytes,
    latest_times,
    alr,
    capacity,
    wrap,
    codes,
];

pub fn corners(random: &mut Random, list: &mut List) {
    let mut start = 0;
    for _ in 0..CORNERS.len() {
        random.pick(&CORNERS)(list, start);
        if random.below(2) == 0 {
            list.alr(Some(start));
            list.alr(None);
        }
        start = random.below(100) * SECOND;
    }
}

/// A report of one packet.
fn one(list: &mut List, time: u64, lost: bool, bytes: u64, delay: f64) {
    list.packet(time, lost, bytes);
    list.report(delay);
}

fn spans(list: &mut List, start: u64) {
    list.estimate(2e6);
    one(list, start, false, 10_000, 4e6);
    one(list, start + 250 * MS, false, 20_000, 4e6);
    one(list, start + 250 * MS + 1, true, 30_000, 4e6);
    one(list, start + 500 * MS + 1, true, 40_000, 4e6);
    one(list, start + 500 * MS + 2, true, 50_000, 4e6);
    // 125,000 bytes in 500 ms.
    list.packet(start + 1000 * MS + 1, false, 62_500);
    list.packet(start + 1000 * MS + 2, false, 62_500);
    list.report(f64::INFINITY);
    list.read();
}

fn empty_and_late(list: &mut List, start: u64) {
    list.report(5e5);
    list.estimate(1e6);
    list.report(3e5);
    list.read();
    one(list, start + SECOND, false, 50_000, 2e6);
    list.report(7e5);
    one(list, start, true, 60_000, 2e6);
    one(list, start + 2 * SECOND, false, 1, 2e6);
    list.report(1e5);
    list.report(f64::NAN);
    // The latest packet decides, wherever it stands.
    list.packet(start + 3 * SECOND, false, 40_000);
    list.packet(start + SECOND, true, 10_000);
    list.report(9e5);
}

fn rates(list: &mut List, start: u64) {
    let mut time = start;
    let bits = [
        HIGHEST_RATE.to_bits(),
        HIGHEST_RATE.to_bits() + 1,
        0,
        1 << 63,
        1,
        (1 << 52) - 1,
        f64::INFINITY.to_bits(),
        f64::NEG_INFINITY.to_bits(),
        0x7FF8_0000_0000_0000,
        0xFFF8_0000_0000_0001,
        0x7FF0_0000_0000_0001,
        0xFFF7_FFFF_FFFF_FFFF,
        f64::MAX.to_bits(),
        (-1.0_f64).to_bits(),
    ];
    for a in bits {
        list.line(1, a, 0, 0);
        list.line(2, a, 0, 0);
        list.line(4, a, 1, 0);
        time += 300 * MS;
        list.packet(time, time % 3 == 0, 20_000);
        list.line(6, a, 0, 0);
        time += 300 * MS;
        one(list, time, true, 5_000, 1e6);
    }
    list.estimate(1e5);
    list.acknowledged(f64::INFINITY);
    list.capacity(None);
}

/// 50 and 100 of 1,000 bytes lost: a ratio of 0.05 sets no ceiling.
fn one_observation(list: &mut List, start: u64) {
    list.estimate(8e6);
    for (lost, step) in [(50, 1), (100, 2), (1_000, 3), (0, 4)] {
        let time = start + step * 10 * SECOND;
        list.alr(Some(time));
        one(list, time, false, 0, f64::INFINITY);
        list.packet(time + SECOND, true, lost);
        list.packet(time + SECOND, false, 1_000 - lost);
        list.report(f64::INFINITY);
        list.alr(None);
    }
}

fn zero_bytes(list: &mut List, start: u64) {
    list.estimate(3e5);
    for i in 0..20 {
        one(list, start + i * 300 * MS, i % 3 == 0, 0, 1e6 + i as f64);
    }
    one(list, start + 7 * SECOND, true, 0, 2e5);
    one(list, start + 8 * SECOND, true, 1, 2e5);
}

fn latest_times(list: &mut List, _: u64) {
    list.estimate(3e5);
    one(list, 0, false, 100, 1e6);
    one(list, LATEST_TIME + 1, false, 100, 1e6);
    one(list, LATEST_TIME, true, 60_000, 1e6);
    one(list, LATEST_TIME, true, 60_000, 1e6);
    list.alr(Some(LATEST_TIME));
    list.alr(Some(LATEST_TIME + 1));
    list.alr(None);
    for i in 0..4 {
        list.packet(LATEST_TIME - (3 - i) * SECOND, i != 3, 60_000);
        list.report(1e7);
    }
    list.alr(Some(1));
    list.alr(None);
}

/// ALR changes in mid-window, ALR on twice.
fn alr(list: &mut List, start: u64) {
    list.estimate(1e6);
    list.acknowledged(9e5);
    let mut time = start;
    for i in 0..40 {
        time += 200 * MS;
        list.packet(time, i % 4 == 1, 20_000 + i * 100);
        if i % 7 == 3 {
            list.alr(Some(time));
        }
        if i % 14 == 10 {
            list.alr(None);
        }
        list.report(3e6);
        if i % 7 == 4 {
            list.alr(Some(time + 1));
        }
    }
    list.alr(None);
}

/// Link capacity inside and outside ALR, given, not finite, below the estimate and absent.
fn capacity(list: &mut List, start: u64) {
    let mut time = start;
    list.acknowledged(f64::INFINITY);
    for capacity in [Some(4e5), Some(f64::INFINITY), Some(0.0), None, Some(1.01e6)] {
        for on in [true, false] {
            list.capacity(capacity);
            list.alr(on.then_some(time));
            list.estimate(1e6);
            for _ in 0..3 {
                time += 260 * MS;
                one(list, time, false, 40_000, 5e6);
            }
        }
    }
    list.capacity(None);
}

/// More than fifteen observations of different sizes, so that slots wrap.
fn wrap(list: &mut List, start: u64) {
    list.estimate(1.5e6);
    for i in 0..34 {
        let time = start + i * 270 * MS;
        list.packet(time, i % 3 == 0, 1_000 + 977 * i);
        list.packet(time + i, i % 5 == 0, 60_000 - 1_277 * i);
        list.report(2.5e6);
    }
}

/// Two codes on one line: which comes first.
fn codes(list: &mut List, _: u64) {
    let negative = (-1.0_f64).to_bits();
    for kind in [1, 2, 6] {
        list.packet(1, true, 7);
        list.line(kind, negative, 1, 0);
        list.line(kind, negative, 0, 1);
        list.line(kind, negative, 0, 0);
    }
    for (a, b, c) in [(1, 0, 0), (0, 0, 1), (0, 2, 0), (1, 2, 0), (1, 2, 1), (0, u64::MAX, 0)] {
        list.line(3, a, b, c);
        list.line(4, a, b, c);
    }
    for b in [0, 1, 2] {
        list.line(3, LATEST_TIME + 1, b, 0);
        list.line(4, negative, b, 0);
        list.line(5, LATEST_TIME + 1, b, 9);
        list.line(5, LATEST_TIME + 1, b, 65_536);
    }
    list.line(5, 5, 2, 65_536);
    list.line(5, 5, 2, 65_535);
    list.alr(Some(0));
    list.line(3, 0, 0, 0);
    list.line(4, 0, 1, 0);
    list.line(4, 0, 0, 0);
    for (a, b, c) in [(0, 0, 0), (1, 0, 0), (0, 1, 0), (0, 0, 1)] {
        list.line(7, a, b, c);
    }
    for kind in [0, list.first_outside(), 9, 10, 16, 70, 99] {
        list.line(kind, 0, 0, 0);
    }
    list.report(4e5);
}

/// The queue's last place, the refusals beyond it, and what empties it.
pub fn queue(_: &mut Random, list: &mut List) {
    list.estimate(1e7);
    one(list, 0, false, 10, 2e7);
    for i in 0..4_096 {
        list.packet(SECOND + i * 10, i % 5 == 0, 11);
    }
    list.packet(9 * SECOND, true, 65_535);
    list.line(5, LATEST_TIME + 1, 1, 65_535);
    list.line(5, 1, 2, 65_535);
    list.line(5, 1, 1, 65_536);
    list.line(6, (2e7_f64).to_bits(), 0, 1);
    list.report(2e7);
    one(list, 2 * SECOND, false, 100, 2e7);
    list.packet(3 * SECOND, true, 65_535);
    list.report(-1.0);
    list.report(2e7);
    one(list, 4 * SECOND, false, 100, 2e7);
}

const CHUNK: usize = 65_536;

/// A line about the end of each of the first chunks that a program reads: its newline is the next chunk's
/// first byte, this one's last, or it goes on; empty lines; a line with more bytes than a line has.
pub fn chunks(_: &mut Random, list: &mut List) {
    let read = b" 7                   0                   0     0".as_slice();
    let long = [read, b"     "].concat();
    let ends = [(read, 48), (read, 49), (read, 20), (&long, 48), (&long, 49), (b"".as_slice(), 0)];
    about_ends(list, &ends);
}

/// The same with wide lines. The packet is refused with 17, so that the controller stays fresh; its
/// first 48 columns are a narrow line that is taken.
pub fn wide_chunks(_: &mut Random, list: &mut List) {
    list.wide = true;
    let read = b" 7                   0                   0       0".as_slice();
    let packet = b" 5                1000                   010000000".as_slice();
    let long = [packet, b"     "].concat();
    let ends = [
        (read, 50),
        (read, 51),
        (packet, 20),
        (packet, 48),
        (packet, 49),
        (packet, 50),
        (packet, 51),
        (&long, 48),
        (&long, 50),
        (&long[..51], 50),
        (&long[..51], 51),
    ];
    about_ends(list, &ends);
}

/// Each line so that the chunk ends as many bytes behind its start.
fn about_ends(list: &mut List, ends: &[(&[u8], usize)]) {
    for (end, (line, before)) in ends.iter().enumerate() {
        // Lines up to there, the last of them long.
        list.read();
        let room = (end + 1) * CHUNK - before - list.text.len() - 1;
        list.raw(&vec![b'7'; room]);
        list.raw(line);
        list.read();
    }
}
