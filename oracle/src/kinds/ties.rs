//! Lists in which the choice between two candidates hangs on one rounding, again and again.

use super::link::SECOND;
use crate::bwe::call_list::Program;
use crate::list::List;
use crate::random::Random;
use crate::tie::{best, text, Line, Tie};

const ARGUMENT_TIES: u64 = 12;

/// Floats whose logarithm is rounded otherwise if one of its steps is fused or regrouped; random
/// floats seldom show the step at L2 or at L3, for which the first two stand.
const ARGUMENTS: [f64; 5] = [
    f64::from_bits(0x3FF6_6563_A675_0A2A),
    f64::from_bits(0x3FF6_7E03_E3B4_3FED),
    f64::from_bits(0x4003_6164_1FF5_67C9),
    f64::from_bits(0x4002_7250_0545_8065),
    f64::from_bits(0x4006_265F_F80F_C25A),
];

pub fn ties(random: &mut Random, list: &mut List) {
    for turn in 0..8 {
        tie(random, list, (1 + 10 * turn) * SECOND);
    }
}

/// One such choice at `start`, if a random short list has one, and then an empty window.
pub fn tie(random: &mut Random, list: &mut List, start: u64) {
    let tie = Tie::random_of(list.profile(), random, start);
    play(random, list, &tie);
}

/// Choices in which 1 + rate, of which the logarithm is taken, is one of these floats: the rate is the
/// acknowledged one, and the estimate is bisected.
pub fn argument(random: &mut Random, list: &mut List) {
    let rate = random.pick(&ARGUMENTS) - 1.0;
    for turn in 0..ARGUMENT_TIES {
        let start = (1 + 20_000 * turn) * SECOND;
        let tie = Tie::at_rate(list.profile(), random, rate, start);
        play(random, list, &tie);
        // DelayBased again, for the next one.
        for time in [start + 10_000 * SECOND, start + 10_001 * SECOND] {
            list.packet(time, false, 1);
            list.report(0.0);
        }
        list.alr(Some(1));
        list.alr(None);
    }
}

fn play(random: &mut Random, list: &mut List, tie: &Tie) {
    let flips = tie.flips(|lines| choice(&list.text, lines));
    if flips.is_empty() {
        return;
    }
    let a = random.pick(&flips) + random.below(4) - 1;
    for line in tie.with(a) {
        list.raw(text(&line).as_bytes());
    }
    list.alr(Some(1));
    list.alr(None);
}

/// One choice about which one float decides; the seed says which list and which float.
pub fn near(seed: u64, list: &mut List) {
    for line in Tie::near(list.profile(), seed, |lines| choice(&list.text, lines)) {
        list.raw(text(&line).as_bytes());
    }
}

/// The candidate that is chosen by the last of `lines`, after those before them.
fn choice(before: &[u8], lines: &[Line]) -> Option<usize> {
    let mut program = Program::new();
    for line in before.split_inclusive(|&byte| byte == b'\n') {
        program.answer(line.trim_ascii_end());
    }
    let (last, lines) = lines.split_last()?;
    for line in lines {
        program.answer(text(line).as_bytes());
    }
    best(&program.into_judged(text(last).as_bytes()))
}
