//! The kinds of call lists that the generator makes, each from a seed.

use crate::line::Profile;
use crate::list::List;
use crate::random::Random;

#[path = "kinds/asides.rs"]
mod asides;
#[path = "kinds/corners.rs"]
mod corners;
#[path = "kinds/damaged.rs"]
mod damaged;
#[path = "kinds/frames.rs"]
mod frames;
#[path = "kinds/fresh.rs"]
mod fresh;
#[path = "kinds/hold.rs"]
mod hold;
#[path = "kinds/limit.rs"]
mod limit;
#[path = "kinds/link.rs"]
mod link;
#[path = "kinds/mixed.rs"]
mod mixed;
#[path = "kinds/pads.rs"]
mod pads;
#[path = "kinds/targets.rs"]
mod targets;
#[path = "kinds/ties.rs"]
mod ties;
#[path = "kinds/wild.rs"]
mod wild;

pub type Make = fn(&mut Random, &mut List);

/// Name, what it is, and the maker. The seed decides everything but the kind.
pub const KINDS: &[(&str, &str, Make)] = &[
    ("dense", "a match: packets every few ms, several reports per observation", link::dense),
    ("sparse", "few packets per observation, spans from 250 ms to a minute", link::sparse),
    ("hold", "in and out of Decreasing, times around the end of the hold", hold::hold),
    ("wild", "any rate, any time, any order of calls", wild::wild),
    ("small", "very small rates and sizes", wild::small),
    ("corners", "the values that document 01 names, from a fresh controller", corners::corners),
    ("queue", "4,096 and 4,097 packets", corners::queue),
    ("ties", "choices that hang on one rounding", ties::ties),
    ("targets", "situations that random lists seldom meet, twelve by number", targets::targets),
    (
        "runaway",
        "zero bytes drive the rate to its limit, and without it above 2^64",
        targets::runaway,
    ),
    ("damaged", "lines out of shape among good ones", damaged::damaged),
    ("fresh", "what only a fresh controller shows", fresh::fresh),
    ("single", "one packet per observation", link::single),
    ("near", "one choice, up to fifty floats from where it flips", |random, list| {
        ties::near(random.below(100_000_000), list);
    }),
    ("argument", "choices that hang on one logarithm, of 1 + rate", ties::argument),
    (
        "asides",
        "calls that should change nothing or one field, where every field counts",
        asides::asides,
    ),
    ("brim", "the same with a packet that finds the queue full", asides::brim),
    (
        "brim-fall",
        "packets that find the queue full in a hold and in a recovery",
        asides::brim_after_a_fall,
    ),
    ("chunks", "reads, with line ends about every 65,536th byte", corners::chunks),
    ("frames", "a match of whole frames, in wide lines", frames::frames),
    ("mixed", "lines of both widths, and their edges", mixed::mixed),
    ("full", "10^12 running bytes of frames, more, and on after the refusal", frames::full),
    ("wide-chunks", "wide lines, with line ends about every 65,536th byte", corners::wide_chunks),
    ("wide-asides", "packets that are too large, where every field counts", asides::wide_asides),
    ("limit", "rates about the limit of 10^15 bit/s, of either width", limit::limit),
    ("pads", "four pads: controllers of both profiles, started in mid-list", pads::pads),
    (
        "start-asides",
        "lines of kind 8, refused and taken, where every field counts",
        asides::start_asides,
    ),
];

/// The first kind that knows wide lines, and the first that knows kind 8.
const FIRST_WIDE: &str = "frames";
const FIRST_STARTED: &str = "pads";

/// Before the name of a kind that does not know kind 8: its list behind a line that starts a controller by
/// packets, and played to that one.
pub const BY_PACKETS: &str = "packets-";

pub fn make(name: &str, seed: u64) -> Option<Vec<u8>> {
    let is_before = |place: usize, first| KINDS[..=place].iter().all(|kind| kind.0 != first);
    let kind = name.strip_prefix(BY_PACKETS).unwrap_or(name);
    let place = KINDS.iter().position(|known| known.0 == kind)?;
    let mut random = Random::new(seed.wrapping_mul(1_000_003).wrapping_add(place as u64));
    let mut list = List::new();
    if kind == name {
        list.small_c = is_before(place, FIRST_WIDE);
        list.seven_kinds = is_before(place, FIRST_STARTED);
    } else if is_before(place, FIRST_STARTED) {
        list.start(Profile::Packets);
    } else {
        return None;
    }
    // The first seeds of targets are their numbers; all seeds of near are numbers too.
    match kind {
        "targets" if seed < targets::COUNT => targets::target(seed, &mut list),
        "near" => ties::near(seed, &mut list),
        _ => KINDS[place].2(&mut random, &mut list),
    }
    Some(list.text)
}

/// A match of the four pads, behind a line that starts a controller by packets.
pub fn match_of_pads(seed: u64) -> Vec<u8> {
    let mut list = List::new();
    list.start(Profile::Packets);
    pads::match_of_pads(&mut Random::new(seed), &mut list);
    list.text
}

/// Lists of all kinds in turn, each by bytes and then by packets, a third of them with wide lines; the long and
/// always equal ones and those that leave demand 2 come seldom.
pub fn any(seed: u64) -> (String, Vec<u8>) {
    let turn = [
        "dense", "sparse", "frames", "hold", "wild", "mixed", "ties", "small", "frames", "sparse",
        "corners", "mixed", "ties", "damaged", "frames", "hold", "targets", "mixed", "pads",
    ];
    let kind = match seed / 2 % 100 {
        99 => "queue",
        24 | 49 | 74 | 98 => "limit",
        other => turn[other as usize % turn.len()],
    };
    let by_packets = seed % 2 == 1 && kind != FIRST_STARTED;
    let name = if by_packets { BY_PACKETS.to_string() + kind } else { kind.to_string() };
    let list = make(&name, seed).expect("a kind's name");
    (name, list)
}
