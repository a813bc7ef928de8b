//! Lines of both widths in one list (Q-10): good ones, those at the edges of the width and of C, and
//! damaged ones.

use super::damaged::damage;
use super::frames;
use crate::line::{self, Call, LARGEST_SIZE, LATEST_TIME};
use crate::list::List;
use crate::random::Random;

/// With one edge behind each good line a list has all of them.
const GOOD: usize = 150;
const QUEUE_LENGTH: usize = 4_096;

const NARROW_C: usize = 6;
const WIDE_C: usize = 8;
const TOO_LARGE: u64 = LARGEST_SIZE + 1;
const MOST: u64 = 99_999_999;

pub fn mixed(random: &mut Random, list: &mut List) {
    let mut good = List::played_by(list.profile());
    frames::few(random, &mut good);
    let mut place = random.bits() as usize % edges(0).len();
    let mut time = 0;
    for line in good.text.split(|&byte| byte == b'\n').take(GOOD) {
        if let Ok(Call::Queue(packet)) = line::read(line) {
            time = packet.time;
        }
        let line = either_width(random, line);
        if random.below(4) == 0 {
            list.raw(&damage(random, &line));
        }
        if random.below(6) != 0 {
            list.raw(&line);
        }
        let edges = edges(time);
        place = (place + 1) % edges.len();
        list.raw(&edges[place]);
    }
    if random.below(8) == 0 {
        on_a_full_queue(random, list, time);
    }
    // Every third list's last line lacks its newline.
    if random.below(3) == 0 {
        list.text.pop();
    }
}

/// A wide line, or the same in the narrow form if C has at most six digits.
fn either_width(random: &mut Random, wide: &[u8]) -> Vec<u8> {
    let mut line = wide.to_vec();
    if wide.len() == line::WIDE && wide[42..44] == *b"  " && random.below(2) == 0 {
        line.drain(42..44);
    }
    line
}

/// 3, 17 and 8 come before 12.
fn on_a_full_queue(random: &mut Random, list: &mut List, time: u64) {
    list.report(1e6);
    for _ in 0..QUEUE_LENGTH {
        let places = random.pick(&[NARROW_C, WIDE_C]);
        list.raw(&packet(time, 0, 10, places));
    }
    for line in [codes(time), sizes(time)].concat() {
        list.raw(&line);
    }
    list.report(1e6);
}

/// A line whose C has `places` places.
fn columns(kind: u64, a: u64, b: u64, c: u64, places: usize) -> Vec<u8> {
    format!("{kind:2}{a:20}{b:20}{c:places$}").into_bytes()
}

fn packet(time: u64, flag: u64, bytes: u64, places: usize) -> Vec<u8> {
    columns(5, time, flag, bytes, places)
}

fn edges(time: u64) -> Vec<Vec<u8>> {
    [sizes(time), lengths(time), odd_columns(time), line_ends(time), codes(time), nonzero()]
        .concat()
}

fn sizes(time: u64) -> Vec<Vec<u8>> {
    const NARROW: [u64; 5] = [0, 1, 65_535, 65_536, 999_999];
    const WIDE: [u64; 6] = [1_000_000, LARGEST_SIZE - 1, LARGEST_SIZE, TOO_LARGE, 16_777_216, MOST];
    let narrow = NARROW.map(|c| packet(time, c % 2, c, NARROW_C));
    let wide = [NARROW.as_slice(), &WIDE].concat();
    narrow.into_iter().chain(wide.into_iter().map(|c| packet(time, c % 2, c, WIDE_C))).collect()
}

/// Lines of 47 to 52 columns, and some of 48 and 50 that were of the other width.
fn lengths(time: u64) -> Vec<Vec<u8>> {
    let (narrow, wide) = (packet(time, 0, 1_200, NARROW_C), packet(time, 0, 1_200, WIDE_C));
    let of_places = |places| packet(time, 0, 1_200, places);
    let filled = |places: usize| packet(time, 0, 10_u64.pow(places as u32) - 1, places);
    vec![
        of_places(5),
        of_places(7),
        of_places(9),
        of_places(10),
        filled(5),
        filled(7),
        filled(9),
        filled(10),
        [&narrow[..], b" "].concat(),
        [&narrow[..], b"  "].concat(),
        [b" ", &narrow[..]].concat(),
        [b"  ", &narrow[..]].concat(),
        [&narrow[..], b"00"].concat(),
        [&wide[..], b" "].concat(),
        [&wide[..], b"  "].concat(),
        [b" ", &wide[..]].concat(),
        // What is left of C is a smaller number, in the narrow form.
        wide[..48].to_vec(),
        packet(time, 1, 1_234_500, WIDE_C)[..48].to_vec(),
        wide[..49].to_vec(),
        wide[1..].to_vec(),
        wide[2..].to_vec(),
        columns(7, 0, 0, 0, 7),
        columns(7, 0, 0, 0, 9),
        columns(7, 0, 0, 0, WIDE_C)[..48].to_vec(),
    ]
}

/// Kind, A and B in order, and C in odd forms.
fn odd_columns(time: u64) -> Vec<Vec<u8>> {
    const FORMS: [&str; 20] = [
        "00000000",
        "00000001",
        "00001200",
        "01200000",
        "000000",
        "001200",
        "1200    ",
        "  1200  ",
        "12  3456",
        "    +120",
        "    -120",
        "    12.0",
        "    1e03",
        "        ",
        "      ",
        "\t   1200",
        "   1200\t",
        "      :0",
        "      /0",
        "0       ",
    ];
    let start = packet(time, 0, 0, 0);
    FORMS.iter().map(|form| [&start[..42], form.as_bytes()].concat()).collect()
}

/// CRs, and newlines within what would be a wide line.
fn line_ends(time: u64) -> Vec<Vec<u8>> {
    let (narrow, wide) = (packet(time, 0, 1_200, NARROW_C), packet(time, 0, 1_200, WIDE_C));
    vec![
        [&narrow[..], b"\r"].concat(),
        [&narrow[..], b"\r\r"].concat(),
        [&narrow[..], b" \r"].concat(),
        [&wide[..], b"\r"].concat(),
        [&wide[..49], b"\r"].concat(),
        [&wide[..47], b"\r"].concat(),
        [&narrow[..], b"\n0"].concat(),
        [&wide[..48], b"\n0"].concat(),
        [&wide[..49], b"\n"].concat(),
        [&wide[..42], b"\n", &wide[43..]].concat(),
        b"".to_vec(),
    ]
}

/// Two or three codes on one line: which comes first.
fn codes(time: u64) -> Vec<Vec<u8>> {
    let late = LATEST_TIME + 1;
    let wide = [
        (late, 0, TOO_LARGE),
        (late, 2, TOO_LARGE),
        (late, 2, 9),
        (u64::MAX, u64::MAX, MOST),
        (time, 2, TOO_LARGE),
        (time, u64::MAX, MOST),
        (time, 2, LARGEST_SIZE),
        (LATEST_TIME, 1, TOO_LARGE),
        (time, 1, TOO_LARGE),
    ];
    let narrow = [(late, 0, 65_536), (late, 2, 999_999), (time, 2, 999_999), (time, 2, 65_536)];
    let wide = wide.map(|(a, b, c)| packet(a, b, c, WIDE_C));
    let narrow = narrow.map(|(a, b, c)| packet(a, b, c, NARROW_C));
    // A number that does not fit, before a size that is too large.
    let beyond = format!(" 5{:20}{:20}{TOO_LARGE:8}", "18446744073709551616", 0).into_bytes();
    [wide.as_slice(), &narrow, &[beyond]].concat()
}

/// A C that is not 0 where the table says 0, beside an A that is taken and one that is not.
fn nonzero() -> Vec<Vec<u8>> {
    let mut lines = vec![];
    for kind in [1, 2, 3, 4, 6, 7] {
        let (a, b) = match kind {
            3 => (1, 1),
            4 => (1e6_f64.to_bits(), 1),
            7 => (0, 0),
            _ => (1e6_f64.to_bits(), 0),
        };
        for c in [1, 65_536, 999_999] {
            lines.push(columns(kind, a, b, c, NARROW_C));
        }
        for c in [1, 65_536, LARGEST_SIZE, TOO_LARGE, MOST] {
            lines.push(columns(kind, a, b, c, WIDE_C));
        }
        lines.push(columns(kind, u64::MAX, 2, TOO_LARGE, WIDE_C));
    }
    for kind in [0, 8, 15, 55] {
        lines.push(columns(kind, 0, 0, TOO_LARGE, WIDE_C));
    }
    lines
}
