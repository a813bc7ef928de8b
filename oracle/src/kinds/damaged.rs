//! Lines out of shape among good ones, and good lines that look odd.

use super::link;
use crate::line::WIDE;
use crate::list::List;
use crate::random::Random;

const NUMBERS: [&str; 16] = [
    "18446744073709551615",
    "18446744073709551616",
    "18446744073709551620",
    "28446744073709551615",
    "99999999999999999999",
    "10000000000000000000",
    "00",
    "01",
    "+1",
    "-1",
    "-0",
    "1e3",
    "0x1",
    "1.0",
    "1 ",
    "",
];

pub fn damaged(random: &mut Random, list: &mut List) {
    let mut good = List::played_by(list.profile());
    link::sparse(random, &mut good);
    for line in good.text.split(|&byte| byte == b'\n').take(160) {
        if random.below(3) == 0 {
            let line = damage(random, line);
            list.raw(&line);
        }
        if random.below(4) != 0 {
            list.raw(line);
        }
    }
    // Every third list's last line lacks its newline.
    if random.below(3) == 0 {
        list.text.pop();
    }
}

/// A good line, narrow or wide, made wrong or odd.
pub fn damage(random: &mut Random, good: &[u8]) -> Vec<u8> {
    let mut line = good.to_vec();
    if line.is_empty() {
        return line;
    }
    let end = line.len();
    let place = random.below(line.len() as u64) as usize;
    match random.below(16) {
        0 => line.truncate(place),
        1 => line.insert(place, b' '),
        2 => line.push(b'\r'),
        3 => line[place] = b'\t',
        4 => line[place] = random.below(256) as u8,
        5 => line[place] = 128 + random.below(128) as u8,
        6 => line[place] = 0,
        7 => line.clear(),
        8 if end == WIDE => line.resize(random.pick(&[47, 48, 49, 51, 52, 100, 5_000]), b' '),
        8 => line.resize(random.pick(&[47, 49, 50, 100, 5_000]), b' '),
        9 => line = good.trim_ascii_start().to_vec(),
        10 => line[random.pick(&[0, 2, 22, 42])] = b'0',
        11 => line[random.pick(&[1, 21, 41, end - 1])] = b' ',
        12 => line[place] = b'/' + 11 * random.below(2) as u8,
        _ => return number(random, good),
    }
    line
}

/// One column filled with a number that is out of bounds or not written as numbers are.
fn number(random: &mut Random, good: &[u8]) -> Vec<u8> {
    let text = random.pick(&NUMBERS);
    let (start, end) = random.pick(&[(0, 2), (2, 22), (2, 22), (22, 42), (42, good.len())]);
    let text = &text[..text.len().min(end - start)];
    let mut line = good.to_vec();
    line[start..end].fill(b' ');
    line[end - text.len()..end].copy_from_slice(text.as_bytes());
    line
}
