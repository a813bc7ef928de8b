//! Makes a list that shows something shorter, as long as it still shows it.

use std::io;

/// Drops lines, first many at once and then one by one, until none can go.
pub fn shrink(
    list: &[u8],
    mut shows: impl FnMut(&[u8]) -> io::Result<bool>,
) -> io::Result<Vec<u8>> {
    let mut lines: Vec<&[u8]> = list.split_inclusive(|&byte| byte == b'\n').collect();
    let mut size = lines.len().div_ceil(2);
    loop {
        let dropped = pass(&mut lines, size, &mut shows)?;
        if size > 1 {
            size = size.div_ceil(2);
        } else if !dropped {
            return Ok(lines.concat());
        }
    }
}

/// Tries once to drop each run of `size` lines, from the last to the first: what comes after the
/// line that shows it goes at once.
fn pass(
    lines: &mut Vec<&[u8]>,
    size: usize,
    shows: &mut impl FnMut(&[u8]) -> io::Result<bool>,
) -> io::Result<bool> {
    let mut dropped = false;
    let mut end = lines.len();
    while end > 0 {
        let start = end.saturating_sub(size);
        let without = [&lines[..start], &lines[end..]].concat();
        if shows(&without.concat())? {
            *lines = without;
            dropped = true;
        }
        end = start;
    }
    Ok(dropped)
}
