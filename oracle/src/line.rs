//! One line of a call list, read by document 01's rules. What a line alone decides is decided here;
//! what the state decides (codes 10 to 12) is not.

/// A refusal's number.
pub type Code = u8;

pub const NOT_IN_SHAPE: Code = 1;
pub const RATE: Code = 2;
pub const TIME: Code = 3;
pub const FLAG: Code = 8;
pub const SUMS: Code = 10;
pub const COUNT: Code = 11;
pub const QUEUE: Code = 12;
pub const SIZE: Code = 17;

/// A line's length says how wide C is: six places or eight.
pub const NARROW: usize = 48;
pub const WIDE: usize = 50;
pub const LATEST_TIME: u64 = 4_000_000_000_000_000_000;
pub const HIGHEST_RATE: f64 = 1e15;
pub const LARGEST_SIZE: u64 = 9_999_999;

#[derive(Debug, Clone, Copy, PartialEq)]
pub struct Packet {
    pub time: u64,
    pub bytes: u64,
    pub lost: bool,
}

/// What a controller counts, fixed when it is made.
#[derive(Debug, Clone, Copy, PartialEq)]
pub enum Profile {
    Bytes,
    Packets,
}

/// An accepted line. Rates are bits, since a list may tell NaNs apart.
#[derive(Debug, Clone, Copy, PartialEq)]
pub enum Call {
    Estimate(u64),
    Acknowledged(u64),
    Alr(Option<u64>),
    LinkCapacity(Option<u64>),
    Queue(Packet),
    Report(u64),
    Read,
    Start(Profile),
}

pub fn read(line: &[u8]) -> Result<Call, Code> {
    let (kind, a, b, c) = columns(line).ok_or(NOT_IN_SHAPE)?;
    match kind {
        1 | 2 | 6 if b == 0 && c == 0 => {
            rate(a)?;
            Ok(match kind {
                1 => Call::Estimate(a),
                2 => Call::Acknowledged(a),
                _ => Call::Report(a),
            })
        }
        3 if c == 0 => {
            let start = optional(a, b)?;
            start.map_or(Ok(()), time)?;
            Ok(Call::Alr(start))
        }
        4 if c == 0 => {
            let capacity = optional(a, b)?;
            capacity.map_or(Ok(()), rate)?;
            Ok(Call::LinkCapacity(capacity))
        }
        5 => packet(a, b, c).map(Call::Queue),
        7 if a == 0 && b == 0 && c == 0 => Ok(Call::Read),
        8 if a == 0 && c == 0 => profile(b).map(Call::Start),
        _ => Err(NOT_IN_SHAPE),
    }
}

/// Kind, A, B and C, whether or not they fit together.
pub fn columns(line: &[u8]) -> Option<(u64, u64, u64, u64)> {
    if line.len() != NARROW && line.len() != WIDE {
        return None;
    }
    let kind = number(&line[..2])?;
    let a = number(&line[2..22])?;
    let b = number(&line[22..42])?;
    let c = number(&line[42..])?;
    Some((kind, a, b, c))
}

/// A packet of kind 5: its time is asked first, then its size, then its flag.
pub fn packet(a: u64, b: u64, c: u64) -> Result<Packet, Code> {
    time(a)?;
    size(c)?;
    Ok(Packet { time: a, lost: flag(b)?, bytes: c })
}

/// A decimal number, right-justified with spaces, without leading zeros, below 2^64.
fn number(column: &[u8]) -> Option<u64> {
    let start = column.iter().position(|&byte| byte != b' ')?;
    let digits = &column[start..];
    if digits.len() > 1 && digits[0] == b'0' {
        return None;
    }
    let mut value: u64 = 0;
    for &byte in digits {
        if !byte.is_ascii_digit() {
            return None;
        }
        value = value.checked_mul(10)?.checked_add(u64::from(byte - b'0'))?;
    }
    Some(value)
}

/// A field that is given if B is 1 and must be 0 if B is 0.
fn optional(a: u64, b: u64) -> Result<Option<u64>, Code> {
    match (flag(b)?, a) {
        (true, a) => Ok(Some(a)),
        (false, 0) => Ok(None),
        (false, _) => Err(NOT_IN_SHAPE),
    }
}

fn flag(b: u64) -> Result<bool, Code> {
    match b {
        0 => Ok(false),
        1 => Ok(true),
        _ => Err(FLAG),
    }
}

/// B of kind 8.
fn profile(b: u64) -> Result<Profile, Code> {
    Ok(if flag(b)? { Profile::Packets } else { Profile::Bytes })
}

fn rate(bits: u64) -> Result<(), Code> {
    let rate = f64::from_bits(bits);
    if rate.is_finite() && (rate.is_sign_negative() || rate > HIGHEST_RATE) {
        return Err(RATE);
    }
    Ok(())
}

fn time(ns: u64) -> Result<(), Code> {
    if ns > LATEST_TIME {
        return Err(TIME);
    }
    Ok(())
}

fn size(bytes: u64) -> Result<(), Code> {
    if bytes > LARGEST_SIZE {
        return Err(SIZE);
    }
    Ok(())
}
