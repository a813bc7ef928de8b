//! Lines in, answers out, in constant memory whatever the lines' lengths.

use std::io::{self, Read, Write};

use crate::answer_line::{Answer, ANSWER_LENGTH};
use crate::line::WIDE;

const CHUNK: usize = 1 << 16;

/// What a line is answered by, and its text with the newline.
pub trait Reply: Copy + PartialEq {
    type Text: AsRef<[u8]>;

    fn text(&self) -> Self::Text;
}

impl Reply for Answer {
    type Text = [u8; ANSWER_LENGTH + 1];

    fn text(&self) -> Self::Text {
        let mut text = [0; ANSWER_LENGTH + 1];
        self.write(&mut text);
        text
    }
}

/// The start of a line that goes on in the next chunk. One byte more than a wide line has is enough
/// to know that it is too long.
#[derive(Default)]
struct Begun {
    bytes: Vec<u8>,
    any: bool,
}

impl Begun {
    fn add(&mut self, part: &[u8]) {
        let room = (WIDE + 1).saturating_sub(self.bytes.len());
        self.bytes.extend_from_slice(&part[..part.len().min(room)]);
        self.any |= !part.is_empty();
    }

    fn clear(&mut self) {
        self.bytes.clear();
        self.any = false;
    }
}

/// The last answer's text: most lines only queue a packet and leave all but the refusal as it was.
struct Writer<W, R: Reply> {
    out: W,
    last: Option<R>,
    text: Option<R::Text>,
    full: Vec<u8>,
}

impl<W: Write, R: Reply> Writer<W, R> {
    fn put(&mut self, answer: R) -> io::Result<()> {
        if self.last != Some(answer) {
            self.text = Some(answer.text());
            self.last = Some(answer);
        }
        if let Some(text) = &self.text {
            self.full.extend_from_slice(text.as_ref());
        }
        if self.full.len() >= CHUNK {
            self.flush()?;
        }
        Ok(())
    }

    fn flush(&mut self) -> io::Result<()> {
        self.out.write_all(&self.full)?;
        self.full.clear();
        self.out.flush()
    }
}

pub fn run<R: Reply>(
    mut input: impl Read,
    output: impl Write,
    mut answer: impl FnMut(&[u8]) -> R,
) -> io::Result<()> {
    let mut chunk = vec![0; CHUNK];
    let mut begun = Begun::default();
    let mut writer = Writer { out: output, last: None, text: None, full: Vec::new() };
    loop {
        let length = input.read(&mut chunk)?;
        if length == 0 {
            break;
        }
        let mut rest = &chunk[..length];
        while let Some(end) = rest.iter().position(|&byte| byte == b'\n') {
            if begun.any {
                begun.add(&rest[..end]);
                writer.put(answer(&begun.bytes))?;
                begun.clear();
            } else {
                writer.put(answer(&rest[..end]))?;
            }
            rest = &rest[end + 1..];
        }
        begun.add(rest);
    }
    if begun.any {
        writer.put(answer(&begun.bytes))?;
    }
    writer.flush()
}
