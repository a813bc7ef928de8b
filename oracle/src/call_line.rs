//! The line of a call: its 50 columns, written from the call alone.

use crate::line::{Call, Code, Profile};
use crate::stream::Reply;

/// A line anew: of an accepted one what its call is written as, of a refused one the number alone.
impl Reply for Result<Call, Code> {
    type Text = String;

    fn text(&self) -> String {
        match self {
            Ok(call) => text(call) + "\n",
            Err(code) => format!("{code:2}\n"),
        }
    }
}

/// The call's columns, without the newline.
fn text(call: &Call) -> String {
    let (kind, a, b, c) = match *call {
        Call::Estimate(bits) => (1, bits, 0, 0),
        Call::Acknowledged(bits) => (2, bits, 0, 0),
        Call::Alr(None) => (3, 0, 0, 0),
        Call::Alr(Some(start)) => (3, start, 1, 0),
        Call::LinkCapacity(None) => (4, 0, 0, 0),
        Call::LinkCapacity(Some(bits)) => (4, bits, 1, 0),
        Call::Queue(packet) => (5, packet.time, u64::from(packet.lost), packet.bytes),
        Call::Report(bits) => (6, bits, 0, 0),
        Call::Read => (7, 0, 0, 0),
        Call::Start(Profile::Bytes) => (8, 0, 0, 0),
        Call::Start(Profile::Packets) => (8, 0, 1, 0),
    };
    format!("{kind:2}{a:20}{b:20}{c:8}")
}
