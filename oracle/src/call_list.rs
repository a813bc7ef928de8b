//! The controller behind call lists: the queue, the codes that the state decides, and the answers.
//! Every refusal is decided here, so that the Rust never sees a refused call.

use super::loss_controller::{LossController, LossControllerState, PacketResult};
use super::{Bitrate, DataSize, Instant};
use crate::answer_line::Answer;
use crate::line::{self, Call, Code, Packet, Profile};

const QUEUE_LENGTH: usize = 4_096;
const HIGHEST_BYTES: u64 = 1_000_000_000_000;
const HIGHEST_PACKETS: u64 = 1_000_000_000;
const HIGHEST_COUNT: u64 = 1_000_000_000;
const LONGEST_PARTIAL: u64 = 250_000_000;

impl PacketResult for Packet {
    fn local_send_time(&self) -> Instant {
        Instant(self.time)
    }

    fn size(&self) -> DataSize {
        DataSize::bytes(self.bytes as i64)
    }

    fn lost(&self) -> bool {
        self.lost
    }
}

/// What codes 10 and 11 are judged by, kept apart from the controller.
#[derive(Default)]
struct Running {
    bytes: u64,
    packets: u64,
    reference: Option<u64>,
    in_alr: bool,
    count: u64,
}

impl Running {
    fn alr(&mut self, on: bool) {
        if on != self.in_alr {
            *self = Running { in_alr: on, count: self.count, ..Running::default() };
        }
    }

    fn report(&mut self, packets: &[Packet]) -> Result<(), Code> {
        let Some(latest) = packets.iter().map(|packet| packet.time).max() else {
            return Ok(());
        };
        let bytes = self.bytes + packets.iter().map(|packet| packet.bytes).sum::<u64>();
        let count = self.packets + packets.len() as u64;
        if bytes > HIGHEST_BYTES || count > HIGHEST_PACKETS {
            return Err(line::SUMS);
        }
        let reference = self.reference.unwrap_or(latest);
        let completes = latest.saturating_sub(reference) > LONGEST_PARTIAL;
        if completes && self.count >= HIGHEST_COUNT {
            return Err(line::COUNT);
        }
        if completes {
            (self.bytes, self.packets) = (0, 0);
            self.reference = Some(latest);
            self.count += 1;
        } else {
            (self.bytes, self.packets) = (bytes, count);
            self.reference = Some(reference);
        }
        Ok(())
    }
}

/// The two reads added by design, the loss ratio's bits and the count of observations, the profile, and the span
/// of the hold in ns.
#[allow(dead_code)]
pub struct Reads {
    pub profile: Profile,
    pub ratio: u64,
    pub count: u64,
    pub hold: u64,
}

pub struct Program {
    controller: LossController,
    running: Running,
    queue: Vec<Packet>,
}

impl Program {
    /// Without a kind 8 a list runs by bytes.
    pub fn new() -> Self {
        Program::of(Profile::Bytes)
    }

    pub fn of(profile: Profile) -> Self {
        Program {
            controller: LossController::with_profile(profile),
            running: Running::default(),
            queue: Vec::with_capacity(QUEUE_LENGTH),
        }
    }

    pub fn answer(&mut self, line: &[u8]) -> Answer {
        let refusal = line::read(line).and_then(|call| self.call(call)).err().unwrap_or(0);
        if refusal != 0 && refusal != line::NOT_IN_SHAPE && is_report(line) {
            self.queue.clear();
        }
        self.after(refusal)
    }

    /// The candidates of a report line that is not refused, as `into_judged` has them.
    #[allow(dead_code)]
    pub fn into_judged(self, line: &[u8]) -> Vec<[f64; 3]> {
        match line::read(line) {
            Ok(Call::Report(bits)) => self.controller.into_judged(&self.queue, rate(bits)),
            _ => vec![],
        }
    }

    #[allow(dead_code)]
    pub fn profile(&self) -> Profile {
        self.controller.profile()
    }

    #[allow(dead_code)]
    pub fn reads(&self) -> Reads {
        Reads {
            profile: self.profile(),
            ratio: bits(self.controller.loss_ratio()),
            count: self.controller.observation_count(),
            hold: self.controller.hold(),
        }
    }

    /// The answer to a report that is refused for packets that no line could queue.
    #[allow(dead_code)]
    pub fn refuse_report(&mut self, refusal: Code) -> Answer {
        self.queue.clear();
        self.after(refusal)
    }

    fn call(&mut self, call: Call) -> Result<(), Code> {
        match call {
            Call::Estimate(bits) => self.controller.set_bandwidth_estimate(rate(bits)),
            Call::Acknowledged(bits) => self.controller.set_acknowledged_bitrate(rate(bits)),
            Call::Alr(start) => {
                self.running.alr(start.is_some());
                self.controller.set_alr_start_time(start.map(Instant));
            }
            Call::LinkCapacity(bits) => {
                self.controller.set_link_capacity_estimate(bits.map(rate));
            }
            Call::Queue(packet) => {
                if self.queue.len() >= QUEUE_LENGTH {
                    return Err(line::QUEUE);
                }
                self.queue.push(packet);
            }
            Call::Report(bits) => {
                self.running.report(&self.queue)?;
                self.controller.update_bandwidth_estimate(&self.queue, rate(bits));
                self.queue.clear();
            }
            Call::Read => {}
            Call::Start(profile) => self.start(profile),
        }
        Ok(())
    }

    /// A fresh controller and an empty queue.
    fn start(&mut self, profile: Profile) {
        self.controller = LossController::with_profile(profile);
        self.running = Running::default();
        self.queue.clear();
    }

    /// The answer read from the controller as it is.
    fn after(&self, refusal: Code) -> Answer {
        let result = self.controller.loss_based_result();
        let rate = result.bandwidth_estimate;
        Answer {
            refusal,
            state: match result.state {
                LossControllerState::DelayBased => 0,
                LossControllerState::Increasing => 1,
                LossControllerState::Decreasing => 2,
            },
            published: rate.is_some().into(),
            rate: rate.map_or(0, |rate| bits(rate.as_f64())),
            inherent_loss: bits(self.controller.inherent_loss()),
        }
    }
}

fn is_report(line: &[u8]) -> bool {
    line.starts_with(b" 6")
}

fn rate(bits: u64) -> Bitrate {
    f64::from_bits(bits).into()
}

/// A float's bits, every NaN being one.
fn bits(value: f64) -> u64 {
    if value.is_nan() {
        return 0x7FF8_0000_0000_0000;
    }
    value.to_bits()
}
