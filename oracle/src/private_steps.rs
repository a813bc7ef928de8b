//! A controller made from the fields of a line, and what its private steps answer there. README.md
//! has the fields and the answers in their order.

use std::panic::{catch_unwind, AssertUnwindSafe};
use std::time::Duration;

use super::super::*;
use crate::bandwidth::{Bitrate, DataSize};
use crate::instant::Instant;

/// The fields of a line, taken one by one.
#[derive(Clone)]
struct Fields<'a>(std::slice::Iter<'a, u64>);

impl Fields<'_> {
    fn number(&mut self) -> u64 {
        *self.0.next().expect("a field more")
    }

    fn float(&mut self) -> f64 {
        f64::from_bits(self.number())
    }

    fn rate(&mut self) -> Bitrate {
        self.float().into()
    }

    fn size(&mut self) -> DataSize {
        DataSize::bytes(self.number() as i64)
    }

    fn option_rate(&mut self) -> Option<Bitrate> {
        let is_some = self.number() == 1;
        let rate = self.rate();
        is_some.then_some(rate)
    }

    fn time(&mut self) -> Timestamp {
        let case = self.number();
        let ns = self.number();
        match case {
            0 => Timestamp::DistantPast,
            1 => Timestamp::Exact(Instant(ns)),
            _ => Timestamp::DistantFuture,
        }
    }

    fn observation(&mut self) -> Observation {
        let is_initialized = self.number() == 1;
        let id = self.number();
        Observation {
            num_packets: self.number(),
            size: self.size(),
            num_lost_packets: self.number(),
            lost_size: self.size(),
            num_received_packets: self.number(),
            sending_rate: self.rate(),
            id,
            is_initialized,
        }
    }
}

/// Packets whose summary has the totals of a line.
struct Totals {
    size: DataSize,
    lost: bool,
    time: Instant,
}

impl PacketResult for Totals {
    fn local_send_time(&self) -> Instant {
        self.time
    }

    fn size(&self) -> DataSize {
        self.size
    }

    fn lost(&self) -> bool {
        self.lost
    }
}

/// The answers, in their order.
#[derive(Default)]
struct Answers(Vec<u64>);

impl Answers {
    fn float(&mut self, value: f64) {
        self.0.push(if value.is_nan() { 0x7FF8_0000_0000_0000 } else { value.to_bits() });
    }

    fn rate(&mut self, rate: Bitrate) {
        self.float(rate.as_f64());
    }

    /// The refusal and the number, with 0 beside a refusal.
    fn refusable(&mut self, answer: Result<f64, u64>) {
        self.0.push(answer.err().unwrap_or(0));
        self.float(answer.unwrap_or(0.0));
    }

    fn time(&mut self, time: Timestamp) {
        self.0.extend(match time {
            Timestamp::DistantPast => [0, 0],
            Timestamp::Exact(instant) => [1, instant.0],
            Timestamp::DistantFuture => [2, 0],
        });
    }

    fn option_rate(&mut self, rate: Option<Bitrate>) {
        self.0.push(rate.is_some().into());
        self.float(rate.map_or(0.0, |rate| rate.as_f64()));
    }

    fn parameters(&mut self, parameters: ChannelParameters) {
        self.float(parameters.inherent_loss);
        self.rate(parameters.loss_limited_bandwidth);
    }
}

/// What the Rust answers, or 7 where it panics.
fn or_seven<T>(step: impl FnOnce() -> T) -> Result<T, u64> {
    catch_unwind(AssertUnwindSafe(step)).map_err(|_| 7)
}

#[allow(dead_code)]
impl LossController {
    /// What every step answers on the line's state, and then its report.
    pub fn step_answers(line: &[u64]) -> Vec<u64> {
        let mut fields = Fields(line.iter());
        let before = LossController::from_fields(&mut fields.clone());
        let mut after = LossController::from_fields(&mut fields);
        let packets = packets(&mut fields);
        // The port leaves out the early return of `newtons_method_update` for no observation.
        let mut counted = LossController::from_fields(&mut Fields(line.iter()));
        counted.num_observations = counted.num_observations.max(1);
        let mut answers = Answers::default();
        before.answer_window(&mut answers);
        counted.answer_likelihood(&mut answers);
        before.answer_candidates(&mut answers);
        after.answer_report(&before, &packets, &mut answers);
        answers.0
    }

    fn from_fields(fields: &mut Fields) -> LossController {
        let mut controller = LossController::new();
        controller.state = match fields.number() {
            0 => LossControllerState::DelayBased,
            1 => LossControllerState::Increasing,
            _ => LossControllerState::Decreasing,
        };
        controller.config.use_byte_loss_ratio = fields.number() == 1;
        controller.num_observations = fields.number();
        controller.partial_observation = PartialObservation {
            num_packets: fields.number(),
            num_lost_packets: fields.number(),
            size: fields.size(),
            lost_size: fields.size(),
        };
        controller.last_send_time_most_recent_observation = fields.time();
        controller.cached_instant_upper_bound = fields.option_rate();
        for observation in controller.observations.iter_mut() {
            *observation = fields.observation();
        }
        controller.current_estimate = ChannelParameters {
            inherent_loss: fields.float(),
            loss_limited_bandwidth: fields.rate(),
        };
        controller.last_hold_info = HoldInfo {
            timestamp: fields.time(),
            duration: Duration::from_nanos(fields.number()),
            rate: fields.rate(),
        };
        controller.last_time_estimate_reduced = fields.time();
        controller.recovering_after_loss_timestamp = fields.time();
        controller.bandwidth_limit_in_current_window = fields.rate();
        controller.acknowledged_bitrate = fields.rate();
        controller.delay_based_estimate = fields.rate();
        controller.alr_start_time = (fields.number() == 1).then_some(Instant(0));
        controller.link_capacity_estimate = fields.option_rate();
        controller
    }

    fn answer_window(&self, answers: &mut Answers) {
        answers.float(self.average_reported_loss_ratio());
        answers.refusable(or_seven(|| self.calculate_instant_upper_bound().as_f64()));
        answers.rate(self.get_instant_upper_bound());
    }

    fn answer_likelihood(&self, answers: &mut Answers) {
        let mut current = self.current_estimate;
        let rate = current.loss_limited_bandwidth;
        let sending_rate = self.observations[0].sending_rate;
        answers.float(self.get_inherent_loss_upper_bound(Some(rate)));
        answers.float(self.get_feasible_inherent_loss(&current));
        answers.float(self.get_loss_probability(current.inherent_loss, rate, sending_rate));
        let ratio = self.average_reported_loss_ratio();
        answers.float(self.adjust_bias_factor(ratio, self.config.higher_bandwidth_bias_factor));
        let derivatives = self.get_derivatives(&current);
        answers.float(derivatives.0);
        answers.float(derivatives.1);
        answers.refusable(if has_logarithm(rate) {
            Ok(self.get_high_bandwidth_bias(rate))
        } else {
            Err(6)
        });
        answers.refusable(if self.has_objective(&current) {
            Ok(self.get_objective(&current))
        } else {
            Err(6)
        });
        self.newtons_method_update(&mut current);
        answers.parameters(current);
    }

    /// Whether every logarithm of the objective has an argument.
    fn has_objective(&self, candidate: &ChannelParameters) -> bool {
        let rate = candidate.loss_limited_bandwidth;
        let probability = |observation: &Observation| {
            self.get_loss_probability(candidate.inherent_loss, rate, observation.sending_rate)
        };
        let mut completed =
            self.observations.iter().filter(|observation| observation.is_initialized);
        has_logarithm(rate) && !completed.any(|observation| probability(observation).is_nan())
    }

    fn answer_candidates(&self, answers: &mut Answers) {
        answers.rate(self.get_candidate_bandwidth_upper_bound());
        let candidates = self.get_candidates();
        answers.0.push(candidates.len() as u64);
        for place in 0..6 {
            answers.parameters(*candidates.get(place).unwrap_or(&self.current_estimate));
        }
    }

    /// The report, after which a refusal leaves what was before.
    fn answer_report(&mut self, before: &Self, packets: &[Totals], answers: &mut Answers) {
        let delay = self.delay_based_estimate;
        let count = self.num_observations;
        let report = or_seven(|| self.update_bandwidth_estimate(packets, delay));
        let completed = self.num_observations != count && self.cached_instant_upper_bound.is_some();
        let no_logarithm = report.is_ok()
            && completed
            && before.current_estimate.loss_limited_bandwidth.is_valid()
            && self.some_candidate_has_no_objective(before);
        let refusal = if no_logarithm { 6 } else { report.err().unwrap_or(0) };
        answers.0.push(refusal);
        let shown = if refusal == 0 { &*self } else { before };
        shown.answer_state(count as usize % 15, answers);
    }

    /// Whether a candidate, after its Newton step in the window after the report, has no objective.
    fn some_candidate_has_no_objective(&self, before: &Self) -> bool {
        let judged = LossController {
            config: Config {
                use_byte_loss_ratio: self.config.use_byte_loss_ratio,
                ..Config::default()
            },
            partial_observation: PartialObservation::new(),
            observations: self.observations.clone(),
            temporal_weights: self.temporal_weights.clone(),
            instant_upper_bound_temporal_weights: self.instant_upper_bound_temporal_weights.clone(),
            cached_instant_upper_bound: self.cached_instant_upper_bound,
            num_observations: self.num_observations,
            last_send_time_most_recent_observation: self.last_send_time_most_recent_observation,
            ..*before
        };
        judged.get_candidates().iter_mut().any(|candidate| {
            judged.newtons_method_update(candidate);
            !judged.has_objective(candidate)
        })
    }

    fn answer_state(&self, slot: usize, answers: &mut Answers) {
        answers.0.push(match self.state {
            LossControllerState::DelayBased => 0,
            LossControllerState::Increasing => 1,
            LossControllerState::Decreasing => 2,
        });
        answers.0.push(self.config.use_byte_loss_ratio.into());
        answers.0.push(self.num_observations);
        let partial = &self.partial_observation;
        answers.0.extend([partial.num_packets, partial.num_lost_packets]);
        answers.0.extend([partial.size, partial.lost_size].map(|size| size.as_bytes_i64() as u64));
        answers.time(self.last_send_time_most_recent_observation);
        answers.option_rate(self.cached_instant_upper_bound);
        let Observation { num_packets, num_lost_packets, num_received_packets, .. } =
            self.observations[slot];
        answers.0.extend([num_packets, num_lost_packets, num_received_packets]);
        answers.rate(self.observations[slot].sending_rate);
        answers.parameters(self.current_estimate);
        answers.time(self.last_hold_info.timestamp);
        answers.0.push(self.last_hold_info.duration.as_nanos() as u64);
        answers.rate(self.last_hold_info.rate);
        answers.time(self.last_time_estimate_reduced);
        answers.time(self.recovering_after_loss_timestamp);
        answers.rate(self.bandwidth_limit_in_current_window);
    }
}

/// Whether document 01's logarithm of 1.0 + rate is asked for and has an argument, or is not asked for.
fn has_logarithm(rate: Bitrate) -> bool {
    let argument = 1.0 + rate.as_f64();
    !rate.is_valid() || argument.is_normal() && argument > 0.0
}

/// Packets with the totals of a line: those that are lost and those that arrived, of which the first have all
/// the bytes.
fn packets(fields: &mut Fields) -> Vec<Totals> {
    let [lost_packets, received_packets] = [fields.number(), fields.number()];
    let [lost_size, received_size] = [fields.size(), fields.size()];
    let time = Instant(fields.number());
    let of = |count: u64, size: DataSize, lost| {
        let size = move |place| if place == 0 { size } else { DataSize::ZERO };
        (0..count).map(move |place| Totals { size: size(place), lost, time })
    };
    of(lost_packets, lost_size, true).chain(of(received_packets, received_size, false)).collect()
}
