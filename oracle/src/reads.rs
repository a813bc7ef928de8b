//! What the programs read from a controller, and set, beyond its published interface.

use super::{LossController, PacketResult};
use crate::bandwidth::Bitrate;
use crate::line::Profile;

#[allow(dead_code)]
impl LossController {
    /// A fresh controller with the Rust's own setting, which nothing published gives another value.
    pub fn with_profile(profile: Profile) -> Self {
        let mut controller = LossController::new();
        controller.config.use_byte_loss_ratio = profile == Profile::Bytes;
        controller
    }

    pub fn profile(&self) -> Profile {
        if self.config.use_byte_loss_ratio {
            Profile::Bytes
        } else {
            Profile::Packets
        }
    }

    pub fn inherent_loss(&self) -> f64 {
        self.current_estimate.inherent_loss
    }

    pub fn loss_ratio(&self) -> f64 {
        self.average_reported_loss_ratio()
    }

    pub fn observation_count(&self) -> u64 {
        self.num_observations
    }

    /// The span of the last hold, in ns.
    pub fn hold(&self) -> u64 {
        self.last_hold_info.duration.as_nanos() as u64
    }

    pub fn weights(&self) -> &[f64] {
        &self.temporal_weights
    }

    /// The candidates of a report after their Newton step: rate, inherent loss and objective. None
    /// if it completes no observation. Takes the controller with it, since it goes only part of the
    /// way of `update_bandwidth_estimate`.
    pub fn into_judged(mut self, packets: &[impl PacketResult], delay: Bitrate) -> Vec<[f64; 3]> {
        self.delay_based_estimate = delay;
        if !self.maybe_add_observation(packets)
            || !self.current_estimate.loss_limited_bandwidth.is_valid()
        {
            return vec![];
        }
        let mut candidates = self.get_candidates();
        let judge = |candidate: &mut super::ChannelParameters| {
            self.newtons_method_update(candidate);
            let objective = self.get_objective(candidate);
            [candidate.loss_limited_bandwidth.as_f64(), candidate.inherent_loss, objective]
        };
        candidates.iter_mut().map(judge).collect()
    }
}

#[path = "private_steps.rs"]
mod private_steps;
