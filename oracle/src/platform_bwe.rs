//! str0m's module `bwe` as far as the loss controller reaches, with the platform's logarithm and powers.

#[macro_use]
#[path = "log.rs"]
mod log;

#[path = "call_list.rs"]
pub mod call_list;
#[path = "../vendor/loss_controller.rs"]
#[rustfmt::skip]
#[allow(dead_code)] // EDIT 11 leaves four fields unread.
pub mod loss_controller;
#[path = "platform_steps.rs"]
mod steps;
#[path = "../vendor/time.rs"]
#[rustfmt::skip]
#[allow(dead_code)]
mod time;

use crate::bandwidth::{Bitrate, DataSize};
use crate::instant::Instant;
