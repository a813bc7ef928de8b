//! str0m's log macros, dropped: each stands for nothing.

macro_rules! trace {
    ($($arg:tt)*) => {};
}

macro_rules! debug {
    ($($arg:tt)*) => {};
}

macro_rules! warn {
    ($($arg:tt)*) => {};
}

macro_rules! log_inherent_loss {
    ($($arg:tt)*) => {};
}

macro_rules! log_loss_based_bitrate_estimate {
    ($($arg:tt)*) => {};
}

macro_rules! log_loss_bw_limit_in_window {
    ($($arg:tt)*) => {};
}
