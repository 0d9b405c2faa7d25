//! `--full`: whether what comes out says more than it did before there was this option. Without it every word is as it was.

use std::sync::atomic::{AtomicBool, Ordering};

static IS_FULL: AtomicBool = AtomicBool::new(false);

/// The option.
pub const FULL: &str = "--full";

pub fn is_full() -> bool {
    IS_FULL.load(Ordering::Relaxed)
}

/// Once, before a subcommand runs.
pub fn set_full() {
    IS_FULL.store(true, Ordering::Relaxed);
}
