//! The three address pools.

use crate::Refusal;

/// Where a BAR's addresses are taken from.
#[derive(Clone, Copy, Debug, PartialEq, Eq, Hash)]
pub enum Pool {
    /// Memory below 4 GiB: every memory BAR that is not both 64-bit and prefetchable.
    Low,
    /// Memory from 4 GiB on: 64-bit prefetchable BARs.
    High,
    /// I/O BARs.
    Io,
}

impl Pool {
    /// All three, in the order in which they are refused.
    pub const ALL: [Pool; 3] = [Pool::Low, Pool::High, Pool::Io];

    /// The pool that a board ran out of; `None` for a refusal that is not about a pool.
    pub const fn short_by(refusal: Refusal) -> Option<Pool> {
        match refusal {
            Refusal::NoLowRoom => Some(Pool::Low),
            Refusal::NoHighRoom => Some(Pool::High),
            Refusal::NoIoRoom => Some(Pool::Io),
            _ => None,
        }
    }
}
