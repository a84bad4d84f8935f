//! What is counted of the record of calls.
use super::Maker;
use prometheus::{Error, IntCounter};

/// What is counted of the record of calls.
pub struct Records {
    /// Lines that were written.
    pub written: IntCounter,
    /// Lines that were lost.
    pub lost: IntCounter,
}

impl Records {
    /// All at zero, in a registry.
    pub(super) fn new(maker: &Maker) -> Result<Records, Error> {
        Ok(Records {
            written: maker.counter(
                "stir_recorded_calls_total",
                "Calls whose line in the record is written.",
            )?,
            lost: maker.counter(
                "stir_lost_records_total",
                "Calls whose line in the record is lost: it had no room, or couldn't be written.",
            )?,
        })
    }
}
