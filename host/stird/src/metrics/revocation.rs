//! What is counted of revocation lists.
use super::Maker;
use crate::files::Revocation as Read;
use prometheus::{Error, IntCounter, IntGauge};

/// What is counted of revocation lists.
pub struct Revocation {
    /// Calls that were refused for a revoked certificate, or for a list that has ended.
    pub calls: IntCounter,
    certificates: IntGauge,
    ended: IntGauge,
    next_end: IntGauge,
}

impl Revocation {
    /// All at zero, in a registry.
    pub(super) fn new(maker: &Maker) -> Result<Revocation, Error> {
        Ok(Revocation {
            calls: maker.counter(
                "stir_revoked_calls_total",
                "Calls that were refused for a revoked certificate or an ended revocation list.",
            )?,
            certificates: maker
                .gauge("stir_revoked_certificates", "Certificates that revocation lists name.")?,
            ended: maker.gauge(
                "stir_ended_revocation_lists",
                "Revocation lists whose next ones should be there already.",
            )?,
            next_end: maker.gauge(
                "stir_revocation_list_next_end_timestamp_seconds",
                "The earliest end of a revocation list, in Unix time; 0 if none is.",
            )?,
        })
    }

    /// Writes what there is at this second.
    pub fn measure(&self, read: &Read, now: u64) {
        self.certificates.set(read.count() as i64);
        self.ended.set(read.ended(now).count() as i64);
        self.next_end.set(read.next_end().map_or(0, |second| second as i64));
    }
}
