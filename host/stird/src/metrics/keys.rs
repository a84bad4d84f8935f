//! What is counted of keys in HSMs.
use super::Maker;
use prometheus::{Error, IntCounter, IntCounterVec, IntGauge, Opts};
use stir_trust::hsm_counts;

/// What is counted of keys in HSMs.
pub struct Keys {
    failed: IntCounter,
    late: IntCounter,
    full: IntCounter,
    opened_anew: IntCounter,
    waiting: IntGauge,
}

impl Keys {
    /// All at zero, in a registry.
    pub(super) fn new(maker: &Maker) -> Result<Keys, Error> {
        let help = "Signatures that an HSM didn't make: it failed, they were late, or too many \
                    were waited for.";
        let failures = IntCounterVec::new(Opts::new("stir_key_failures_total", help), &["why"])?;
        maker.0.register(Box::new(failures.clone()))?;
        Ok(Keys {
            failed: failures.with_label_values(&["failed"]),
            late: failures.with_label_values(&["late"]),
            full: failures.with_label_values(&["full"]),
            opened_anew: maker.counter(
                "stir_key_sessions_opened_anew_total",
                "Sessions that an HSM dropped and that were opened anew.",
            )?,
            waiting: maker.gauge("stir_key_waiting", "Signatures of HSMs that are waited for.")?,
        })
    }

    /// Writes what there is now.
    pub fn measure(&self) {
        let now = hsm_counts();
        for (counter, count) in [
            (&self.failed, now.failed),
            (&self.late, now.late),
            (&self.full, now.full),
            (&self.opened_anew, now.opened_anew),
        ] {
            counter.inc_by(count.saturating_sub(counter.get()));
        }
        self.waiting.set(now.waiting as i64);
    }
}
