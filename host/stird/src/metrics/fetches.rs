//! What is counted of certificates that are fetched.
use super::Maker;
use prometheus::{Error, Histogram, HistogramOpts, IntCounter, IntCounterVec, IntGauge, Opts};
use std::collections::BTreeMap;
use stir_trust::fetch::Reason;

/// Upper bounds of the times of fetches, in seconds.
const BOUNDS: [f64; 9] = [0.01, 0.025, 0.05, 0.1, 0.25, 0.5, 1.0, 2.0, 3.0];

/// How a wait for certificates ended.
#[derive(Clone, Copy, Debug, PartialEq, Eq)]
pub enum Waited {
    /// All fetches ended before the limit.
    InTime,
    /// One didn't.
    Late,
    /// As many calls waited as may, so this one didn't.
    Full,
}

/// What is counted of certificates that are fetched.
pub struct Fetches {
    good: IntCounter,
    failed: BTreeMap<&'static str, IntCounter>,
    /// How long fetches took.
    pub seconds: Histogram,
    in_time: IntCounter,
    late: IntCounter,
    full: IntCounter,
    found: IntCounter,
    not_found: IntCounter,
    /// Fetches that go on or wait for their turn.
    pub going: IntGauge,
    /// Chains that are kept, and their bytes.
    pub entries: IntGauge,
    /// Their bytes.
    pub bytes: IntGauge,
    /// Codes that aren't in the table and are taken for every number.
    pub codes: IntGauge,
}

impl Fetches {
    /// All at zero, in a registry.
    pub(super) fn new(maker: &Maker) -> Result<Fetches, Error> {
        let vector = |name: &str, help: &str, label: &str| -> Result<IntCounterVec, Error> {
            let made = IntCounterVec::new(Opts::new(name, help), &[label])?;
            maker.0.register(Box::new(made.clone()))?;
            Ok(made)
        };
        let help = "Fetches of certificates, by what came of them.";
        let results = vector("stir_fetches_total", help, "result")?;
        let help = "Calls that waited for certificates, by how that ended.";
        let waits = vector("stir_fetch_waits_total", help, "end")?;
        let help = "Certificates that calls looked for among those that were fetched.";
        let lookups = vector("stir_cache_lookups_total", help, "found")?;
        let help = "The time that a fetch of certificates takes.";
        let seconds = HistogramOpts::new("stir_fetch_seconds", help).buckets(BOUNDS.into());
        let seconds = Histogram::with_opts(seconds)?;
        maker.0.register(Box::new(seconds.clone()))?;
        let failed = Reason::WORDS.map(|word| (word, results.with_label_values(&[word])));
        Ok(Fetches {
            good: results.with_label_values(&["ok"]),
            failed: failed.into(),
            seconds,
            in_time: waits.with_label_values(&["in_time"]),
            late: waits.with_label_values(&["late"]),
            full: waits.with_label_values(&["full"]),
            found: lookups.with_label_values(&["yes"]),
            not_found: lookups.with_label_values(&["no"]),
            going: maker.gauge(
                "stir_fetching",
                "Fetches of certificates that go on or wait for their turn.",
            )?,
            entries: maker.gauge("stir_cache_entries", "Fetched chains that are kept.")?,
            bytes: maker.gauge("stir_cache_bytes", "What they take, in bytes.")?,
            codes: maker.gauge(
                "stir_adopted_codes",
                "Codes that aren't in the table and are taken for every number.",
            )?,
        })
    }

    /// A fetch ended so, or none was begun for this reason.
    pub fn count(&self, came: Result<(), &Reason>) {
        match came {
            Ok(()) => self.good.inc(),
            Err(reason) => {
                if let Some(counter) = self.failed.get(reason.word()) {
                    counter.inc();
                }
            }
        }
    }

    /// A call looked for certificates.
    pub fn look(&self, is_found: bool) {
        if is_found { &self.found } else { &self.not_found }.inc();
    }

    /// A call waited.
    pub fn wait(&self, end: Waited) {
        match end {
            Waited::InTime => &self.in_time,
            Waited::Late => &self.late,
            Waited::Full => &self.full,
        }
        .inc();
    }
}

#[cfg(test)]
mod tests {
    use crate::metrics::{Metrics, Waited};
    use stir_trust::fetch::Reason;

    #[test]
    fn each_result_has_its_line_from_the_start() {
        let metrics = Metrics::new().expect("names that are good");
        metrics.fetches.count(Ok(()));
        metrics.fetches.count(Err(&Reason::Status(404)));
        metrics.fetches.wait(Waited::Full);
        metrics.fetches.look(true);
        let text = String::from_utf8(metrics.text()).expect("text");
        for (word, count) in
            Reason::WORDS.map(|word| (word, u64::from(word == "status"))).iter().chain(&[("ok", 1)])
        {
            let line = format!("stir_fetches_total{{result=\"{word}\"}} {count}\n");
            assert!(text.contains(&line), "{line}{text}");
        }
        for line in [
            "stir_fetch_waits_total{end=\"full\"} 1\n",
            "stir_fetch_waits_total{end=\"in_time\"} 0\n",
            "stir_cache_lookups_total{found=\"yes\"} 1\n",
            "stir_fetch_seconds_count 0\n",
        ] {
            assert!(text.contains(line), "{line}{text}");
        }
    }
}
