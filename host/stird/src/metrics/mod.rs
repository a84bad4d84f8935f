//! What is counted, for Prometheus.
mod clients;
mod fetches;
mod keys;
mod records;
mod revocation;
mod signers;

pub use clients::{Clients, Signing};
pub use fetches::{Fetches, Waited};
pub use keys::Keys;
pub use records::Records;
pub use revocation::Revocation;
pub use signers::SignerCalls;

use crate::judge::{Outcome, Spent};
use prometheus::{
    Counter, CounterVec, Encoder, Error, Histogram, HistogramOpts, IntCounter, IntCounterVec,
    IntGauge, IntGaugeVec, Opts, Registry, TextEncoder,
};
use stir::Rule;

/// Upper bounds of the times of requests, in seconds.
const BOUNDS: [f64; 10] = [0.00025, 0.0005, 0.001, 0.002, 0.005, 0.01, 0.025, 0.1, 0.5, 2.5];

/// What is counted since the start, and what there is now.
pub struct Metrics {
    registry: Registry,
    valid: IntCounter,
    replays: IntCounter,
    unjudged: IntCounter,
    refused: Vec<IntCounter>,
    ask: Counter,
    confirm: Counter,
    judge: Counter,
    /// From a whole request to its answer.
    pub requests: Histogram,
    /// How long tickets take to be claimed.
    pub claims: Histogram,
    signed: IntCounter,
    unsigned: IntCounter,
    /// What is counted of clients that have calls signed.
    pub clients: Clients,
    /// Calls that pass and can't go on to their target.
    pub held: IntCounter,
    /// Requests that were refused.
    pub bad_requests: IntCounter,
    /// Connections past the most that there may be.
    pub turned_away: IntCounter,
    /// Connections that were closed so that another one has a place.
    pub closed: IntCounter,
    reloads: IntCounter,
    failed_reloads: IntCounter,
    /// Messages in which a list was written as fields.
    pub split: IntCounter,
    /// Requests that got the answer of an earlier one.
    pub repeated: IntCounter,
    /// Answers that were dropped before their time.
    pub dropped: IntCounter,
    /// Answers that are kept.
    pub answers: IntGauge,
    /// Lines of the log that were lost.
    pub lost_lines: IntGauge,
    /// Tickets that are held in memory.
    pub tickets: IntGauge,
    /// 1 if tickets can be kept, and 0 if not.
    pub tickets_kept: IntGauge,
    /// Chains that are listed and there.
    pub chains: IntGauge,
    /// Files of the chain map that are missing.
    pub missing: IntGauge,
    /// Files of the chain map that can't be read.
    pub unreadable: IntGauge,
    /// Signatures of certificates that were confirmed when the files were read.
    pub confirmed: IntGauge,
    /// Connections that are open.
    pub connections: IntGauge,
    /// When the files that hold were read, in Unix time.
    pub last_reload: IntGauge,
    /// The earliest end of a certificate, in Unix time.
    pub next_end: IntGauge,
    /// What is counted of certificates that are fetched.
    pub fetches: Fetches,
    /// What is counted of revocation lists.
    pub revocation: Revocation,
    /// What is counted of keys in HSMs.
    pub keys: Keys,
    /// What is counted of the record of calls.
    pub records: Records,
    /// Calls by who signed them.
    pub signers: SignerCalls,
}

/// The metrics of a registry, as they are made.
struct Maker(Registry);

impl Maker {
    fn counter(&self, name: &str, help: &str) -> Result<IntCounter, Error> {
        let made = IntCounter::new(name, help)?;
        self.0.register(Box::new(made.clone()))?;
        Ok(made)
    }

    fn gauge(&self, name: &str, help: &str) -> Result<IntGauge, Error> {
        let made = IntGauge::new(name, help)?;
        self.0.register(Box::new(made.clone()))?;
        Ok(made)
    }

    fn histogram(&self, name: &str, help: &str) -> Result<Histogram, Error> {
        let made = Histogram::with_opts(HistogramOpts::new(name, help).buckets(BOUNDS.into()))?;
        self.0.register(Box::new(made.clone()))?;
        Ok(made)
    }
}

impl Metrics {
    /// All at zero.
    ///
    /// # Errors
    ///
    /// A name is used twice, or is none.
    ///
    /// ```
    /// use stird::{judge::Outcome, metrics::Metrics};
    ///
    /// let metrics = Metrics::new()?;
    /// metrics.count(&Outcome::Valid);
    /// let text = String::from_utf8_lossy(&metrics.text()).into_owned();
    /// assert!(text.contains(r#"stir_calls_total{outcome="valid",rule=""} 1"#));
    /// # Ok::<(), prometheus::Error>(())
    /// ```
    pub fn new() -> Result<Metrics, Error> {
        let maker = Maker(Registry::new());
        let help = "Calls that were judged, by what came of them.";
        let calls = IntCounterVec::new(Opts::new("stir_calls_total", help), &["outcome", "rule"])?;
        maker.0.register(Box::new(calls.clone()))?;
        let of = |outcome| calls.with_label_values(&[outcome, ""]);
        let refused = (Rule::all().iter())
            .map(|rule| match rule.number {
                Rule::REPLAY => of("replay"),
                number => calls.with_label_values(&["refused", &number.to_string()]),
            })
            .collect();
        let help = "Time in the parts of the work on calls.";
        let work = CounterVec::new(Opts::new("stir_work_seconds_total", help), &["part"])?;
        maker.0.register(Box::new(work.clone()))?;
        let build = Opts::new("stir_build_info", "The version of the service.");
        let build = IntGaugeVec::new(build, &["version"])?;
        maker.0.register(Box::new(build.clone()))?;
        build.with_label_values(&[crate::settings::VERSION]).set(1);
        Ok(Metrics {
            valid: of("valid"),
            replays: of("replay"),
            unjudged: of("unjudged"),
            refused,
            ask: work.with_label_values(&["ask"]),
            confirm: work.with_label_values(&["confirm"]),
            judge: work.with_label_values(&["judge"]),
            requests: maker
                .histogram("stir_request_seconds", "From a whole request to its answer.")?,
            claims: maker.histogram("stir_claim_seconds", "The time that a claim takes.")?,
            signed: maker.counter("stir_signed_total", "Calls that were signed.")?,
            unsigned: maker.counter(
                "stir_unsigned_total",
                "Calls that weren't, since their number isn't signed for or they can't be.",
            )?,
            clients: Clients::new(&maker)?,
            held: maker.counter(
                "stir_held_total",
                "Calls that pass and can't go on to their target; nobody claimed their tickets.",
            )?,
            bad_requests: maker.counter(
                "stir_bad_requests_total",
                "Requests that were refused for their form, size, time or sender.",
            )?,
            turned_away: maker.counter(
                "stir_turned_away_total",
                "Connections past the most that there may be.",
            )?,
            closed: maker.counter(
                "stir_closed_for_others_total",
                "Connections without a request that were closed to give another one a place.",
            )?,
            reloads: maker.counter("stir_reloads_total", "Times that changed files were taken.")?,
            failed_reloads: maker.counter(
                "stir_failed_reloads_total",
                "Times that changed files couldn't be taken, and those before stayed.",
            )?,
            split: maker.counter(
                "stir_split_total",
                "Calls of which a list in a P-Asserted-Identity field was written as fields.",
            )?,
            repeated: maker.counter(
                "stir_repeated_total",
                "Requests that came again with their key, and got the same answer.",
            )?,
            dropped: maker.counter(
                "stir_dropped_answers_total",
                "Answers that were kept for less than their time, since there were too many.",
            )?,
            answers: maker.gauge("stir_answers", "Answers that are kept for their keys.")?,
            lost_lines: maker.gauge(
                "stir_lost_log_lines",
                "Lines of the log that were lost, since the start.",
            )?,
            tickets: maker.gauge("stir_tickets", "Tickets that are held in memory.")?,
            tickets_kept: maker
                .gauge("stir_tickets_kept", "1 if tickets can be kept, and 0 if not.")?,
            chains: maker
                .gauge("stir_chains", "Chains of certificates that are listed and there.")?,
            missing: maker
                .gauge("stir_missing_chains", "Files of the chain map that are missing.")?,
            unreadable: maker
                .gauge("stir_unreadable_chains", "Files of the chain map that can't be read.")?,
            confirmed: maker.gauge(
                "stir_confirmed",
                "Signatures of listed certificates that were confirmed when the files were read.",
            )?,
            connections: maker.gauge("stir_connections", "Connections that are open.")?,
            last_reload: maker.gauge(
                "stir_last_reload_timestamp_seconds",
                "When the files were read that calls are judged by, in Unix time.",
            )?,
            next_end: maker.gauge(
                "stir_certificate_next_end_timestamp_seconds",
                "The earliest end of a listed or kept certificate, in Unix time; 0 if none is.",
            )?,
            fetches: Fetches::new(&maker)?,
            revocation: Revocation::new(&maker)?,
            keys: Keys::new(&maker)?,
            records: Records::new(&maker)?,
            signers: SignerCalls::new(&maker)?,
            registry: maker.0,
        })
    }

    /// Counts what came of a call.
    pub fn count(&self, outcome: &Outcome) {
        let counter = match outcome {
            Outcome::Valid => &self.valid,
            Outcome::Replay { .. } => &self.replays,
            Outcome::Refused { rule, .. } => (rule.checked_sub(1))
                .and_then(|at| self.refused.get(at as usize))
                .unwrap_or(&self.unjudged),
            Outcome::Unjudged => &self.unjudged,
        };
        counter.inc();
    }

    /// The parts of the work on a call took these times.
    pub fn spend(&self, spent: &Spent) {
        let times = [(&self.ask, spent.ask), (&self.confirm, spent.confirm)];
        for (counter, time) in times.into_iter().chain([(&self.judge, spent.judge)]) {
            counter.inc_by(time.as_secs_f64());
        }
    }

    /// A call was to be signed.
    pub fn sign(&self, done: bool) {
        if done { &self.signed } else { &self.unsigned }.inc();
    }

    /// Changed files were to be taken.
    pub fn reload(&self, done: bool) {
        if done { &self.reloads } else { &self.failed_reloads }.inc();
    }

    /// The text form of all.
    pub fn text(&self) -> Vec<u8> {
        let mut text = Vec::with_capacity(8192);
        if let Err(error) = TextEncoder::new().encode(&self.registry.gather(), &mut text) {
            tracing::error!("the metrics can't be written: {error}");
        }
        text
    }
}

#[cfg(test)]
mod tests {
    use super::*;

    #[test]
    fn a_refused_call_is_counted_by_its_rule() {
        let metrics = Metrics::new().expect("names that are good");
        for Rule { number: rule, .. } in Rule::of_one_call().copied() {
            metrics.count(&Outcome::Refused { rule, code: 400, field: 0, part: 0 });
        }
        let text = String::from_utf8(metrics.text()).expect("text");
        for Rule { number: rule, .. } in Rule::of_one_call() {
            let line = format!("stir_calls_total{{outcome=\"refused\",rule=\"{rule}\"}} 1\n");
            assert!(text.contains(&line), "{rule}: {text}");
        }
        assert!(text.contains("stir_calls_total{outcome=\"unjudged\",rule=\"\"} 0\n"));
        assert!(!text.contains("rule=\"18\""));
    }

    #[test]
    fn a_time_is_in_its_bucket() {
        let metrics = Metrics::new().expect("names that are good");
        metrics.requests.observe(0.0015);
        let text = String::from_utf8(metrics.text()).expect("text");
        for line in [
            "stir_request_seconds_bucket{le=\"0.001\"} 0\n",
            "stir_request_seconds_bucket{le=\"0.002\"} 1\n",
            "stir_request_seconds_bucket{le=\"+Inf\"} 1\n",
            "stir_request_seconds_count 1\n",
        ] {
            assert!(text.contains(line), "{line}{text}");
        }
    }
}
