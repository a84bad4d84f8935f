//! What is counted of clients that have calls signed.
use super::Maker;
use prometheus::{Error, IntCounterVec, Opts};
use std::collections::BTreeSet;
use std::sync::Mutex;
use stir_trust::locks::Held;

/// What came of a client's request for a signature.
#[derive(Clone, Copy, Debug, PartialEq, Eq)]
pub enum Signing {
    /// It was signed.
    Signed,
    /// It was, with a lower attestation than was wanted, since the client may have no higher one.
    Lowered,
    /// The number is none of the client's, or not signed for.
    Beyond,
    /// It is no request, or has a value that is none.
    Refused,
    /// The key or its certificate didn't serve.
    Failed,
}

impl Signing {
    const ALL: [Signing; 5] =
        [Signing::Signed, Signing::Lowered, Signing::Beyond, Signing::Refused, Signing::Failed];

    fn word(self) -> &'static str {
        match self {
            Signing::Signed => "signed",
            Signing::Lowered => "lowered",
            Signing::Beyond => "beyond",
            Signing::Refused => "refused",
            Signing::Failed => "failed",
        }
    }
}

/// Counts of the clients of the file, and of no others.
pub struct Clients {
    signed: IntCounterVec,
    names: Mutex<BTreeSet<String>>,
}

impl Clients {
    /// Of no client, in a registry.
    pub(super) fn new(maker: &Maker) -> Result<Clients, Error> {
        let help = "Requests of clients for signatures, by what came of them.";
        let options = Opts::new("stir_client_signed_total", help);
        let signed = IntCounterVec::new(options, &["client", "outcome"])?;
        maker.0.register(Box::new(signed.clone()))?;
        Ok(Clients { signed, names: Mutex::default() })
    }

    /// These are the clients from now on. What was counted of others is forgotten.
    pub fn know(&self, names: &[String]) {
        let mut known = self.names.lock().held();
        let now: BTreeSet<String> = names.iter().cloned().collect();
        for (name, outcome) in known.difference(&now).flat_map(|name| each(name)) {
            // It isn't there if another thread took it out.
            let _ = self.signed.remove_label_values(&[name, outcome.word()]);
        }
        for (name, outcome) in now.difference(&known).flat_map(|name| each(name)) {
            self.signed.with_label_values(&[name, outcome.word()]).inc_by(0);
        }
        *known = now;
    }

    /// A client asked for a signature.
    ///
    /// ```
    /// use stird::metrics::{Metrics, Signing};
    ///
    /// let metrics = Metrics::new()?;
    /// metrics.clients.know(&["switch-1".into()]);
    /// metrics.clients.count("switch-1", Signing::Beyond);
    /// metrics.clients.count("switch-2", Signing::Signed);
    /// let text = String::from_utf8_lossy(&metrics.text()).into_owned();
    /// let line = r#"stir_client_signed_total{client="switch-1",outcome="beyond"} 1"#;
    /// assert!(text.contains(line) && !text.contains("switch-2"), "{text}");
    /// # Ok::<(), prometheus::Error>(())
    /// ```
    pub fn count(&self, client: &str, outcome: Signing) {
        let known = self.names.lock().held();
        if known.contains(client) {
            self.signed.with_label_values(&[client, outcome.word()]).inc();
        }
    }
}

/// A name with each outcome.
fn each(name: &str) -> impl Iterator<Item = (&str, Signing)> {
    Signing::ALL.into_iter().map(move |outcome| (name, outcome))
}

#[cfg(test)]
mod tests {
    use super::super::Metrics;
    use super::*;

    #[test]
    fn there_are_counts_of_the_clients_of_the_file_alone() {
        let metrics = Metrics::new().expect("names that are good");
        let lines = |client: &str| {
            let text = String::from_utf8(metrics.text()).expect("text");
            let start = format!("stir_client_signed_total{{client=\"{client}\",");
            let lines = text.lines().filter(|line| line.starts_with(&start));
            lines.filter_map(|line| line.rsplit(' ').next()?.parse().ok()).collect::<Vec<u64>>()
        };
        let know = |names: &[&str]| {
            let names: Vec<String> = names.iter().map(|name| (*name).into()).collect();
            metrics.clients.know(&names);
        };
        know(&["a", "b"]);
        assert_eq!(lines("a"), [0; 5]);
        for outcome in Signing::ALL {
            metrics.clients.count("a", outcome);
            metrics.clients.count("c", outcome);
        }
        assert_eq!((lines("a"), lines("b"), lines("c")), (vec![1; 5], vec![0; 5], vec![]));
        know(&["a", "c"]);
        assert_eq!((lines("a"), lines("b"), lines("c")), (vec![1; 5], vec![], vec![0; 5]));
        metrics.clients.count("b", Signing::Signed);
        assert_eq!(lines("b"), [0; 0], "it is a client no more");
        know(&[]);
        assert_eq!(lines("a"), [0; 0]);
    }
}
