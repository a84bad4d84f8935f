//! A call's wait for its certificates.
use super::Fetching;
use crate::metrics::Waited;
use std::sync::Arc;
use std::time::{Duration, Instant};
use stir_trust::cache::{Entry, Miss};
use stir_trust::fetch::Reason;

/// How a call came by its certificates.
#[derive(Clone, Copy, Debug, PartialEq, Eq)]
pub enum Certificates {
    /// They were there.
    Held,
    /// They were fetched for it.
    Fetched,
    /// They weren't there in time.
    Late,
    /// They can't be had, for the reason in this word.
    Failed(&'static str),
}

impl Certificates {
    /// What is said of several x5us of one call: the first that failed, or else what is worst.
    ///
    /// ```
    /// use stird::fetching::Certificates::{Failed, Fetched, Held, Late};
    ///
    /// let all = [Held, Late, Failed("dns"), Fetched, Failed("tls")];
    /// assert_eq!(all.into_iter().reduce(|one, other| one.and(other)), Some(Failed("dns")));
    /// assert_eq!((Held.and(Fetched), Fetched.and(Late)), (Fetched, Late));
    /// ```
    pub fn and(self, other: Certificates) -> Certificates {
        use Certificates::{Failed, Fetched, Held, Late};
        match (self, other) {
            (Failed(reason), _) | (_, Failed(reason)) => Failed(reason),
            (Late, _) | (_, Late) => Late,
            (Fetched, _) | (_, Fetched) => Fetched,
            (Held, Held) => Held,
        }
    }

    /// What is said of them in an answer.
    ///
    /// ```
    /// use stird::fetching::Certificates;
    ///
    /// assert_eq!(Certificates::Failed("dns").to_string(), "failed dns");
    /// ```
    fn words(self) -> (&'static str, &'static str) {
        match self {
            Certificates::Held => ("held", ""),
            Certificates::Fetched => ("fetched", ""),
            Certificates::Late => ("late", ""),
            Certificates::Failed(reason) => ("failed ", reason),
        }
    }
}

impl std::fmt::Display for Certificates {
    fn fmt(&self, to: &mut std::fmt::Formatter<'_>) -> std::fmt::Result {
        let (word, reason) = self.words();
        write!(to, "{word}{reason}")
    }
}

/// What comes of an x5u that is asked for.
type Brought = Result<Arc<Entry>, Miss>;

/// What came of the x5us that a call asked for; at most nine.
#[derive(Debug, Default)]
pub struct Came(Vec<(Vec<u8>, Brought)>);

impl Came {
    /// What came of this one, if it was asked for.
    pub fn of(&self, x5u: &[u8]) -> Option<&Brought> {
        self.0.iter().find(|(name, _)| name == x5u).map(|(_, came)| came)
    }
}

impl Fetching {
    /// The chain of an x5u, if it is kept.
    pub fn held(&self, x5u: &[u8]) -> Option<Arc<Entry>> {
        std::str::from_utf8(x5u).ok().and_then(|x5u| self.cache.held(x5u))
    }

    /// The chains of these x5us, which weren't kept. Their fetches go on at the same time, and one
    /// limit holds for all.
    pub async fn wait(&self, x5us: Vec<Vec<u8>>) -> Came {
        let until = Instant::now() + self.limit;
        let mut came = Came::default();
        for x5u in x5us {
            let brought = self.begun(&x5u).await;
            came.0.push((x5u, brought));
        }
        if !came.0.iter().any(|(_, brought)| is_late(brought)) {
            return came;
        }
        let Ok(_place) = self.waits.try_acquire() else {
            self.metrics.fetches.wait(Waited::Full);
            return came;
        };
        for (x5u, brought) in came.0.iter_mut().filter(|(_, brought)| is_late(brought)) {
            let left = until.saturating_duration_since(Instant::now());
            *brought = self.waited(x5u, left).await;
        }
        let is_late = came.0.iter().any(|(_, brought)| is_late(brought));
        self.metrics.fetches.wait(if is_late { Waited::Late } else { Waited::InTime });
        came
    }

    /// The chain of an x5u of which a fetch is begun if none is on its way; nobody is waited for.
    async fn begun(&self, x5u: &[u8]) -> Brought {
        let brought = self.waited(x5u, Duration::ZERO).await;
        // These are no fetches, so that nobody else tells of them.
        if let Err(Miss::Failed(reason @ (Reason::Uri | Reason::Listed | Reason::Limited(_)))) =
            &brought
        {
            self.metrics.fetches.count(Err(reason));
            self.told.say(&String::from_utf8_lossy(x5u), reason);
        }
        brought
    }

    async fn waited(&self, x5u: &[u8], limit: Duration) -> Brought {
        match std::str::from_utf8(x5u) {
            Ok(x5u) => self.cache.wait(x5u, limit).await,
            Err(_) => Err(Miss::Failed(Reason::Uri)),
        }
    }
}

fn is_late(brought: &Brought) -> bool {
    matches!(brought, Err(Miss::Late))
}
