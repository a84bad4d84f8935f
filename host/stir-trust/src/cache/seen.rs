//! What a service does with a cache beside asking it: it says by what is fetched and where, and
//! looks at what is kept.
use super::{Cache, Entry, Witness};
use crate::fetch::Fetcher;
use crate::locks::Held;
use std::sync::Arc;
use tokio::runtime::Handle;

impl Cache {
    /// Has fetches go on in this runtime, whoever asks, and this witness be told how each ends. It
    /// is said once, before the cache is asked.
    ///
    /// ```
    /// # use std::{sync::Arc, time::Duration};
    /// # use stir_trust::cache::{Bounds, Cache, SystemClock, Witness};
    /// # use stir_trust::fetch::{Fetcher, Hosts, Reason, Settings, SystemResolver};
    /// struct Nobody;
    ///
    /// impl Witness for Nobody {
    ///     fn landed(&self, _: &str, _: Option<Duration>, _: Result<(), &Reason>) {}
    /// }
    ///
    /// # let runtime = tokio::runtime::Builder::new_multi_thread().enable_all().build()?;
    /// # let fetcher = Fetcher::new(Settings::new(Hosts::default()), Arc::new(SystemResolver))?;
    /// let cache = Cache::new(fetcher, Bounds::default(), Arc::new(SystemClock));
    /// cache.fetch_in(runtime.handle().clone(), Arc::new(Nobody));
    /// # Ok::<(), Box<dyn std::error::Error>>(())
    /// ```
    pub fn fetch_in(&self, runtime: Handle, witness: Arc<dyn Witness>) {
        // What was said first holds.
        let _ = self.0.runtime.set(runtime);
        let _ = self.0.witness.set(witness);
    }

    /// Has this fetcher fetch from now on, as after the hosts changed. What is kept of hosts that
    /// may not be asked any more goes, and no failure from before is remembered.
    ///
    /// ```
    /// # use std::{sync::Arc, time::Duration};
    /// # use stir_trust::cache::{Bounds, Cache, Miss, SystemClock};
    /// # use stir_trust::fetch::{Fetcher, Hosts, Settings, SystemResolver};
    /// # let runtime = tokio::runtime::Builder::new_current_thread().enable_all().build()?;
    /// let by = |hosts: &[u8]| {
    ///     let hosts = Hosts::read(hosts).expect("hosts");
    ///     Fetcher::new(Settings::new(hosts), Arc::new(SystemResolver)).expect("a fetcher")
    /// };
    /// let cache = Cache::new(by(b""), Bounds::default(), Arc::new(SystemClock));
    /// cache.fetch_by(by(b"cr.invalid\n"));
    /// let begun = runtime.block_on(cache.wait("https://cr.invalid/a.pem", Duration::ZERO));
    /// assert_eq!(begun, Err(Miss::Late));
    /// # Ok::<(), Box<dyn std::error::Error>>(())
    /// ```
    pub fn fetch_by(&self, fetcher: Fetcher) {
        let state = &mut *self.0.state.lock().held();
        state.fetcher = Arc::new(fetcher);
        let fetcher = &state.fetcher;
        for x5u in state.kept.drop_those(|x5u| fetcher.host_of(x5u).is_err()) {
            state.unsaved.remove(&x5u);
        }
        state.limits.forgive();
    }

    /// The chain of this x5u, if it is kept, without being asked for.
    ///
    /// ```
    /// # use std::sync::Arc;
    /// # use stir_trust::cache::{Bounds, Cache, SystemClock};
    /// # use stir_trust::fetch::{Fetcher, Hosts, Settings, SystemResolver};
    /// # let fetcher = Fetcher::new(Settings::new(Hosts::default()), Arc::new(SystemResolver))?;
    /// let cache = Cache::new(fetcher, Bounds::default(), Arc::new(SystemClock));
    /// assert_eq!(cache.kept("https://cr.example/a.pem"), None);
    /// # Ok::<(), Box<dyn std::error::Error>>(())
    /// ```
    pub fn kept(&self, x5u: &str) -> Option<Arc<Entry>> {
        let now = self.0.clock.now();
        self.0.state.lock().held().kept.entry(x5u).filter(|entry| now <= entry.last())
    }

    /// The chains that are kept, in the order of their x5us: so many at most, and those after this
    /// x5u if one is said.
    ///
    /// ```
    /// # use std::sync::Arc;
    /// # use stir_trust::cache::{Bounds, Cache, SystemClock};
    /// # use stir_trust::fetch::{Fetcher, Hosts, Settings, SystemResolver};
    /// # let fetcher = Fetcher::new(Settings::new(Hosts::default()), Arc::new(SystemResolver))?;
    /// let cache = Cache::new(fetcher, Bounds::default(), Arc::new(SystemClock));
    /// assert!(cache.list(None, 100).is_empty());
    /// # Ok::<(), Box<dyn std::error::Error>>(())
    /// ```
    pub fn list(&self, after: Option<&str>, most: usize) -> Vec<(String, Arc<Entry>)> {
        self.0.state.lock().held().kept.list(after, most)
    }

    /// The last second at which all the certificates that are kept are valid, but for those that
    /// had ended when they were fetched.
    ///
    /// ```
    /// # use std::sync::Arc;
    /// # use stir_trust::cache::{Bounds, Cache, SystemClock};
    /// # use stir_trust::fetch::{Fetcher, Hosts, Settings, SystemResolver};
    /// # let fetcher = Fetcher::new(Settings::new(Hosts::default()), Arc::new(SystemResolver))?;
    /// let cache = Cache::new(fetcher, Bounds::default(), Arc::new(SystemClock));
    /// assert_eq!(cache.ends(), None);
    /// # Ok::<(), Box<dyn std::error::Error>>(())
    /// ```
    pub fn ends(&self) -> Option<u64> {
        self.0.state.lock().held().kept.ends()
    }
}
