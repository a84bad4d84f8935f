//! Whom certificates may be fetched from: a file of hosts, and one of authorities.
use super::fault::{FileFault, Why};
use super::reading::single;
use super::single::Single;
use std::path::PathBuf;
use std::sync::Arc;
use stir_trust::fetch::{Fetcher, Hosts, Reach, Settings, SetupFault, SystemResolver};

/// The files that say whom certificates may be fetched from.
///
/// ```
/// use stird::files::HostFiles;
///
/// let files = HostFiles {
///     hosts: "hosts.txt".into(),
///     authorities: None,
///     reach: stir_trust::fetch::Reach::Public,
/// };
/// ```
#[derive(Clone, Debug, PartialEq, Eq)]
pub struct HostFiles {
    /// The hosts that may be asked.
    pub hosts: PathBuf,
    /// The authorities of their certificates, in PEM; the system's if none.
    pub authorities: Option<PathBuf>,
    /// The addresses that may be asked.
    pub reach: Reach,
}

/// Whom certificates may be fetched from, as it was read.
pub struct MayAsk {
    hosts: Single,
    authorities: Single,
    settings: Settings,
}

impl MayAsk {
    /// Reads the files; with what fetches by them. One that isn't taken stays what it was before,
    /// and [`MayAsk::faults`] names it.
    ///
    /// # Errors
    ///
    /// Without one from before: a file can't be read or is refused. With or without: OpenSSL
    /// failed.
    pub fn read(
        files: &HostFiles,
        before: Option<&MayAsk>,
    ) -> Result<(MayAsk, Fetcher), FileFault> {
        let mut hosts = single(Some(&files.hosts), before.map(|was| &was.hosts))?;
        let listed = match (Hosts::read(&hosts.bytes), before) {
            (Ok(listed), _) => listed,
            (Err(why), was) => {
                hosts =
                    hosts.refused(FileFault::of(&files.hosts, why), was.map(|was| &was.hosts))?;
                was.map(|was| was.settings.hosts.clone()).unwrap_or_default()
            }
        };
        let path = files.authorities.as_deref();
        let mut authorities = single(path, before.map(|was| &was.authorities))?;
        let mut settings = Settings { reach: files.reach.clone(), ..Settings::new(listed) };
        settings.authorities = path.map(|_| authorities.bytes.to_vec());
        let fetcher = match (fetcher_of(&settings), path) {
            (Err(Why::Authorities), Some(path)) => {
                let fault = FileFault::of(path, Why::Authorities);
                authorities = authorities.refused(fault, before.map(|was| &was.authorities))?;
                settings.authorities = Some(authorities.bytes.to_vec());
                fetcher_of(&settings)
            }
            (made, _) => made,
        };
        let fetcher = fetcher.map_err(|why| FileFault { file: None, line: None, why })?;
        Ok((MayAsk { hosts, authorities, settings }, fetcher))
    }

    /// Whether a file isn't what it was when it was read.
    pub fn is_stale(&self) -> bool {
        self.hosts.is_stale() || self.authorities.is_stale()
    }

    /// Whether the same may be asked as by another reading.
    pub fn is_as(&self, other: &MayAsk) -> bool {
        Arc::ptr_eq(&self.hosts.bytes, &other.hosts.bytes)
            && Arc::ptr_eq(&self.authorities.bytes, &other.authorities.bytes)
    }

    /// Which of the files aren't taken, and stay what they were.
    pub fn faults(&self) -> Vec<&FileFault> {
        [&self.hosts, &self.authorities].into_iter().filter_map(|it| it.fault.as_ref()).collect()
    }
}

fn fetcher_of(settings: &Settings) -> Result<Fetcher, Why> {
    Fetcher::new(settings.clone(), Arc::new(SystemResolver)).map_err(|fault| match fault {
        SetupFault::Authorities => Why::Authorities,
        SetupFault::OpenSsl(errors) => Why::OpenSsl(errors.to_string()),
    })
}
