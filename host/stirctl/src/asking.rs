//! Whom certificates are fetched from, and where they are kept.

use crate::files::whole;
use crate::Fault;
use std::path::Path;
use std::sync::Arc;
use std::time::Duration;
use stir_trust::cache::{Folder, FolderFault};
use stir_trust::chain_map::MOST_LINES;
use stir_trust::fetch::{Fetcher, Hosts, Reach, Settings, SystemResolver};
use tokio::runtime::{Builder, Runtime};

/// The most bytes of a file of hosts, and of one of authorities.
const MOST_HOSTS_BYTES: u64 = 16_777_216;
const MOST_AUTHORITIES_BYTES: u64 = 8 << 20;

/// The most bytes of a folder's name, so that the names of its files fit a chain map.
const LONGEST_FOLDER: usize = 120;

/// How long a fetch may take if nothing else is said, in seconds.
pub(crate) const SECONDS: u64 = 10;

/// How many fetches go on at once if nothing else is said.
pub(crate) const JOBS: usize = 8;

/// Whom certificates are fetched from, and how.
#[derive(Clone, Copy, Debug)]
pub(crate) struct Asking<'a> {
    /// The file of hosts.
    pub hosts: &'a str,
    /// The file of authorities; the system's if there is none.
    pub authorities: Option<&'a str>,
    /// Whether private addresses may be asked.
    pub is_private: bool,
    /// How long a fetch may take.
    pub seconds: u64,
}

impl Asking<'_> {
    /// What fetches so.
    pub fn fetcher(&self) -> Result<Fetcher, Fault> {
        let hosts = Hosts::read(&whole(self.hosts, MOST_HOSTS_BYTES)?)
            .map_err(|fault| Fault::Refused(self.hosts.into(), fault.line as u64))?;
        let read = |name| whole(name, MOST_AUTHORITIES_BYTES);
        let settings = Settings {
            authorities: self.authorities.map(read).transpose()?,
            reach: if self.is_private { Reach::All } else { Reach::Public },
            limit: Duration::from_secs(self.seconds),
            ..Settings::new(hosts)
        };
        let name = self.authorities.unwrap_or("https");
        let failed =
            |fault: stir_trust::fetch::SetupFault| Fault::Input(name.into(), fault.to_string());
        Fetcher::new(settings, Arc::new(SystemResolver)).map_err(failed)
    }
}

/// The folder of this name, of whose files a chain map can have the names.
pub(crate) fn folder(name: &Path) -> Result<Folder, Fault> {
    let text = name.to_str().filter(|text| text.bytes().all(|byte| byte.is_ascii_graphic()));
    if !text.is_some_and(|text| (1..=LONGEST_FOLDER).contains(&text.len())) {
        let why = format!("{}: a chain map takes no such name of a folder", name.display());
        return Err(Fault::Words(why));
    }
    Folder::open(name, MOST_LINES).map_err(Fault::from)
}

/// What the fetches run on.
pub(crate) fn runtime() -> Result<Runtime, Fault> {
    let runtime = Builder::new_current_thread().enable_all().build();
    runtime.map_err(|error| Fault::Words(format!("no sockets: {error}")))
}

impl From<FolderFault> for Fault {
    fn from(fault: FolderFault) -> Fault {
        match fault {
            FolderFault::System { file, error } => Fault::write(&file.to_string_lossy(), &error),
            FolderFault::Busy(folder) => {
                let why = "another program writes there".into();
                Fault::Write(folder.to_string_lossy().into_owned(), why)
            }
        }
    }
}
