//! One document, for programs that fetch it and end.
use super::{Fetcher, Reason, Settings, SetupFault, SystemResolver};
use std::io;
use std::sync::Arc;
use thiserror::Error;

/// Why a document isn't there.
///
/// ```
/// use stir_trust::fetch::{document, DocumentFault, Hosts, Reason, Settings};
///
/// let fault = document("ldap://crl.example/a", Settings::new(Hosts::default())).unwrap_err();
/// assert!(matches!(fault, DocumentFault::Fetch(Reason::Uri)));
/// ```
#[derive(Debug, Error)]
pub enum DocumentFault {
    /// The settings can't be taken.
    #[error("{0}")]
    Setup(#[from] SetupFault),
    /// The system gives no thread or no descriptor.
    #[error("{0}")]
    System(#[from] io::Error),
    /// It isn't fetched.
    #[error("{0}")]
    Fetch(#[from] Reason),
}

/// What stands at this URI of http or https, which the operator names ([`Fetcher::document`]). The
/// system's resolver is asked. It blocks the thread.
///
/// # Errors
///
/// It isn't there, and why.
///
/// ```
/// use stir_trust::fetch::{document, Hosts, Settings};
///
/// let fault = document("http://169.254.169.254/", Settings::new(Hosts::default())).unwrap_err();
/// assert!(fault.to_string().contains("169.254.169.254"), "{fault}");
/// ```
pub fn document(uri: &str, settings: Settings) -> Result<Vec<u8>, DocumentFault> {
    let fetcher = Fetcher::new(settings, Arc::new(SystemResolver))?;
    let runtime = tokio::runtime::Builder::new_current_thread().enable_all().build()?;
    let came = runtime.block_on(fetcher.document(uri));
    // A look-up that nobody waits for any more isn't waited for.
    runtime.shutdown_background();
    Ok(came?)
}
