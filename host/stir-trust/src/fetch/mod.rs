//! The certificates that an x5u names, fetched by https (RFC 8224, section 4; RFC 9110).
//!
//! A stranger writes the x5u, so a fetch trusts it in nothing:
//!
//! - it asks by https alone, without a user, and only hosts that are listed ([`Hosts`]);
//! - it looks the host up once a request, refuses it if one of its addresses isn't public
//!   ([`Reach`]), and connects to what it found, so that a second answer leads nowhere else;
//! - it speaks TLS 1.2 or later, and the server's certificate must be good for the host's name. No
//!   proxy is asked, whatever the environment says;
//! - it follows at most [`MOST_REDIRECTS`] redirects, to the same host and port alone, each of
//!   which is looked at as the first URI was;
//! - it takes at most a number of bytes, and ends at one deadline, whatever the server does.
//!
//! What comes must be certificates, in PEM, DER or PKCS #7. What they say is left to the judge: a
//! chain that it will refuse is fetched as any other.
//!
//! ```
//! use std::sync::Arc;
//! use stir_trust::fetch::{Fetcher, Hosts, Reason, Settings, SystemResolver};
//!
//! let hosts = Hosts::read(b"cr.sti.example\n*.carriers.example:8443\n!old.carriers.example\n")?;
//! let fetcher = Fetcher::new(Settings::new(hosts), Arc::new(SystemResolver))?;
//! let runtime = tokio::runtime::Builder::new_current_thread().enable_all().build()?;
//! let refused = runtime.block_on(fetcher.fetch("https://elsewhere.example/a.pem"));
//! assert_eq!(refused, Err(Reason::Listed));
//! # Ok::<(), Box<dyn std::error::Error>>(())
//! ```
mod address;
mod document;
mod form;
mod hosts;
mod one;
mod place;
mod reason;
mod redirects;

pub use address::{is_public, Reach, Resolver, SystemResolver};
pub use document::{document, DocumentFault};
pub(crate) use form::block_of;
pub use form::{certificates_of, chain_of, ends_of, FormFault};
pub use hosts::{Hosts, HostsFault};
pub use reason::{Limit, Reason};
pub use redirects::MOST_REDIRECTS;

use openssl::error::ErrorStack;
use openssl::ssl::{SslConnector, SslMethod, SslVersion};
use openssl::x509::store::X509StoreBuilder;
use openssl::x509::X509;
use place::Place;
use std::fmt::{self, Debug, Formatter};
use std::sync::Arc;
use std::time::Duration;
use thiserror::Error;
use tokio::time::Instant;

/// The most bytes of a chain (docs/FORMATS.md, "Chain").
pub const MOST_BYTES: usize = 49_152;

/// What a fetch keeps to.
///
/// ```
/// use stir_trust::fetch::{Hosts, Reach, Settings};
///
/// let settings = Settings::new(Hosts::default());
/// assert_eq!((settings.most, settings.limit.as_secs()), (49_152, 3));
/// assert_eq!(settings.reach, Reach::Public);
/// ```
#[derive(Clone, Debug)]
pub struct Settings {
    /// The hosts that may be asked.
    pub hosts: Hosts,
    /// The authorities that a server's certificate must come from, in PEM; the system's if none.
    pub authorities: Option<Vec<u8>>,
    /// The addresses that may be asked.
    pub reach: Reach,
    /// How long all of a fetch may take: look-ups, connections, redirects and the answer.
    pub limit: Duration,
    /// The most bytes of an answer's body.
    pub most: usize,
}

impl Settings {
    /// These hosts, by the system's authorities, at public addresses alone, in three seconds, and
    /// at most [`MOST_BYTES`].
    ///
    /// ```
    /// use stir_trust::fetch::{Hosts, Settings};
    ///
    /// assert!(Settings::new(Hosts::default()).authorities.is_none());
    /// ```
    pub fn new(hosts: Hosts) -> Settings {
        Settings {
            hosts,
            authorities: None,
            reach: Reach::Public,
            limit: Duration::from_secs(3),
            most: MOST_BYTES,
        }
    }
}

/// Why nothing can be fetched at all.
///
/// ```
/// use std::sync::Arc;
/// use stir_trust::fetch::{Fetcher, Hosts, Settings, SetupFault, SystemResolver};
///
/// let authorities = Some(b"none".to_vec());
/// let settings = Settings { authorities, ..Settings::new(Hosts::default()) };
/// let fault = Fetcher::new(settings, Arc::new(SystemResolver)).err();
/// assert!(matches!(fault, Some(SetupFault::Authorities)));
/// ```
#[derive(Debug, Error)]
pub enum SetupFault {
    /// The authorities are no certificates in PEM, or there is none.
    #[error("the authorities are no certificates in PEM")]
    Authorities,
    /// OpenSSL failed.
    #[error("OpenSSL failed: {0}")]
    OpenSsl(#[from] ErrorStack),
}

/// What was fetched.
///
/// ```
/// let fetched = stir_trust::fetch::Fetched { chain: vec![vec![0x30, 0]], keep: None, ends: 0 };
/// assert_eq!(fetched.der(), [0x30, 0]);
/// ```
#[derive(Clone, Debug, PartialEq, Eq)]
pub struct Fetched {
    /// The certificates in DER, the leaf's first.
    pub chain: Vec<Vec<u8>>,
    /// For how many seconds it may be kept by the server's word, if it gave one (RFC 9111).
    pub keep: Option<u64>,
    /// The last second at which all of the certificates are valid, in Unix time.
    pub ends: u64,
}

impl Fetched {
    /// The certificates one after another, as a file of the chain map has them.
    ///
    /// ```
    /// # use stir_trust::fetch::Fetched;
    /// let fetched = Fetched { chain: vec![vec![1], vec![2]], keep: None, ends: 0 };
    /// assert_eq!(fetched.der(), [1, 2]);
    /// ```
    pub fn der(&self) -> Vec<u8> {
        self.chain.concat()
    }
}

/// Fetches what x5us name.
pub struct Fetcher {
    settings: Settings,
    connector: SslConnector,
    resolver: Arc<dyn Resolver>,
}

impl Debug for Fetcher {
    fn fmt(&self, to: &mut Formatter<'_>) -> fmt::Result {
        to.debug_struct("Fetcher").field("settings", &self.settings).finish_non_exhaustive()
    }
}

impl Fetcher {
    /// A fetcher with these settings, which asks this resolver for addresses.
    ///
    /// # Errors
    ///
    /// The authorities are no certificates, or OpenSSL failed.
    ///
    /// ```
    /// # use std::sync::Arc;
    /// use stir_trust::fetch::{Fetcher, Hosts, Settings, SystemResolver};
    ///
    /// assert!(Fetcher::new(Settings::new(Hosts::default()), Arc::new(SystemResolver)).is_ok());
    /// ```
    pub fn new(settings: Settings, resolver: Arc<dyn Resolver>) -> Result<Fetcher, SetupFault> {
        let mut builder = SslConnector::builder(SslMethod::tls_client())?;
        builder.set_min_proto_version(Some(SslVersion::TLS1_2))?;
        if let Some(pem) = &settings.authorities {
            let found = X509::stack_from_pem(pem).map_err(|_| SetupFault::Authorities)?;
            if found.is_empty() {
                return Err(SetupFault::Authorities);
            }
            let mut store = X509StoreBuilder::new()?;
            for authority in found {
                store.add_cert(authority)?;
            }
            builder.set_cert_store(store.build());
        }
        Ok(Fetcher { settings, connector: builder.build(), resolver })
    }

    /// What this x5u names. It ends within the limit of the settings.
    ///
    /// # Errors
    ///
    /// The reason why there is nothing.
    ///
    /// ```
    /// # use std::sync::Arc;
    /// # use stir_trust::fetch::{Fetcher, Hosts, Reason, Settings, SystemResolver};
    /// # let runtime = tokio::runtime::Builder::new_current_thread().enable_all().build()?;
    /// // No file of hosts, no fetching.
    /// let fetcher = Fetcher::new(Settings::new(Hosts::default()), Arc::new(SystemResolver))?;
    /// let nothing = runtime.block_on(fetcher.fetch("https://cr.sti.example/a.pem"));
    /// assert_eq!(nothing, Err(Reason::Listed));
    /// # Ok::<(), Box<dyn std::error::Error>>(())
    /// ```
    pub async fn fetch(&self, x5u: &str) -> Result<Fetched, Reason> {
        let body = self.body(Place::of(x5u, &self.settings.hosts)?).await?;
        let chain = chain_of(&body.bytes)?;
        let ends = ends_of(&chain)?;
        Ok(Fetched { chain, keep: body.keep, ends })
    }

    /// What stands at this URI of http or https, which the operator names: at any host and port,
    /// whatever hosts are listed. All else that a fetch keeps to holds: addresses, limit, bytes and
    /// redirects. It is for what is signed, such as a revocation list.
    ///
    /// # Errors
    ///
    /// The reason why there is nothing.
    ///
    /// ```
    /// # use std::sync::Arc;
    /// # use stir_trust::fetch::{Fetcher, Hosts, Reason, Settings, SystemResolver};
    /// # let runtime = tokio::runtime::Builder::new_current_thread().enable_all().build()?;
    /// let fetcher = Fetcher::new(Settings::new(Hosts::default()), Arc::new(SystemResolver))?;
    /// let nothing = runtime.block_on(fetcher.document("http://127.0.0.1:1/a.crl"));
    /// assert!(matches!(nothing, Err(Reason::Private(_))));
    /// # Ok::<(), Box<dyn std::error::Error>>(())
    /// ```
    pub async fn document(&self, uri: &str) -> Result<Vec<u8>, Reason> {
        Ok(self.body(Place::named(uri)?).await?.bytes)
    }

    /// The body to which a place leads, within the limit.
    async fn body(&self, place: Place) -> Result<one::Body, Reason> {
        let until = Instant::now() + self.settings.limit;
        tokio::time::timeout_at(until, redirects::followed(self, place, until))
            .await
            .map_err(|_| Reason::Time)?
    }

    /// The host that this x5u names, with its port if it isn't 443, if it may be asked.
    ///
    /// # Errors
    ///
    /// It is no https URI that may be fetched, or its host isn't listed.
    ///
    /// ```
    /// # use std::sync::Arc;
    /// # use stir_trust::fetch::{Fetcher, Hosts, Reason, Settings, SystemResolver};
    /// let settings = Settings::new(Hosts::read(b"*\n")?);
    /// let fetcher = Fetcher::new(settings, Arc::new(SystemResolver))?;
    /// assert_eq!(fetcher.host_of("https://CR.example:8443/a").as_deref(), Ok("cr.example:8443"));
    /// assert_eq!(fetcher.host_of("http://cr.example/a"), Err(Reason::Uri));
    /// # Ok::<(), Box<dyn std::error::Error>>(())
    /// ```
    pub fn host_of(&self, x5u: &str) -> Result<String, Reason> {
        Ok(Place::of(x5u, &self.settings.hosts)?.authority())
    }
}
