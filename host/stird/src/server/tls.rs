//! TLS over TCP, by OpenSSL.
use crate::clients::Shown;
use crate::files::{whole, FileFault};
use crate::settings::Tls;
use arc_swap::ArcSwap;
use openssl::error::ErrorStack;
use openssl::pkey::{PKey, Private};
use openssl::ssl::{Ssl, SslAcceptor, SslMethod, SslVerifyMode};
use openssl::stack::Stack;
use openssl::x509::{X509Name, X509};
use std::path::{Path, PathBuf};
use std::pin::Pin;
use tokio::net::TcpStream;
use tokio_openssl::SslStream;

/// The most bytes of a file.
const MOST_FILE: usize = 1 << 20;

/// Why TLS can't be spoken.
#[derive(Debug, thiserror::Error)]
pub enum TlsError {
    /// A file can't be read.
    #[error("{0}")]
    File(#[from] FileFault),
    /// A file isn't what it should be.
    #[error("{}: {what}: {error}", path.display())]
    Form {
        /// The file.
        path: PathBuf,
        /// What it should be.
        what: &'static str,
        /// Why.
        error: ErrorStack,
    },
    /// A file has no certificate.
    #[error("{}: it has no certificate in PEM", path.display())]
    Empty {
        /// The file.
        path: PathBuf,
    },
    /// OpenSSL failed.
    #[error("{0}")]
    Failed(#[from] ErrorStack),
}

/// What clients over TLS see of this service, by its files.
pub struct Acceptor {
    files: Tls,
    inner: ArcSwap<SslAcceptor>,
}

fn certificates(path: &Path) -> Result<Vec<X509>, TlsError> {
    let what = "no certificates in PEM";
    let found = X509::stack_from_pem(&whole(path, MOST_FILE)?).map_err(|error| TlsError::Form {
        path: path.into(),
        what,
        error,
    })?;
    if found.is_empty() {
        return Err(TlsError::Empty { path: path.into() });
    }
    Ok(found)
}

/// A private key. One with a password is refused; nobody is asked for it.
fn key(path: &Path) -> Result<PKey<Private>, TlsError> {
    PKey::private_key_from_pem_callback(&whole(path, MOST_FILE)?, |_| Err(ErrorStack::get()))
        .map_err(|error| TlsError::Form {
            path: path.into(),
            what: "no private key in PEM without a password",
            error,
        })
}

fn acceptor(files: &Tls) -> Result<SslAcceptor, TlsError> {
    let mut made = SslAcceptor::mozilla_intermediate_v5(SslMethod::tls_server())?;
    let mut chain = certificates(&files.certificate)?.into_iter();
    if let Some(leaf) = chain.next() {
        made.set_certificate(&leaf)?;
    }
    for more in chain {
        made.add_extra_chain_cert(more)?;
    }
    let key = key(&files.key)?;
    made.set_private_key(&key)?;
    made.check_private_key().map_err(|error| TlsError::Form {
        path: files.key.clone(),
        what: "not the key of the certificate",
        error,
    })?;
    made.set_session_id_context(b"stird")?;
    if let Some(path) = &files.clients {
        let mut names = Stack::new()?;
        for authority in certificates(path)? {
            names.push(X509Name::from_der(&authority.subject_name().to_der()?)?)?;
            made.cert_store_mut().add_cert(authority)?;
        }
        made.set_client_ca_list(names);
        made.set_verify(SslVerifyMode::PEER | SslVerifyMode::FAIL_IF_NO_PEER_CERT);
    }
    Ok(made.build())
}

impl Acceptor {
    /// Reads the files.
    ///
    /// # Errors
    ///
    /// One can't be read, or isn't what it should be.
    pub fn read(files: Tls) -> Result<Acceptor, TlsError> {
        let inner = ArcSwap::from_pointee(acceptor(&files)?);
        Ok(Acceptor { files, inner })
    }

    /// Reads them again. If one can't be taken, what was read before stays.
    ///
    /// # Errors
    ///
    /// Those of [`Acceptor::read`].
    pub fn read_again(&self) -> Result<(), TlsError> {
        self.inner.store(acceptor(&self.files)?.into());
        Ok(())
    }

    /// Greets a client, and says which certificate it has shown that is trusted.
    pub(super) async fn accept(
        &self,
        stream: TcpStream,
    ) -> Option<(SslStream<TcpStream>, Option<Shown>)> {
        let ssl = Ssl::new(self.inner.load().context()).ok()?;
        let mut stream = SslStream::new(ssl, stream).ok()?;
        Pin::new(&mut stream).accept().await.ok()?;
        let certificate = stream.ssl().peer_certificate().filter(|_| self.files.clients.is_some());
        let shown = certificate.and_then(|certificate| Shown::of(&certificate));
        Some((stream, shown))
    }
}
