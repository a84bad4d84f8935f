//! Who is let in: by a token, a certificate, or a Unix socket.
use super::{Clients, Peer, Sender};
use crate::tokens::Tokens;
use std::sync::Arc;

/// What those who ask for signatures are looked up in.
#[derive(Clone, Copy)]
pub struct Admission<'a> {
    /// The tokens with which all numbers of the signing table are signed for.
    pub tokens: &'a Tokens,
    /// The clients with rights of their own.
    pub clients: &'a Clients,
    /// Whether without both whoever is on this host is signed for over TCP too.
    pub is_local: bool,
}

/// Why nothing is signed for a request.
#[derive(Clone, Copy, Debug, PartialEq, Eq)]
pub enum Denied {
    /// It has no token that is listed.
    NoToken,
    /// Its sender isn't known.
    Unknown,
}

impl Admission<'_> {
    /// Who has calls signed by a request with this `Authorization` field and from this peer. A
    /// token goes before a certificate.
    ///
    /// # Errors
    ///
    /// Nobody who may.
    ///
    /// ```
    /// use stird::clients::{Admission, Clients, Denied, Peer, Sender};
    /// use stird::tokens::Tokens;
    ///
    /// let (tokens, clients) = (Tokens::read(None).unwrap(), Clients::read(None, false).unwrap());
    /// let admission = Admission { tokens: &tokens, clients: &clients, is_local: false };
    /// let at_socket = Peer { address: None, certificate: None };
    /// assert!(matches!(admission.sender(None, &at_socket), Ok(Sender::Known)));
    /// let local = Peer { address: "127.0.0.1".parse().ok(), certificate: None };
    /// assert!(matches!(admission.sender(None, &local), Err(Denied::Unknown)));
    /// ```
    pub fn sender(&self, authorization: Option<&[u8]>, peer: &Peer) -> Result<Sender, Denied> {
        if !self.has_lists() {
            let certified = peer.certificate.is_some() || peer.is_at_socket();
            let is_good = certified || self.is_local && peer.is_known();
            return if is_good { Ok(Sender::Known) } else { Err(Denied::Unknown) };
        }
        if let Some(token) = authorization.and_then(token_of) {
            return match self.clients.by_token(token) {
                Some(client) => Ok(Sender::Client(Arc::clone(client))),
                None if self.tokens.has(token) => Ok(Sender::Known),
                None => Err(Denied::NoToken),
            };
        }
        let shown = peer.certificate.as_deref().filter(|_| self.clients.are_given());
        let Some(shown) = shown else { return Err(Denied::NoToken) };
        let client = self.clients.by_certificate(shown).ok_or(Denied::Unknown)?;
        Ok(Sender::Client(Arc::clone(client)))
    }

    /// Whether the list of certificates is shown: to those for whom is signed, and without tokens
    /// and clients to this host too.
    ///
    /// # Errors
    ///
    /// Why it isn't.
    pub fn may_look(&self, authorization: Option<&[u8]>, peer: &Peer) -> Result<(), Denied> {
        Admission { is_local: true, ..*self }.sender(authorization, peer).map(drop)
    }

    fn has_lists(&self) -> bool {
        self.tokens.are_given() || self.clients.are_given()
    }
}

/// The token of `Bearer TOKEN` (RFC 6750, section 2.1).
fn token_of(value: &[u8]) -> Option<&[u8]> {
    let (scheme, rest) = value.split_at_checked(6)?;
    let token = rest.strip_prefix(b" ")?;
    scheme.eq_ignore_ascii_case(b"bearer").then(|| token.trim_ascii())
}
