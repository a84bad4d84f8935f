//! Who may have calls signed, and which: clients by their names, each with its own numbers and its
//! own highest attestation.
mod admission;
mod fault;
mod file;
mod peer;

pub use admission::{Admission, Denied};
pub use fault::{ClientFault, ClientsError};
pub use file::Clients;
pub use peer::{Peer, Shown};

use crate::files::number_map::NumberMap;
use crate::files::signing::Unsigned;
use std::sync::Arc;
use stir::Attest;

/// A client of the service, and what it may have signed.
#[derive(Debug)]
pub struct Client {
    /// Its name, by which it is counted.
    pub name: String,
    /// Whether calls of a number are signed for it.
    numbers: NumberMap<bool>,
    /// Its highest attestation.
    attest: Attest,
    /// What a request of it gets that names none.
    unasked: Option<Attest>,
    /// The identifier of its calls, if a request gives none.
    origid: Option<String>,
}

/// Who asks for a signature, and may.
#[derive(Clone, Debug)]
pub enum Sender {
    /// Somebody without rights of his own: all numbers of the signing table are signed for him.
    Known,
    /// A client of the file.
    Client(Arc<Client>),
}

/// What a sender may have of what it wants.
#[derive(Clone, Copy, Debug, PartialEq, Eq)]
pub struct Allowed {
    /// The attestation that is wanted, or the sender's own for a request that names none; without
    /// both the block of the number decides.
    pub attest: Option<Attest>,
    /// The highest one that the sender may have.
    pub most: Attest,
}

impl Allowed {
    /// Whether a lower attestation is given than was wanted.
    pub fn is_lowered(self) -> bool {
        // The later letter is the lower attestation.
        self.attest.is_some_and(|wanted| wanted < self.most)
    }
}

impl Sender {
    /// Whether a call of this number is signed for the sender, and with which attestation. A
    /// diverted call is one of the number that diverts it, and wants no attestation. The signing
    /// table has to have the number besides.
    ///
    /// # Errors
    ///
    /// The number is none of the client's.
    ///
    /// ```
    /// use stird::clients::{Allowed, Sender};
    /// use stir::Attest;
    ///
    /// let allowed = Sender::Known.may_sign("12155550001", Some(Attest::B))?;
    /// assert_eq!(allowed, Allowed { attest: Some(Attest::B), most: Attest::A });
    /// # Ok::<(), stird::files::signing::Unsigned>(())
    /// ```
    pub fn may_sign(&self, number: &str, attest: Option<Attest>) -> Result<Allowed, Unsigned> {
        let Sender::Client(client) = self else { return Ok(Allowed { attest, most: Attest::A }) };
        match client.numbers.at(number) {
            Some(true) => Ok(Allowed { attest: attest.or(client.unasked), most: client.attest }),
            Some(false) | None => Err(Unsigned::NotOurs),
        }
    }

    /// Its name, if it is a client of the file.
    pub fn name(&self) -> Option<&str> {
        match self {
            Sender::Known => None,
            Sender::Client(client) => Some(&client.name),
        }
    }

    /// The identifier of its calls, if a request gives none and the file has one.
    pub fn origid(&self) -> Option<&str> {
        match self {
            Sender::Known => None,
            Sender::Client(client) => client.origid.as_deref(),
        }
    }
}
