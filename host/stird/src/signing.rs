//! Calls signed for those who may have them signed.
use crate::atis;
use crate::clients::{Denied, Sender};
use crate::files::signing::{identity, Call, Unsigned};
use crate::metrics::Signing;
use crate::routes::{Request, Service};
use openssl::rand::rand_bytes;
use uuid::Builder;

impl Service {
    /// Who sent a request for a signature.
    ///
    /// # Errors
    ///
    /// Nobody for whom is signed.
    pub(crate) fn sender(&self, request: &Request) -> Result<Sender, atis::Refusal> {
        let token = request.authorization.as_deref();
        let sender = self.admission(|admission| admission.sender(token, &request.peer));
        sender.map_err(|denied| match denied {
            Denied::NoToken => atis::NO_TOKEN,
            Denied::Unknown => atis::NOT_ALLOWED,
        })
    }

    /// The Identity value of the call of a body.
    pub(crate) fn sign(&self, body: &[u8], sender: &Sender) -> Result<String, atis::Refusal> {
        let made = atis::signing(body).and_then(|call| self.sign_call(&call, sender));
        self.count(sender, made.as_ref().map(|made| made.is_lowered));
        made.map(|made| made.identity)
    }

    /// Counts what came of a request of a client: something was signed, perhaps with a lower
    /// attestation than was wanted, or it was refused.
    pub(crate) fn count(&self, sender: &Sender, made: Result<bool, &atis::Refusal>) {
        if let Some(client) = sender.name() {
            let outcome = match made {
                Ok(false) => Signing::Signed,
                Ok(true) => Signing::Lowered,
                Err(refusal) if refusal.status.is_server_error() => Signing::Failed,
                Err(refusal) if *refusal == atis::NOT_OURS => Signing::Beyond,
                Err(_) => Signing::Refused,
            };
            self.judge.metrics.clients.count(client, outcome);
        }
    }

    fn sign_call(&self, call: &atis::Signing, sender: &Sender) -> Result<Made, atis::Refusal> {
        let allowed = sender.may_sign(&call.orig, call.attest);
        let is_lowered = allowed.as_ref().is_ok_and(|allowed| allowed.is_lowered());
        let made = allowed.and_then(|allowed| {
            let origid = match (&call.origid, sender.origid()) {
                (Some(origid), _) => origid.clone(),
                (None, Some(origid)) => origid.into(),
                (None, None) => new_origid()?,
            };
            let wanted = Call {
                orig: &call.orig,
                message: &call.message,
                iat: self.moment(call.time),
                origid: &origid,
                attest: allowed.attest,
                most: allowed.most,
            };
            self.blocks.as_ref().ok_or(Unsigned::NotOurs)?.load().sign(&wanted)
        });
        self.judge.metrics.sign(made.is_ok());
        Ok(Made { identity: identity(&made?).ok_or(atis::FAILED)?, is_lowered })
    }
}

/// The value of an Identity field, and whether a lower attestation is in it than was wanted.
struct Made {
    identity: String,
    is_lowered: bool,
}

/// A new identifier: a random UUID (RFC 9562, section 5.4).
fn new_origid() -> Result<String, Unsigned> {
    let mut bytes = [0; 16];
    rand_bytes(&mut bytes).map_err(|_| Unsigned::Failed)?;
    Ok(Builder::from_random_bytes(bytes).into_uuid().to_string())
}
