//! A thread of a token of an HSM: its session, the keys that it found, and what it does if the
//! token drops the session.
use super::desk::{count_anew, Job, Made, Token};
use openssl::bn::{BigNum, BigNumContext};
use openssl::ec::{EcGroup, EcKey, EcPoint};
use openssl::ecdsa::EcdsaSig;
use openssl::error::ErrorStack;
use openssl::nid::Nid;
use openssl::pkey::Public;
use std::collections::HashMap;
use std::sync::Arc;
use std::time::Duration;
use stir_hsm::{HsmFault, HsmKey, KeyUri, Session};

/// The most keys of a token that a session remembers.
const MOST_KEYS: usize = 1024;

/// How often and how long is waited until no other thread calls the module.
const TRIES: u32 = 20;
const PAUSE: Duration = Duration::from_millis(10);

/// What a thread of a token has.
pub(super) struct Worker {
    token: Arc<Token>,
    session: Option<Open>,
}

/// An open session, with the keys that it found.
struct Open {
    session: Session,
    keys: HashMap<Arc<KeyUri>, (HsmKey, EcKey<Public>)>,
}

impl Worker {
    /// One without a session yet.
    pub(super) fn new(token: Arc<Token>) -> Worker {
        Worker { token, session: None }
    }

    /// Signs. A session that was open before and fails is opened anew, once; if no session can be
    /// opened then, the module is started anew, once.
    pub(super) fn sign(&mut self, job: &Job) -> Result<Made, HsmFault> {
        let starts = self.token.module.starts();
        let was_open = self.session.is_some();
        let mut came = self.signed(job);
        if was_open && may_pass(&came) {
            count_anew();
            self.session = None;
            came = self.signed(job);
        }
        // A table that is being read may name no key of the token: for that nothing is ended.
        let is_known = job.public.is_some() || !matches!(&came, Err(HsmFault::NoKey));
        if is_known && may_pass(&came) {
            self.session = None;
            if self.starts_anew(starts) {
                came = self.signed(job);
            }
        }
        if came.is_err() {
            self.session = None;
        }
        came
    }

    /// Whether the module was started anew.
    fn starts_anew(&self, since: u64) -> bool {
        (0..TRIES).any(|attempt| {
            std::thread::sleep(PAUSE * attempt.min(1));
            self.token.module.start_anew(since).is_ok()
        })
    }

    /// Signs by the session, which is opened if there is none.
    fn signed(&mut self, job: &Job) -> Result<Made, HsmFault> {
        let open = match &mut self.session {
            Some(open) => open,
            none => none.insert(Open { session: opened(&self.token)?, keys: HashMap::new() }),
        };
        open.learn(&job.uri)?;
        let (key, public) = open.keys.get(&job.uri).ok_or(HsmFault::NoKey)?;
        if job.public.is_some_and(|wanted| wanted != *key.public()) {
            return Err(HsmFault::BadSignature);
        }
        let signature = open.session.sign(key, &job.digest)?;
        if !is_good(&signature, &job.digest, public).unwrap_or(false) {
            return Err(HsmFault::BadSignature);
        }
        Ok(Made { signature, public: *key.public() })
    }
}

impl Open {
    /// Finds the key of a URI, if it wasn't found before.
    fn learn(&mut self, uri: &Arc<KeyUri>) -> Result<(), HsmFault> {
        if self.keys.contains_key(uri) {
            return Ok(());
        }
        if self.keys.len() >= MOST_KEYS {
            self.keys.clear();
        }
        let key = self.session.key(uri)?;
        let public = public_key(key.public()).map_err(|_| HsmFault::NoPublic)?;
        self.keys.insert(Arc::clone(uri), (key, public));
        Ok(())
    }
}

/// Whether another session may do better.
fn may_pass(came: &Result<Made, HsmFault>) -> bool {
    came.as_ref().is_err_and(HsmFault::may_pass)
}

/// A session on a token, unless it refused the PIN before.
fn opened(token: &Token) -> Result<Session, HsmFault> {
    if let Some(fault) = token.refused.get() {
        return Err(fault.clone());
    }
    let session = token.module.session(&token.uri, token.pin.as_deref());
    if let Err(fault @ HsmFault::Pin(_)) = &session {
        drop(token.refused.set(fault.clone()));
    }
    session
}

fn public_key(point: &[u8; 65]) -> Result<EcKey<Public>, ErrorStack> {
    let curve = EcGroup::from_curve_name(Nid::X9_62_PRIME256V1)?;
    let point = EcPoint::from_bytes(&curve, point, &mut *BigNumContext::new()?)?;
    EcKey::from_public_key(&curve, &point)
}

/// Whether a signature is good: what a token signed by another key doesn't go out.
fn is_good(
    signature: &[u8; 64],
    digest: &[u8; 32],
    key: &EcKey<Public>,
) -> Result<bool, ErrorStack> {
    let (r, s) = signature.split_at(32);
    let (r, s) = (BigNum::from_slice(r)?, BigNum::from_slice(s)?);
    EcdsaSig::from_private_components(r, s)?.verify(digest, key)
}
