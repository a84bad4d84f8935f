//! A session on a token, and the keys that it finds there.
use crate::calls::{Class, Kind, Object, SessionHandle};
use crate::fault::HsmFault;
use crate::module::Module;
use crate::uri::KeyUri;
use std::sync::Arc;

/// The identifier of P-256, as an attribute of a key has it (RFC 5480, section 2.1.1.1).
const P_256: [u8; 10] = [0x06, 0x08, 0x2A, 0x86, 0x48, 0xCE, 0x3D, 0x03, 0x01, 0x07];

/// What an OCTET STRING of a point of P-256 begins with (PKCS #11 2.40, section 2.3.3).
const OCTETS: [u8; 2] = [0x04, 65];

/// The number of elliptic curves among kinds of keys.
const CKK_EC: std::ffi::c_ulong = 3;

/// A session on a token. It is for one thread at a time, and closed when it is dropped.
pub struct Session {
    module: Arc<Module>,
    handle: SessionHandle,
    started: u64,
}

/// A private key of P-256 on a token, as a session knows it, and its public key.
#[derive(Clone, Debug, PartialEq, Eq)]
pub struct HsmKey {
    object: Object,
    public: [u8; 65],
}

impl HsmKey {
    /// Its public key, as an uncompressed point (SEC 1, section 2.3.3).
    pub fn public(&self) -> &[u8; 65] {
        &self.public
    }
}

impl Session {
    pub(crate) fn new(module: Arc<Module>, handle: SessionHandle, started: u64) -> Session {
        Session { module, handle, started }
    }

    pub(crate) fn handle(&self) -> SessionHandle {
        self.handle
    }

    /// The private key that a URI names, with its public key: that of the same identifier.
    ///
    /// # Errors
    ///
    /// No private key or several have what the URI says, it isn't one of P-256, no public key is
    /// beside it, or the token fails.
    ///
    /// ```no_run
    /// # let uri: stir_hsm::KeyUri = "pkcs11:object=k1".parse()?;
    /// # let session = stir_hsm::Module::load(None)?.session(&uri, None)?;
    /// assert_eq!(session.key(&uri)?.public()[0], 4);
    /// # Ok::<(), Box<dyn std::error::Error>>(())
    /// ```
    pub fn key(&self, uri: &KeyUri) -> Result<HsmKey, HsmFault> {
        let (functions, _using) = self.module.functions(self.started)?;
        let mut having = vec![(Kind::Class, Class::PrivateKey.value().to_vec())];
        having.extend(uri.object.iter().map(|label| (Kind::Label, label.clone())));
        having.extend(uri.id.iter().map(|id| (Kind::Id, id.clone())));
        let object = match functions.find(self.handle, &having)?[..] {
            [] => return Err(HsmFault::NoKey),
            [object] => object,
            _ => return Err(HsmFault::SeveralKeys),
        };
        let value = |of, kind| functions.attribute(self.handle, of, kind);
        if value(object, Kind::KeyType)? != CKK_EC.to_ne_bytes()
            || value(object, Kind::Params)? != P_256
        {
            return Err(HsmFault::OtherKind);
        }
        let public = [
            (Kind::Class, Class::PublicKey.value().to_vec()),
            (Kind::Id, value(object, Kind::Id)?),
            (Kind::KeyType, CKK_EC.to_ne_bytes().to_vec()),
        ];
        let [public] = functions.find(self.handle, &public)?[..] else {
            return Err(HsmFault::NoPublic);
        };
        let public = point(&value(public, Kind::Point)?).ok_or(HsmFault::NoPublic)?;
        Ok(HsmKey { object, public })
    }

    /// The signature over a digest: r and s, 32 bytes each (RFC 7518, section 3.4).
    ///
    /// # Errors
    ///
    /// The session has ended, or the token fails.
    ///
    /// ```no_run
    /// # let uri: stir_hsm::KeyUri = "pkcs11:object=k1".parse()?;
    /// # let session = stir_hsm::Module::load(None)?.session(&uri, None)?;
    /// let signature: [u8; 64] = session.sign(&session.key(&uri)?, &[7; 32])?;
    /// # Ok::<(), Box<dyn std::error::Error>>(())
    /// ```
    pub fn sign(&self, key: &HsmKey, digest: &[u8; 32]) -> Result<[u8; 64], HsmFault> {
        let (functions, _using) = self.module.functions(self.started)?;
        functions.sign(self.handle, key.object, digest)
    }
}

impl Drop for Session {
    fn drop(&mut self) {
        // What has ended needn't be closed, and a token that fails can't close it.
        if let Ok((functions, _using)) = self.module.functions(self.started) {
            drop(functions.close(self.handle));
        }
    }
}

/// The point of an attribute: in an OCTET STRING, or bare, as some modules have it.
fn point(value: &[u8]) -> Option<[u8; 65]> {
    let bare = value.strip_prefix(&OCTETS).unwrap_or(value);
    bare.try_into().ok().filter(|point: &[u8; 65]| point[0] == 4)
}

#[cfg(test)]
mod tests {
    use super::*;

    #[test]
    fn a_point_stands_in_octets_or_bare() {
        let bare: [u8; 65] = std::array::from_fn(|at| if at == 0 { 4 } else { at as u8 });
        assert_eq!(point(&bare), Some(bare));
        assert_eq!(point(&[&OCTETS[..], &bare].concat()), Some(bare));
        for other in [&bare[..64], &[2; 65], &[], &[4, 65]] {
            assert_eq!(point(other), None, "{other:?}");
        }
    }
}
