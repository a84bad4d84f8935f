//! The key of a line of the signing table: a file in PEM, or one in an HSM.
use super::fault::Why;
use super::several::Files;
use super::signing_line::BlockFault;
use crate::lines::split;
use arc_swap::ArcSwap;
use std::collections::HashMap;
use std::ffi::OsString;
use std::path::{Path, PathBuf};
use std::sync::{Arc, Mutex};
use stir_trust::locks::Held;
use stir_trust::{HsmFault, Key, KeyFault, KeyUri, SignFault};

/// The most bytes of a key, and of a password or a PIN.
const MOST_KEY: usize = 49_152;
const MOST_SECRET: usize = 4096;

/// What the name of a key's file has after it for that of its password.
const PASSWORD: &str = ".password";

/// The permissions by which others may read a file, or change it (chmod(1)): the owner's group may
/// read it.
const OPEN: u32 = 0o027;

/// Something that nobody but its owner may read.
#[derive(Clone, Copy, Debug, PartialEq, Eq, PartialOrd, Ord)]
pub(super) enum Secret {
    /// A private key.
    Key,
    /// A password of a key, or a PIN.
    Password,
}

/// Why a key didn't sign the last time, if it didn't.
pub(super) type Failing = Mutex<Option<SignFault>>;

/// A key of a line.
pub(super) struct SigningKey {
    key: Key,
    /// As the line names it.
    name: String,
    /// What of it others may read or change.
    pub open: Vec<(PathBuf, Secret)>,
    /// One for all readings of the key: calls may be signed with the one of before until this one
    /// takes its place.
    failing: ArcSwap<Failing>,
}

impl SigningKey {
    /// The key that a line names, by its file or by a URI. What is read for it are some of these
    /// files.
    pub(super) fn read(name: &str, files: &mut Files) -> Result<SigningKey, BlockFault> {
        let mut read = Read { files, open: Vec::new() };
        let key = match KeyUri::is_one(name) {
            true => read.hsm(name)?,
            false => read.pem(Path::new(name))?,
        };
        let (name, open, failing) = (name.into(), read.open, ArcSwap::default());
        Ok(SigningKey { key, name, open, failing })
    }

    /// Its public key, as an uncompressed point.
    pub(super) fn public(&self) -> &[u8; 65] {
        self.key.public()
    }

    /// Whether it is in an HSM, so that signing takes as long as that does.
    pub(super) fn is_in_hsm(&self) -> bool {
        self.key.is_in_hsm()
    }

    /// The signature over a digest. For an HSM is waited.
    pub(super) fn sign(&self, digest: &[u8; 32]) -> Result<[u8; 64], SignFault> {
        let made = self.key.sign(digest);
        let failing = self.failing.load();
        let mut failing = failing.lock().held();
        match &made {
            Ok(_) => {
                if failing.take().is_some() {
                    tracing::warn!("{}: it signs again", self.name);
                }
            }
            Err(fault) => {
                if failing.as_ref() != Some(fault) {
                    tracing::warn!("{}: nothing is signed with it now: {fault}", self.name);
                }
                *failing = Some(fault.clone());
            }
        }
        made
    }

    /// Its name, and why it didn't sign the last time, if it didn't: now, and from now on.
    pub(super) fn failing(&self) -> (&str, Arc<Failing>) {
        (&self.name, self.failing.load_full())
    }

    /// It may be one of these keys, read anew. What a call says of either holds for both then.
    pub(super) fn go_on_from(&self, before: &HashMap<&str, Arc<Failing>>) {
        if let Some(failing) = before.get(self.name.as_str()) {
            self.failing.store(Arc::clone(failing));
        }
    }

    /// What is to be told of it, if it didn't sign the last time.
    pub(super) fn note(&self) -> Option<String> {
        let failing = self.failing.load();
        let failing = failing.lock().held();
        failing
            .as_ref()
            .map(|fault| format!("{}: it didn't sign the last time: {fault}", self.name))
    }
}

/// Files that are read, and those of them that others may read or change.
struct Read<'a> {
    files: &'a mut Files,
    open: Vec<(PathBuf, Secret)>,
}

impl Read<'_> {
    fn file(&mut self, path: &Path, most: usize, secret: Secret) -> Result<Vec<u8>, Why> {
        let file = self.files.read(path, most)?;
        if file.mode & OPEN != 0 {
            self.open.push((path.into(), secret));
        }
        Ok(file.bytes)
    }

    /// The first line of a file.
    fn secret(&mut self, path: &Path) -> Result<Vec<u8>, Why> {
        let text = self.file(path, MOST_SECRET, Secret::Password)?;
        let first = split(&text).next().unwrap_or_default().to_vec();
        Ok(first)
    }

    /// A key in PEM. One that is encrypted is opened by the password in the file beside it.
    fn pem(&mut self, path: &Path) -> Result<Key, BlockFault> {
        let pem = self.file(path, MOST_KEY, Secret::Key).map_err(|why| unread(path, why))?;
        let taken = match Key::from_pem(&pem) {
            Err(KeyFault::Encrypted) => {
                let password = [path.as_os_str(), PASSWORD.as_ref()].into_iter();
                let beside = PathBuf::from(password.collect::<OsString>());
                match self.secret(&beside) {
                    Ok(password) => Key::from_pem_by(&pem, &password),
                    Err(Why::Missing) => Err(KeyFault::Encrypted),
                    Err(why) => return Err(unread(&beside, why)),
                }
            }
            taken => taken,
        };
        taken.map_err(|fault| BlockFault::Key { file: path.into(), fault })
    }

    /// A key in an HSM. If that isn't there now, or fails, it is asked again at the next look; not
    /// with a PIN that it refused.
    fn hsm(&mut self, name: &str) -> Result<Key, BlockFault> {
        let uri: KeyUri =
            name.parse().map_err(|fault| BlockFault::Uri { uri: name.into(), fault })?;
        let pin = match uri.pin_source() {
            Some(path) => Some(self.secret(path).map_err(|why| unread(path, why))?),
            None => None,
        };
        Key::from_hsm(&uri, pin.as_deref()).map_err(|fault| {
            if !matches!(fault, KeyFault::Hsm(SignFault::Hsm(HsmFault::Pin(_)))) {
                self.files.read_again();
            }
            BlockFault::Key { file: name.into(), fault }
        })
    }
}

fn unread(file: &Path, why: Why) -> BlockFault {
    BlockFault::File { file: file.into(), why: Box::new(why) }
}

#[cfg(test)]
mod tests {
    use super::*;
    use openssl::ec::{EcGroup, EcKey};
    use openssl::nid::Nid;

    #[test]
    fn a_key_that_is_read_anew_signs_again_as_soon_as_the_one_of_before_does() {
        let path = std::env::temp_dir().join(format!("stird-key-{}", std::process::id()));
        let curve = EcGroup::from_curve_name(Nid::X9_62_PRIME256V1).expect("a curve");
        let pem = EcKey::generate(&curve).and_then(|key| key.private_key_to_pem());
        std::fs::write(&path, pem.expect("a key")).expect("a file");
        let name = path.to_str().expect("text");
        let read = || SigningKey::read(name, &mut Files::default()).expect("it is a key");
        let (old, new) = (read(), read());
        *old.failing().1.lock().held() = Some(SignFault::Late);
        new.go_on_from(&HashMap::from([old.failing()]));
        assert!(new.note().is_some_and(|note| note.ends_with("gave no answer in time")));
        assert!(old.sign(&[7; 32]).is_ok());
        assert_eq!((old.note(), new.note()), (None, None));
        std::fs::remove_file(&path).expect("it is removed");
    }
}
