//! The command `request`: a key, a request for a certificate, and what came back.

mod checking;
mod list;
mod pkcs10;
mod tokens;

use crate::files::{self, lines};
use crate::signing::{read_key, LONGEST_KEY};
use crate::sink::Sink;
use crate::words::request::Request;
use crate::{say, Ended, Fault};
use openssl::ec::{EcGroup, EcKey};
use openssl::error::ErrorStack;
use openssl::nid::Nid;
use openssl::pkey::PKey;
use openssl::symm::Cipher;
use std::fs::OpenOptions;
use std::io::{ErrorKind, Write};
use std::os::unix::fs::OpenOptionsExt;
use std::path::Path;
use stir_trust::{Key, KeyUri};

/// Does what the words say: a request, or a look at what came back.
pub(crate) fn request(words: &Request) -> Ended {
    if let Some(chain) = &words.check {
        return checking::check(words, chain);
    }
    let list = list::of(words)?;
    if !KeyUri::is_one(&words.key) && !Path::new(&words.key).exists() {
        make_key(&words.key, words.password_file.as_deref())?;
    }
    let key = read_key(&words.key, words.password_file.as_deref())?;
    let pem = pkcs10::request(&key, &words.subject, &list)?;
    write(&words.to, &pem)?;
    if let Some(name) = &words.identifier {
        write(name, &tokens::identifier(&list))?;
    }
    if let (Some(name), Some(account)) = (&words.token, &words.account) {
        write(name, &tokens::claim(&list, account)?)?;
    }
    Ok(0)
}

/// Makes a key in a file that isn't there, which its owner alone may read.
fn make_key(name: &str, password_file: Option<&str>) -> Result<(), Fault> {
    let password = password_file.map(|name| files::whole(name, LONGEST_KEY)).transpose()?;
    let pem = new_key(password.as_deref()).map_err(|_| Fault::Memory)?;
    let file = OpenOptions::new().write(true).create_new(true).mode(0o600).open(name);
    let written = file.and_then(|mut file| {
        file.write_all(&pem)?;
        file.sync_all()
    });
    match written {
        Ok(()) => say(&format!("{name}: a new private key; keep it to its owner")),
        // Somebody was quicker, and his key is taken.
        Err(error) if error.kind() == ErrorKind::AlreadyExists => {}
        Err(error) => return Err(Fault::write(name, &error)),
    }
    Ok(())
}

/// A new key in PEM (PKCS #8), encrypted by the first line of a text if there is one.
fn new_key(password: Option<&[u8]>) -> Result<Vec<u8>, ErrorStack> {
    let curve = EcGroup::from_curve_name(Nid::X9_62_PRIME256V1)?;
    let key = PKey::from_ec_key(EcKey::generate(&curve)?)?;
    match password {
        None => key.private_key_to_pem_pkcs8(),
        Some(text) => {
            let password = lines(text).next().map_or(&b""[..], |(_, line)| line);
            key.private_key_to_pem_pkcs8_passphrase(Cipher::aes_256_cbc(), password)
        }
    }
}

fn write(name: &str, bytes: &[u8]) -> Result<(), Fault> {
    let mut out = Sink::open(name)?;
    out.put(|out| out.write_all(bytes))?;
    out.commit()
}

/// The public key of a key, in DER (RFC 5280, section 4.1.2.7).
fn public_of(key: &Key) -> Result<Vec<u8>, ErrorStack> {
    use openssl::bn::BigNumContext;
    use openssl::ec::EcPoint;
    let curve = EcGroup::from_curve_name(Nid::X9_62_PRIME256V1)?;
    let point = EcPoint::from_bytes(&curve, key.public(), &mut *BigNumContext::new()?)?;
    EcKey::from_public_key(&curve, &point)?.public_key_to_der()
}
