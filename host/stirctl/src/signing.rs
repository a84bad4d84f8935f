//! The command `sign`: lines, and keys.

use crate::answers::is_key_name;
use crate::certificates::{leaf_first, Certificate};
use crate::files::{self, hex, lines, push_hex, says_nothing};
use crate::input::{name_of, whole};
use crate::messages;
use crate::sink::{Sink, STDOUT};
use crate::words::certificates::Sign;
use crate::{say, Ended, Fault};
use openssl::bn::BigNumContext;
use openssl::ec::PointConversionForm;
use openssl::nid::Nid;
use openssl::x509::X509Ref;
use std::collections::HashSet;
use stir_trust::{Key, KeyFault, KeyUri, SignFault, UriFault};

/// The most bytes of a file of lines, and of a key or a password.
const MOST_BYTES: u64 = 536_870_912;
pub(crate) const LONGEST_KEY: u64 = 1 << 20;

/// Signs a message, or what lines ask for; then the status is 0.
pub(crate) fn sign(words: &Sign) -> Ended {
    match (&words.of.message, &words.name) {
        (Some(message), _) => messages::sign(words, message),
        (None, name) => sign_lines(words, name.as_deref().unwrap_or_default()),
    }
}

/// Signs what lines ask for of the key of this name.
fn sign_lines(words: &Sign, name: &str) -> Ended {
    if !is_key_name(name.as_bytes()) {
        return Err(Fault::Words(format!("'{name}' can be no name of a key")));
    }
    let key = read_key(&words.key, words.password_file.as_deref())?;
    if let Some(leaf) = &words.leaf {
        is_key_of(leaf, &leaf_first(leaf)?, &key, &words.key)?;
        say(&format!("{} is the key of {leaf}", words.key));
    }
    let mut asked = Vec::new();
    for word in &words.files {
        asked.extend(asked_by(word)?);
    }
    let (mut out, mut signed) = (Sink::open(STDOUT)?, HashSet::new());
    let own = asked.iter().filter(|(of, _)| of == name.as_bytes());
    let count = own.clone().count();
    for (name, digest) in own.filter(|(_, digest)| signed.insert(*digest)) {
        let signature = key.sign(digest).map_err(|fault| unsigned(&words.key, fault))?;
        let mut line = [b"sign ", &name[..], b" "].concat();
        push_hex(&mut line, digest);
        line.push(b' ');
        push_hex(&mut line, &signature);
        line.push(b'\n');
        out.put(|out| out.write_all(&line))?;
    }
    out.commit()?;
    if count < asked.len() {
        say(&format!("{} lines of other keys passed over", asked.len() - count));
    }
    Ok(0)
}

/// The private key of a file, opened by its password if there is one; or that of an HSM.
pub(crate) fn read_key(name: &str, password_file: Option<&str>) -> Result<Key, Fault> {
    let secret = |name: &str| {
        let text = files::whole(name, LONGEST_KEY)?;
        let first = lines(&text).next().map_or(&b""[..], |(_, line)| line);
        Ok::<Vec<u8>, Fault>(first.to_vec())
    };
    let password = password_file.map(secret).transpose()?;
    let key = if KeyUri::is_one(name) {
        let refused = |fault: UriFault| Fault::Words(format!("{name}: {fault}"));
        let uri: KeyUri = name.parse().map_err(refused)?;
        let source = uri.pin_source().map(|path| secret(&path.to_string_lossy()));
        let pin = source.transpose()?.or(password);
        Key::from_hsm(&uri, pin.as_deref())
    } else {
        let pem = files::whole(name, LONGEST_KEY)?;
        password.map_or_else(|| Key::from_pem(&pem), |password| Key::from_pem_by(&pem, &password))
    };
    key.map_err(|fault| {
        let why = match fault {
            KeyFault::NoKey => "no private key in PEM".into(),
            KeyFault::Encrypted => {
                "the key is encrypted; --password-file FILE names a file with its password".into()
            }
            KeyFault::OtherPassphrase => "no private key in PEM that this password opens".into(),
            KeyFault::OtherKind => "no key on P-256, which ES256 wants".into(),
            other => other.to_string(),
        };
        Fault::Input(name.into(), why)
    })
}

/// Why a key signs nothing: OpenSSL has no memory, or an HSM fails.
pub(crate) fn unsigned(name: &str, fault: SignFault) -> Fault {
    match fault {
        SignFault::OpenSsl(_) => Fault::Memory,
        other => Fault::Input(name.into(), other.to_string()),
    }
}

/// That the key isn't that of the first of these certificates is a fault.
pub(crate) fn is_key_of(
    leaf: &str,
    certificates: &[Certificate],
    key: &Key,
    name: &str,
) -> Result<(), Fault> {
    let point = certificates.first().and_then(|certificate| point_of(&certificate.read));
    if point.as_deref() == Some(key.public()) {
        return Ok(());
    }
    let why = "whoever verifies its signatures refuses them by rule 16";
    Err(Fault::Input(name.into(), format!("it isn't the key of {leaf}: {why}")))
}

/// The point of a certificate's key, if it is one of P-256.
pub(crate) fn point_of(certificate: &X509Ref) -> Option<Vec<u8>> {
    let key = certificate.public_key().ok()?.ec_key().ok()?;
    let is_it = key.group().curve_name() == Some(Nid::X9_62_PRIME256V1);
    let mut numbers = BigNumContext::new().ok().filter(|_| is_it)?;
    let form = PointConversionForm::UNCOMPRESSED;
    key.public_key().to_bytes(key.group(), form, &mut numbers).ok()
}

type Asked = (Vec<u8>, [u8; 32]);

/// The names and digests of a file's lines.
fn asked_by(word: &str) -> Result<Vec<Asked>, Fault> {
    let text = whole(word, MOST_BYTES)?;
    let name = name_of(word);
    let lines = lines(&text).filter(|(_, line)| !says_nothing(line));
    lines
        .map(|(number, line)| {
            asked(line).ok_or_else(|| {
                let why = "no line `no signature NAME DIGEST`".into();
                Fault::Input(format!("{name}:{number}"), why)
            })
        })
        .collect()
}

/// The name and the digest of a line `no signature NAME DIGEST`.
fn asked(line: &[u8]) -> Option<Asked> {
    let mut words = line.strip_prefix(b"no signature ")?.split(|byte| *byte == b' ');
    let (name, digits, None) = (words.next()?, words.next()?, words.next()) else { return None };
    let mut digest = [0; 32];
    hex(digits, &mut digest)?;
    is_key_name(name).then(|| (name.to_vec(), digest))
}
