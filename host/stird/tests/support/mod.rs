//! Keys, certificates and folders for tests. Certificates are made by OpenSSL, and so say nothing
//! that the program under test said.
#![allow(dead_code)]
use openssl::asn1::Asn1Time;
use openssl::bn::BigNum;
use openssl::ec::{EcGroup, EcKey};
use openssl::hash::MessageDigest;
use openssl::nid::Nid;
use openssl::pkey::{PKey, Private};
use openssl::x509::extension::{
    AuthorityKeyIdentifier, BasicConstraints, KeyUsage, SubjectKeyIdentifier,
};
use openssl::x509::{X509Builder, X509Extension, X509Name, X509};
use std::path::{Path, PathBuf};
use std::sync::atomic::{AtomicU32, Ordering};
use stird::files::{Anchors, Codes, Sources};

/// 2026-01-01, 00:00:00 UTC; and when certificates are valid unless a test says otherwise.
pub const NOW: i64 = 1_767_225_600;
pub const VALID: (i64, i64) = (NOW - 86_400, NOW + 400 * 86_400);

/// A folder that is removed with all that is in it.
pub struct Folder(pub PathBuf);

impl Folder {
    pub fn new() -> Folder {
        static COUNT: AtomicU32 = AtomicU32::new(0);
        let number = COUNT.fetch_add(1, Ordering::Relaxed);
        let name = format!("stird-test-{}-{number}", std::process::id());
        let path = std::env::temp_dir().join(name);
        std::fs::create_dir_all(&path).expect("a folder");
        Folder(path)
    }

    pub fn path(&self, name: &str) -> PathBuf {
        self.0.join(name)
    }

    /// Puts a file in place by a rename.
    pub fn put(&self, name: &str, bytes: impl AsRef<[u8]>) -> PathBuf {
        let (new, path) = (self.path(&format!("{name}.new")), self.path(name));
        std::fs::write(&new, bytes).expect("a file");
        std::fs::rename(&new, &path).expect("it is renamed");
        path
    }
}

impl Drop for Folder {
    fn drop(&mut self) {
        let _ = std::fs::remove_dir_all(&self.0);
    }
}

/// What a leaf may be used for (RFC 8226, section 9), in DER.
pub enum Authority {
    Code(&'static str),
    Numbers(&'static str, u16),
}

impl Authority {
    fn der(&self) -> Vec<u8> {
        let element = |tag: u8, content: &[u8]| {
            let length = u8::try_from(content.len()).expect("a short one");
            [&[tag, length], content].concat()
        };
        match self {
            Authority::Code(code) => element(0x30, &element(0xA0, &element(0x16, code.as_bytes()))),
            Authority::Numbers(first, count) => {
                let first = element(0x16, first.as_bytes());
                let count = element(0x02, &count.to_be_bytes());
                element(0x30, &element(0xA1, &element(0x30, &[first, count].concat())))
            }
        }
    }
}

/// A certificate with its key.
pub struct Certificate {
    pub key: PKey<Private>,
    pub x509: X509,
}

impl Certificate {
    /// A certificate of an authority: a trust anchor, or one under another.
    pub fn authority(name: &str, issuer: Option<&Certificate>) -> Certificate {
        made(name, issuer, VALID, None)
    }

    /// A leaf.
    pub fn leaf(&self, name: &str, valid: (i64, i64), authority: &Authority) -> Certificate {
        made(name, Some(self), valid, Some(authority))
    }

    pub fn der(&self) -> Vec<u8> {
        self.x509.to_der().expect("DER")
    }

    pub fn pem(&self) -> Vec<u8> {
        self.key.private_key_to_pem_pkcs8().expect("PEM")
    }
}

fn made(
    name: &str,
    issuer: Option<&Certificate>,
    valid: (i64, i64),
    authority: Option<&Authority>,
) -> Certificate {
    let curve = EcGroup::from_curve_name(Nid::X9_62_PRIME256V1).expect("P-256");
    let key = PKey::from_ec_key(EcKey::generate(&curve).expect("a key")).expect("a key");
    let mut builder = X509Builder::new().expect("a builder");
    let build = |builder: &mut X509Builder| -> Result<(), openssl::error::ErrorStack> {
        let mut subject = X509Name::builder()?;
        subject.append_entry_by_text("CN", name)?;
        let subject = subject.build();
        builder.set_version(2)?;
        builder.set_serial_number(&*BigNum::from_u32(7)?.to_asn1_integer()?)?;
        builder.set_subject_name(&subject)?;
        builder.set_issuer_name(issuer.map_or(&*subject, |issuer| issuer.x509.subject_name()))?;
        builder.set_not_before(&*Asn1Time::from_unix(valid.0)?)?;
        builder.set_not_after(&*Asn1Time::from_unix(valid.1)?)?;
        builder.set_pubkey(&key)?;
        let (mut constraints, mut usage) = (BasicConstraints::new(), KeyUsage::new());
        match authority {
            None => (constraints.ca(), usage.key_cert_sign().crl_sign()),
            Some(_) => (&mut constraints, usage.digital_signature()),
        };
        builder.append_extension(constraints.critical().build()?)?;
        builder.append_extension(usage.critical().build()?)?;
        let context = builder.x509v3_context(issuer.map(|issuer| &*issuer.x509), None);
        let holder = SubjectKeyIdentifier::new().build(&context)?;
        let by = issuer.map(|_| AuthorityKeyIdentifier::new().keyid(true).build(&context));
        builder.append_extension(holder)?;
        if let Some(by) = by {
            builder.append_extension(by?)?;
        }
        if let Some(authority) = authority {
            let hex: Vec<String> = authority.der().iter().map(|b| format!("{b:02X}")).collect();
            let value = format!("DER:{}", hex.join(":"));
            let list = X509Extension::new(None, None, "1.3.6.1.5.5.7.1.26", &value)?;
            builder.append_extension(list)?;
        }
        builder.sign(issuer.map_or(&*key, |issuer| &*issuer.key), MessageDigest::sha256())
    };
    build(&mut builder).expect("a certificate");
    Certificate { key, x509: builder.build() }
}

/// The files of a small world: one root, one authority under it, and leaves with codes.
pub struct Files {
    pub folder: Folder,
    pub middle: Certificate,
    pub count: usize,
}

impl Files {
    pub fn new(count: usize) -> Files {
        let folder = Folder::new();
        let root = Certificate::authority("root", None);
        let middle = Certificate::authority("middle", Some(&root));
        folder.put("anchors.der", root.der());
        folder.put("table.txt", "709J 12000000000 10000\n");
        let files = Files { folder, middle, count };
        for number in 0..count {
            files.renew(number);
        }
        files.put_map("");
        files
    }

    /// Puts a new chain in the place of this one.
    pub fn renew(&self, number: usize) {
        let leaf = self.middle.leaf("leaf", VALID, &Authority::Code("709J"));
        let chain = [leaf.der(), self.middle.der()].concat();
        self.folder.put(&format!("{number}.der"), chain);
    }

    /// Puts a map in place: a line for each chain, and these lines.
    pub fn put_map(&self, more: &str) {
        let name = |number| self.folder.path(&format!("{number}.der"));
        let lines =
            (0..self.count).map(|number| format!("{} {}\n", x5u(number), name(number).display()));
        self.folder.put("chains.txt", lines.collect::<String>() + more);
    }

    pub fn sources(&self) -> Sources {
        Sources {
            rules: stir::Settings::default(),
            chains: Some(self.folder.path("chains.txt")),
            anchors: Anchors::Der(self.folder.path("anchors.der")),
            table: Some(self.folder.path("table.txt")),
            codes: Codes::Listed,
            signing: None,
        }
    }
}

pub fn x5u(number: usize) -> String {
    format!("https://certificates.example.org/{number}.cer")
}

/// Makes a FIFO.
pub fn fifo(path: &Path) {
    run(std::process::Command::new("mkfifo").arg(path));
}

/// Runs a command that has to succeed.
pub fn run(command: &mut std::process::Command) {
    let status = command.status().expect("it is started");
    assert!(status.success(), "{command:?}: {status}");
}

/// Whether this process may read what nobody may.
pub fn is_root() -> bool {
    use std::os::unix::fs::MetadataExt;
    std::fs::metadata("/proc/self").expect("Linux").uid() == 0
}

/// Runs this test once more as a user who may read no more than others, if this one may: whether it
/// did. The name is that of the test with its module.
pub fn as_another_user(test: &str) -> bool {
    const AGAIN: &str = "STIRD_TEST_AS_ANOTHER_USER";
    if !is_root() || std::env::var_os(AGAIN).is_some() {
        return false;
    }
    let folder = Folder::new();
    let program = folder.path("test");
    // By a process of its own: what this one writes may stay open in a child that another thread
    // starts meanwhile, and can't be executed then.
    let this = std::env::current_exe().expect("this program");
    run(std::process::Command::new("cp").args([&this, &program]));
    run(std::process::Command::new("setpriv")
        .args(["--reuid=65534", "--regid=65534", "--clear-groups"])
        .arg(&program)
        .args(["--exact", test, "--nocapture"])
        .env(AGAIN, "yes"));
    true
}

/// Numbers that are the same for one seed, from 1 on (xorshift64).
pub struct Dice(pub u64);

impl Dice {
    pub fn below(&mut self, most: usize) -> usize {
        self.0 ^= self.0 << 13;
        self.0 ^= self.0 >> 7;
        self.0 ^= self.0 << 17;
        usize::try_from(self.0 % u64::try_from(most.max(1)).expect("a number")).expect("less")
    }

    /// These bytes, spoilt in one of some ways.
    pub fn spoilt(&mut self, bytes: &[u8]) -> Vec<u8> {
        let mut spoilt = bytes.to_vec();
        for _ in 0..=self.below(4) {
            let at = self.below(spoilt.len() + 1);
            match self.below(7) {
                0 => spoilt.truncate(at),
                1 => spoilt.insert(at, u8::try_from(self.below(256)).expect("a byte")),
                2 if at < spoilt.len() => drop(spoilt.remove(at)),
                3 if at < spoilt.len() => spoilt[at] ^= 1 << self.below(8),
                4 => {
                    let end = (at + self.below(40)).min(spoilt.len());
                    let piece = spoilt[at..end].to_vec();
                    spoilt.splice(at..at, piece);
                }
                5 => spoilt.extend_from_slice(bytes),
                _ => spoilt.splice(at..at, [b'\n', b' ', 0, 0xff, b';', 0x30, 0x82]).for_each(drop),
            }
        }
        spoilt
    }
}
