//! Revocation lists: which are taken, and which certificates of a chain they revoke.
mod lists;

use lists::{
    certificate, element, entry, extension, indirect, issuer, name, number, point, reason,
    sequence, time, Key, Made, PRINTABLE, UTF8,
};
use openssl::base64::encode_block;
use openssl::hash::MessageDigest;
use openssl::nid::Nid;
use stir_trust::revocation::{List, ListFault, Lists, Signers, MOST_AUTHORITIES, MOST_BYTES};

/// 2026-06-01, 2026-06-15 and 2026-07-01, by `date -u -d DAY +%s`.
const JUNE: u64 = 1_780_272_000;
const MIDDLE: u64 = 1_781_481_600;
const JULY: u64 = 1_782_864_000;

/// Two authorities, whose certificates have the same serial numbers, and one that signs lists.
struct World {
    a: Key,
    b: Key,
    agency: Key,
    signers: Signers,
}

fn name_of(who: &str) -> Vec<u8> {
    name("STI", who, UTF8)
}

impl World {
    fn new() -> World {
        let agency = Key::p256();
        let signers = signers(&agency);
        World { a: Key::p256(), b: Key::p256(), agency, signers }
    }

    /// The list for several authorities with these entries.
    fn list(&self, entries: &[Vec<u8>]) -> List {
        let list = Made::new(&name_of("Agency"), entries).signed(&self.agency);
        List::read(&list, &self.signers).expect("a list")
    }

    /// The parts of a certificate with this issuer and serial number, as the library reads them.
    fn chain(&self, issuer: &[u8], by: &Key, serial: &[u8]) -> stir::Chain {
        let leaf = certificate(&name_of("Carrier"), issuer, serial, &Key::p256(), by);
        let authority = certificate(issuer, issuer, &[1], by, by);
        let chain = [leaf, authority].map(|it| it.to_der().expect("DER")).concat();
        let world = stir::World::open(&stir::Settings::default(), b"", b"").expect("a world");
        world.chain(&chain).expect("a chain")
    }
}

/// The agency as the signer that an operator gives.
fn signers(key: &Key) -> Signers {
    let agency = name_of("Agency");
    let pem = certificate(&agency, &agency, &[9], key, key).to_pem().expect("PEM");
    Signers::from_pem(&pem).expect("a signer")
}

/// The certificates that are revoked, by their numbers and seconds.
fn revoked(list: List, chain: &stir::Chain) -> Vec<(u32, u64)> {
    let mut lists = Lists::default();
    lists.add(list);
    let found = lists.revoked(chain).expect("it is known");
    found.iter().map(|revoked| (revoked.certificate, revoked.since)).collect()
}

#[test]
fn a_certificate_is_revoked_by_authority_and_serial_number() {
    let world = World::new();
    let (a, b) = (name_of("A"), name_of("B"));
    let entries = [
        entry(&[0x10, 0x02], &time(6, 1), &[issuer(&a), reason(1)]),
        // This one has the authority of the entry before it.
        entry(&[0x10, 0x03], &time(6, 15), &[reason(4)]),
        entry(&[0x10, 0x04], &time(7, 1), &[issuer(&b)]),
    ];
    for (authority, key, serial, found) in [
        (&a, &world.a, [0x10, 0x01], None),
        (&a, &world.a, [0x10, 0x02], Some(JUNE)),
        (&a, &world.a, [0x10, 0x03], Some(MIDDLE)),
        (&a, &world.a, [0x10, 0x04], None),
        (&b, &world.b, [0x10, 0x02], None),
        (&b, &world.b, [0x10, 0x03], None),
        (&b, &world.b, [0x10, 0x04], Some(JULY)),
    ] {
        let chain = world.chain(authority, key, &serial);
        let wanted: Vec<_> = found.into_iter().map(|since| (1, since)).collect();
        assert_eq!(revoked(world.list(&entries), &chain), wanted, "{serial:?}");
    }
}

#[test]
fn an_authority_is_revoked_too_and_its_digest_is_that_of_its_question() {
    let world = World::new();
    let root = name_of("Root");
    let (root_key, own) = (Key::p256(), Key::p256());
    let leaf = certificate(&name_of("Carrier"), &name_of("A"), &[5], &own, &world.a);
    let authority = certificate(&name_of("A"), &root, &[2], &world.a, &root_key);
    let chain = [&leaf, &authority].map(|it| it.to_der().expect("DER")).concat();
    let opened = stir::World::open(&stir::Settings::default(), b"", b"").expect("a world");
    let chain = opened.chain(&chain).expect("a chain");
    let mut lists = Lists::default();
    lists.add(world.list(&[entry(&[2], &time(6, 1), &[issuer(&root)])]));
    let found = lists.revoked(&chain).expect("it is known");
    assert_eq!(found.len(), 1);
    assert_eq!((found[0].certificate, found[0].since), (2, JUNE));
    // The signed part is the first element of a certificate.
    let der = authority.to_der().expect("DER");
    let head = |der: &[u8]| match der[1] {
        0x81 => (3, usize::from(der[2])),
        0x82 => (4, usize::from(der[2]) * 256 + usize::from(der[3])),
        other => panic!("a length of {other}"),
    };
    let signed = &der[head(&der).0..];
    let (start, length) = head(signed);
    assert_eq!(found[0].digest, openssl::sha::sha256(&signed[..start + length]));
}

#[test]
fn names_are_compared_without_regard_to_the_type_of_a_string_case_and_blanks() {
    let world = World::new();
    for (listed, is_same) in [
        (name("STI", "Issuing A", UTF8), true),
        (name("STI", "Issuing A", PRINTABLE), true),
        (name("sti", "ISSUING a", PRINTABLE), true),
        (name("STI", "  Issuing   A ", UTF8), true),
        (name("STI", "Issuing B", UTF8), false),
        (name("STI", "IssuingA", UTF8), false),
        (name("STI Issuing", "A", UTF8), false),
    ] {
        let chain = world.chain(&name("STI", "Issuing A", UTF8), &world.a, &[5]);
        let list = world.list(&[entry(&[5], &time(6, 1), &[issuer(&listed)])]);
        assert_eq!(!revoked(list, &chain).is_empty(), is_same, "{listed:?}");
    }
}

#[test]
fn a_list_of_one_authority_names_its_own_certificates() {
    let world = World::new();
    let a = name_of("A");
    let pem = certificate(&a, &a, &[1], &world.a, &world.a).to_pem().expect("PEM");
    let signers = Signers::from_pem(&pem).expect("a signer");
    let mut made = Made::new(&a, &[entry(&[5], &time(6, 1), &[])]);
    for extensions in [vec![], vec![number(&[1])], vec![point(&[&element(0x81, &[&[0xff]])])]] {
        made.extensions = extensions;
        let list = List::read(&made.signed(&world.a), &signers).expect("a list");
        assert_eq!(revoked(list, &world.chain(&a, &world.a, &[5])), [(1, JUNE)]);
        let list = List::read(&made.signed(&world.a), &signers).expect("a list");
        assert!(revoked(list, &world.chain(&name_of("B"), &world.b, &[5])).is_empty());
    }
    // Of the first version, without extensions.
    made.extensions = Vec::new();
    made.version = Vec::new();
    assert!(List::read(&made.signed(&world.a), &signers).is_ok());
}

#[test]
fn a_list_is_taken_from_its_signer_alone() {
    let world = World::new();
    let entries = [entry(&[5], &time(6, 1), &[issuer(&name_of("A"))])];
    let made = Made::new(&name_of("Agency"), &entries);
    let read = |list: &[u8]| List::read(list, &world.signers);
    let good = made.signed(&world.agency);
    assert!(read(&good).is_ok());
    assert!(matches!(read(&made.signed(&world.a)), Err(ListFault::Forged(_))));
    let other = Made::new(&name_of("A"), &entries).signed(&world.agency);
    assert!(matches!(read(&other), Err(ListFault::Stranger(_))));
    // Each changed byte: another name, another signature, or no list at all.
    for at in 0..good.len() {
        let mut changed = good.clone();
        changed[at] ^= 1;
        assert!(read(&changed).is_err(), "byte {at}");
    }
    for length in 0..good.len() {
        assert!(matches!(read(&good[..length]), Err(ListFault::Form)), "{length} bytes");
    }
    assert!(matches!(read(&[&good[..], &[0]].concat()), Err(ListFault::Form)));
    // The second of two signers of one name.
    let pem = |key: &Key| {
        let agency = name_of("Agency");
        certificate(&agency, &agency, &[9], key, key).to_pem().expect("PEM")
    };
    let both = [pem(&Key::p256()), pem(&world.agency)].concat();
    assert!(List::read(&good, &Signers::from_pem(&both).expect("signers")).is_ok());
}

#[test]
fn signers_have_keys_of_ecdsa_or_rsa_and_digests_of_256_bits_or_more() {
    let made = Made::new(&name_of("Agency"), &[]);
    let (p256, p384) = (Nid::X9_62_PRIME256V1, Nid::SECP384R1);
    let sha1 = Key::ecdsa(p256, 1, MessageDigest::sha1());
    for (key, is_taken) in [
        (Key::p256(), true),
        (Key::ecdsa(p256, 3, MessageDigest::sha384()), true),
        (Key::ecdsa(p384, 3, MessageDigest::sha384()), true),
        (Key::ecdsa(p384, 4, MessageDigest::sha512()), true),
        (Key::rsa(11, MessageDigest::sha256()), true),
        (Key::rsa(13, MessageDigest::sha512()), true),
        (Key::rsa(5, MessageDigest::sha1()), false),
        // SHA-1 under the name of SHA-256, and ECDSA under that of RSA.
        (sha1.called(&Key::p256()), false),
        (sha1, false),
        (Key::p256().called(&Key::rsa(11, MessageDigest::sha256())), false),
    ] {
        let came = List::read(&made.signed(&key), &signers(&key));
        assert_eq!(came.is_ok(), is_taken, "{:?}", came.err());
    }
    // Within what is signed stands the same algorithm.
    let (key, other) = (Key::p256(), Key::ecdsa(p384, 3, MessageDigest::sha384()));
    let came = List::read(&made.signed_as(&key, &other), &signers(&key));
    assert!(matches!(came, Err(ListFault::Form)));
}

#[test]
fn what_isnt_the_whole_list_of_some_certificates_is_refused() {
    let world = World::new();
    let a = name_of("A");
    let good = Made::new(&name_of("Agency"), &[entry(&[5], &time(6, 1), &[issuer(&a)])]);
    let read = |made: &Made| List::read(&made.signed(&world.agency), &world.signers);
    let with = |extension: Vec<u8>| {
        let mut made = good.clone();
        made.extensions.push(extension);
        read(&made).err().map(|fault| fault.to_string()).unwrap_or_default()
    };
    let of = |extensions: &[Vec<u8>]| {
        let made = Made { entries: vec![entry(&[5], &time(6, 1), extensions)], ..good.clone() };
        read(&made).err().map(|fault| fault.to_string()).unwrap_or_default()
    };
    let unknown = |critical| extension(&[0x2a, 0x03, 0x04], critical, &[5, 0]);
    let delta = extension(&[0x55, 0x1d, 27], true, &element(0x02, &[&[1]]));
    let no_directory =
        extension(&[0x55, 0x1d, 29], true, &sequence(&[&element(0x86, &[b"http://a.example"])]));
    for (fault, wanted) in [
        (with(unknown(false)), ""),
        (with(unknown(true)), "its critical extension 1.2.3.4 isn't known"),
        (with(delta), "it is a part of a list"),
        (with(point(&[&element(0x83, &[&[1, 0x40]])])), "it is one of some reasons"),
        (with(point(&[&element(0x85, &[&[0xff]])])), "it is one of some reasons"),
        (with(point(&[])), "entry 1 names an authority that it can't have"),
        (with(number(&[1; 22])), "it is no revocation list"),
        (with(number(&[0x80])), "it is no revocation list"),
        (of(&[issuer(&a), unknown(false)]), ""),
        (of(&[issuer(&a), unknown(true)]), "its critical extension 1.2.3.4 isn't known"),
        (of(&[no_directory]), "entry 1 names an authority that it can't have"),
        (of(&[issuer(&[0x30, 0x00])]), "entry 1 names an authority that it can't have"),
        (of(&[issuer(b"name")]), "entry 1 names an authority that it can't have"),
    ] {
        let is_said = if wanted.is_empty() { fault.is_empty() } else { fault.starts_with(wanted) };
        assert!(is_said, "{fault:?}, and not {wanted:?}");
    }
    for made in [
        Made { version: vec![0x02, 0x01, 0x00], ..good.clone() },
        Made { version: vec![0x02, 0x01, 0x02], ..good.clone() },
        Made { version: Vec::new(), ..good.clone() },
        Made { begins: element(0x17, &[b"261301000000Z"]), ..good.clone() },
        Made { issuer: vec![0x30, 0x00], ..good.clone() },
        Made { issuer: b"A".to_vec(), ..good.clone() },
    ] {
        assert!(matches!(read(&made), Err(ListFault::Form)));
    }
}

#[test]
fn what_is_taken_out_of_a_list_isnt_revoked_and_the_first_of_two_dates_counts() {
    let world = World::new();
    let a = name_of("A");
    let chain = |serial: u8| world.chain(&a, &world.a, &[serial]);
    let entries = [
        entry(&[5], &time(6, 1), &[issuer(&a), reason(8)]),
        entry(&[6], &time(7, 1), &[]),
        entry(&[6], &time(6, 15), &[]),
        entry(&[7], &element(0x18, &[b"20260601000000Z"]), &[]),
    ];
    for (serial, wanted) in [(5, vec![]), (6, vec![(1, MIDDLE)]), (7, vec![(1, JUNE)])] {
        assert_eq!(revoked(world.list(&entries), &chain(serial)), wanted, "{serial}");
    }
    // Of two lists the one that says the earlier second counts.
    let mut lists = Lists::default();
    lists.add(world.list(&[entry(&[5], &time(7, 1), &[issuer(&a)])]));
    lists.add(world.list(&[entry(&[5], &time(6, 15), &[issuer(&a)])]));
    assert_eq!(lists.revoked(&chain(5)).expect("it is known")[0].since, MIDDLE);
}

#[test]
fn a_list_says_when_the_next_one_comes_and_takes_the_place_of_no_newer_one() {
    let world = World::new();
    let numbered = |digits: Option<&[u8]>, begins: Vec<u8>| {
        let mut made = Made::new(&name_of("Agency"), &[]);
        made.extensions = digits.map(number).into_iter().chain([indirect()]).collect();
        made.begins = begins;
        List::read(&made.signed(&world.agency), &world.signers).expect("a list")
    };
    let list = numbered(Some(&[7]), time(6, 1));
    assert_eq!((list.begins(), list.ends()), (JUNE, Some(JULY)));
    assert!(!list.has_ended(JULY) && list.has_ended(JULY + 1));
    assert_eq!((list.number().as_str(), list.is_empty()), ("7", true));
    let open = Made { ends: Vec::new(), ..Made::new(&name_of("Agency"), &[]) };
    let open = List::read(&open.signed(&world.agency), &world.signers).expect("a list");
    assert!(!open.has_ended(u64::MAX));
    for (before, now, is_taken) in [
        (numbered(Some(&[7]), time(6, 1)), numbered(Some(&[7]), time(6, 1)), true),
        (numbered(Some(&[7]), time(6, 1)), numbered(Some(&[8]), time(5, 1)), true),
        (numbered(Some(&[7]), time(6, 1)), numbered(Some(&[6]), time(7, 1)), false),
        (numbered(Some(&[7]), time(6, 2)), numbered(Some(&[7]), time(6, 1)), false),
        (numbered(Some(&[7]), time(6, 1)), numbered(Some(&[1, 0]), time(6, 1)), true),
        (numbered(Some(&[1, 0]), time(6, 1)), numbered(Some(&[0, 0xff]), time(6, 1)), false),
        (numbered(Some(&[7]), time(6, 1)), numbered(None, time(7, 1)), false),
        (numbered(None, time(6, 1)), numbered(Some(&[0]), time(6, 1)), true),
        (numbered(None, time(6, 2)), numbered(None, time(6, 1)), false),
    ] {
        assert_eq!(now.follows(&before).is_ok(), is_taken, "{}, {}", before.number(), now.number());
    }
    let older = numbered(Some(&[6]), time(7, 1)).follows(&list).unwrap_err();
    assert_eq!(older.to_string(), "its number is 6, and 7 was there before");
}

#[test]
fn a_list_in_pem_is_the_same_list() {
    let world = World::new();
    let der = Made::new(&name_of("Agency"), &[]).signed(&world.agency);
    let text = encode_block(&der);
    let lines: Vec<_> = text.as_bytes().chunks(64).map(|it| [it, b"\n"].concat()).collect();
    let (begin, end) = ("-----BEGIN X509 CRL-----\n", "-----END X509 CRL-----\n");
    let pem = [b"Text\n", begin.as_bytes(), &lines.concat(), end.as_bytes()].concat();
    assert!(List::read(&pem, &world.signers).is_ok());
    for spoilt in [&pem[..pem.len() - 30], begin.as_bytes(), b"", b"-----BEGIN X509 CRL-----"] {
        assert!(matches!(List::read(spoilt, &world.signers), Err(ListFault::Form)));
    }
}

#[test]
fn bytes_and_authorities_have_a_bound() {
    let world = World::new();
    let of = |count: usize| {
        let entries: Vec<_> = (1..count)
            .map(|at| entry(&[5], &time(6, 1), &[issuer(&name_of(&format!("A{at}")))]))
            .collect();
        let list = Made::new(&name_of("Agency"), &entries).signed(&world.agency);
        List::read(&list, &world.signers)
    };
    // The agency is one of them.
    assert_eq!(of(MOST_AUTHORITIES).expect("a list").len(), MOST_AUTHORITIES - 1);
    assert!(matches!(of(MOST_AUTHORITIES + 1), Err(ListFault::Authorities(MOST_AUTHORITIES))));
    let long = List::read(&vec![0; MOST_BYTES + 1], &world.signers);
    assert!(matches!(long, Err(ListFault::Long(MOST_BYTES))));
    let most = List::read(&vec![0; MOST_BYTES], &world.signers);
    assert!(matches!(most, Err(ListFault::Form)));
}
