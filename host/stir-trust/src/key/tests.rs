//! Keys in PEM, as OpenSSL makes them.
use super::*;
use openssl::ec::EcGroup;
use openssl::rsa::Rsa;
use openssl::symm::Cipher;

fn key(curve: Nid) -> EcKey<Private> {
    EcKey::generate(&EcGroup::from_curve_name(curve).unwrap()).unwrap()
}

#[test]
fn a_key_is_taken_in_both_forms_and_gives_its_public_point() {
    let made = key(Nid::X9_62_PRIME256V1);
    let point = public_of(&made).unwrap();
    let pkcs8 = PKey::from_ec_key(made.clone()).unwrap().private_key_to_pem_pkcs8().unwrap();
    for pem in [made.private_key_to_pem().unwrap(), pkcs8] {
        for key in [Key::from_pem(&pem), Key::from_pem_by(&pem, b"word")] {
            assert_eq!(key.ok().map(|key| *key.public()), Some(point));
        }
    }
}

#[test]
fn an_encrypted_key_is_refused_and_nobody_is_asked() {
    let made = key(Nid::X9_62_PRIME256V1);
    let cipher = Cipher::aes_256_cbc();
    let pkey = PKey::from_ec_key(made.clone()).unwrap();
    for word in [b"word".as_slice(), b"a longer word"] {
        for pem in [
            made.private_key_to_pem_passphrase(cipher, word).unwrap(),
            pkey.private_key_to_pem_pkcs8_passphrase(cipher, word).unwrap(),
        ] {
            assert_eq!(Key::from_pem(&pem).err(), Some(KeyFault::Encrypted));
            let point = Key::from_pem_by(&pem, word).ok().map(|key| *key.public());
            assert_eq!(point, public_of(&made));
            for other in [&b""[..], b"another"] {
                let fault = Key::from_pem_by(&pem, other).err();
                assert_eq!(fault, Some(KeyFault::OtherPassphrase));
            }
            // Whatever hides it, no terminal is asked: the test would wait for ever.
            let hidden = String::from_utf8(pem).unwrap().replace("ENCRYPTED", "HIDDEN");
            assert!(Key::from_pem(hidden.as_bytes()).is_err());
        }
    }
}

#[test]
fn what_is_no_key_of_p_256_is_refused_by_its_cause() {
    let other = key(Nid::SECP384R1).private_key_to_pem().unwrap();
    let rsa = Rsa::generate(2048).unwrap().private_key_to_pem().unwrap();
    let public = key(Nid::X9_62_PRIME256V1).public_key_to_pem().unwrap();
    let mut cut = key(Nid::X9_62_PRIME256V1).private_key_to_pem().unwrap();
    cut.truncate(90);
    for (pem, fault) in [
        (other, KeyFault::OtherKind),
        (rsa, KeyFault::OtherKind),
        (public, KeyFault::NoKey),
        (cut, KeyFault::NoKey),
        (vec![0; 1000], KeyFault::NoKey),
        (Vec::new(), KeyFault::NoKey),
    ] {
        assert_eq!(Key::from_pem(&pem).err(), Some(fault.clone()));
        assert_eq!(Key::from_pem_by(&pem, b"word").err(), Some(fault));
    }
}

#[test]
fn a_private_key_beside_the_public_key_of_another_is_refused() {
    let (one, two) = (key(Nid::X9_62_PRIME256V1), key(Nid::X9_62_PRIME256V1));
    let mixed = EcKey::from_private_components(one.group(), one.private_key(), two.public_key());
    let pem = mixed.unwrap().private_key_to_pem().unwrap();
    assert_eq!(Key::from_pem(&pem).err(), Some(KeyFault::OtherPublic));
}

#[test]
fn what_was_signed_is_confirmed_and_a_changed_digest_isnt() {
    let pem = key(Nid::X9_62_PRIME256V1).private_key_to_pem().unwrap();
    let (key, verifier) = (Key::from_pem(&pem).unwrap(), crate::Verifier::new().unwrap());
    for seed in 0..50 {
        let digest = [seed; 32];
        let mut question = [0; 161];
        question[..65].copy_from_slice(key.public());
        question[65..97].copy_from_slice(&digest);
        question[97..].copy_from_slice(&key.sign(&digest).unwrap());
        assert!(verifier.confirms(&stir::Question::new(question)), "{seed}");
        question[65] ^= 1;
        assert!(!verifier.confirms(&stir::Question::new(question)), "{seed}");
    }
}
