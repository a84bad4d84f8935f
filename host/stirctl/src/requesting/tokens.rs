//! What an order by ACME says of a list: its identifier, and the claim of the authority token by
//! which the challenge `tkauth-01` is met (RFC 9447 and 9448).

use crate::files::whole;
use crate::signing::LONGEST_KEY;
use crate::Fault;
use openssl::base64::encode_block;
use openssl::bn::{BigNum, BigNumContext};
use openssl::ec::EcKey;
use openssl::error::ErrorStack;
use openssl::nid::Nid;
use openssl::pkey::PKey;
use openssl::sha::sha256;
use serde_json::json;

/// The name of the list among identifiers and tokens (RFC 9448, sections 3 and 5.4).
const KIND: &str = "TNAuthList";

/// The identifier of a list.
pub(super) fn identifier(list: &[u8]) -> Vec<u8> {
    format!("{}\n", json!({ "type": KIND, "value": base64url(list) })).into_bytes()
}

/// What a token for the account of this key has to claim of a list.
pub(super) fn claim(list: &[u8], account: &str) -> Result<Vec<u8>, Fault> {
    let print = fingerprint(&whole(account, LONGEST_KEY)?).map_err(|_| {
        let why = "no key of P-256 in PEM, by whose fingerprint the account is known";
        Fault::Input(account.into(), why.into())
    })?;
    let claim = json!({ "atc": {
        "tktype": KIND, "tkvalue": base64url(list), "ca": false, "fingerprint": print,
    }});
    Ok(format!("{claim}\n").into_bytes())
}

/// The fingerprint of an account's key: SHA-256 of its form in JSON (RFC 7638, section 3), as
/// RFC 9447, section 3.1, writes it.
fn fingerprint(pem: &[u8]) -> Result<String, ErrorStack> {
    let public = PKey::public_key_from_pem(pem).and_then(|key| key.ec_key());
    let (x, y) = match public {
        Ok(key) => coordinates(&key)?,
        Err(_) => coordinates(&*PKey::private_key_from_pem_passphrase(pem, b"")?.ec_key()?)?,
    };
    let (x, y) = (base64url(&x), base64url(&y));
    let thumb = sha256(format!(r#"{{"crv":"P-256","kty":"EC","x":"{x}","y":"{y}"}}"#).as_bytes());
    let pairs: Vec<String> = thumb.iter().map(|byte| format!("{byte:02X}")).collect();
    Ok(format!("SHA256 {}", pairs.join(":")))
}

/// The coordinates of a key of P-256.
fn coordinates<T: openssl::pkey::HasPublic>(
    key: &openssl::ec::EcKeyRef<T>,
) -> Result<(Vec<u8>, Vec<u8>), ErrorStack> {
    let curve = openssl::ec::EcGroup::from_curve_name(Nid::X9_62_PRIME256V1)?;
    // A point of another curve isn't one of this.
    let key = EcKey::from_public_key(&curve, key.public_key())?;
    key.check_key()?;
    let (mut x, mut y) = (BigNum::new()?, BigNum::new()?);
    let mut numbers = BigNumContext::new()?;
    key.public_key().affine_coordinates_gfp(&curve, &mut x, &mut y, &mut numbers)?;
    Ok((x.to_vec_padded(32)?, y.to_vec_padded(32)?))
}

/// Base64url without padding (RFC 7515, section 2).
fn base64url(bytes: &[u8]) -> String {
    let plain = encode_block(bytes);
    plain.trim_end_matches('=').replace('+', "-").replace('/', "_")
}

#[cfg(test)]
mod tests {
    use super::*;

    #[test]
    fn base64url_is_that_of_the_published_example() {
        // RFC 7515, appendix C.
        assert_eq!(base64url(&[3, 236, 255, 224, 193]), "A-z_4ME");
    }
}
