//! Who may look at the page: those who may see the certificates, and a browser of theirs.
use crate::clients::{Admission, Denied};
use crate::routes::Request;
use hyper::http::uri::Authority;
use openssl::base64::decode_block;
use std::net::IpAddr;

/// Whether who asks may look. A browser can't send a token but as the password that it asks for,
/// so it is taken as that too (RFC 7617), whatever the name beside it is.
///
/// # Errors
///
/// Why he may not.
pub(super) fn admits(admission: &Admission<'_>, request: &Request) -> Result<(), Denied> {
    let given = request.authorization.as_deref();
    let bearer = given.and_then(password).map(|token| [b"Bearer ", &token[..]].concat());
    admission.may_look(bearer.as_deref().or(given), &request.peer)?;
    // A page of a stranger can have a name that leads to this host now, and be shown in a browser
    // here. Then the browser says that name.
    let has_lists = admission.tokens.are_given() || admission.clients.are_given();
    let is_told_apart = has_lists || request.peer.certificate.is_some();
    let is_here = is_told_apart || request.peer.address.is_none() || names_this_host(request);
    if is_here {
        Ok(())
    } else {
        Err(Denied::Unknown)
    }
}

/// The password of `Basic BASE64`.
fn password(value: &[u8]) -> Option<Vec<u8>> {
    let (scheme, rest) = value.split_at_checked(6)?;
    let coded =
        std::str::from_utf8(rest).ok().filter(|_| scheme.eq_ignore_ascii_case(b"basic "))?;
    let pair = decode_block(coded.trim()).ok()?;
    let colon = pair.iter().position(|byte| *byte == b':')?;
    pair.get(colon + 1..).map(<[u8]>::to_vec)
}

/// Whether the host that a request names is an address, or `localhost`.
fn names_this_host(request: &Request) -> bool {
    let Some(host) = &request.host else { return true };
    let Ok(authority) = Authority::try_from(&host[..]) else { return false };
    let host = authority.host().trim_start_matches('[').trim_end_matches(']');
    host.eq_ignore_ascii_case("localhost") || host.parse::<IpAddr>().is_ok()
}

#[cfg(test)]
mod tests {
    use super::*;
    use crate::clients::{Clients, Peer, Shown};
    use crate::tokens::Tokens;
    use bytes::Bytes;
    use hyper::Method;
    use std::sync::Arc;

    fn request(host: Option<&'static str>, authorization: Option<&str>) -> Request {
        Request {
            method: Method::GET,
            path: "/".into(),
            query: None,
            body: Bytes::new(),
            moment: None,
            key: None,
            authorization: authorization.map(|value| Bytes::copy_from_slice(value.as_bytes())),
            host: host.map(|host| Bytes::from_static(host.as_bytes())),
            peer: Peer { address: "127.0.0.1".parse().ok(), certificate: None },
        }
    }

    fn of(tokens: &Tokens, request: &Request) -> Result<(), Denied> {
        let clients = Clients::read(None, false).expect("none");
        admits(&Admission { tokens, clients: &clients, is_local: false }, request)
    }

    #[test]
    fn without_tokens_a_browser_has_to_name_this_host() {
        let tokens = Tokens::default();
        for (host, wanted) in [
            (None, Ok(())),
            (Some("127.0.0.1:8080"), Ok(())),
            (Some("[::1]:8080"), Ok(())),
            (Some("LocalHost"), Ok(())),
            (Some("rebound.example:8080"), Err(Denied::Unknown)),
            (Some("localhost.example"), Err(Denied::Unknown)),
            (Some("127.0.0.1.example"), Err(Denied::Unknown)),
            (Some(""), Err(Denied::Unknown)),
        ] {
            assert_eq!(of(&tokens, &request(host, None)), wanted, "{host:?}");
        }
        let shown = Some(Arc::new(Shown { sum: [0; 32], name: None }));
        let other = "192.0.2.1".parse().ok();
        for (peer, host, wanted) in [
            (Peer { address: other, certificate: shown }, "stird.example", Ok(())),
            (Peer { address: other, certificate: None }, "127.0.0.1", Err(Denied::Unknown)),
            (Peer { address: None, certificate: None }, "stird", Ok(())),
        ] {
            let request = Request { peer, ..request(Some(host), None) };
            assert_eq!(of(&tokens, &request), wanted, "{request:?}");
        }
    }

    #[test]
    fn a_token_comes_as_a_password_too() {
        let name = format!("stird-page-tokens-{}", std::process::id());
        let path = std::env::temp_dir().join(name);
        std::fs::write(&path, "0123456789abcdef\n").expect("a file");
        let tokens = Tokens::read(Some(&path));
        std::fs::remove_file(&path).expect("it is removed");
        let tokens = tokens.expect("a token");
        for (value, wanted) in [
            // RFC 4648, section 4, of `me:0123456789abcdef`, `:0123456789abcdef`, and others.
            (Some("Basic bWU6MDEyMzQ1Njc4OWFiY2RlZg=="), Ok(())),
            (Some("basic OjAxMjM0NTY3ODlhYmNkZWY="), Ok(())),
            (Some("Bearer 0123456789abcdef"), Ok(())),
            (Some("Basic bWU6MDEyMzQ1Njc4OWFiY2RlZQ=="), Err(Denied::NoToken)),
            (Some("Basic MDEyMzQ1Njc4OWFiY2RlZg=="), Err(Denied::NoToken)),
            (Some("Basic !"), Err(Denied::NoToken)),
            (Some("Basic"), Err(Denied::NoToken)),
            (None, Err(Denied::NoToken)),
        ] {
            let request = request(Some("stird.example"), value);
            assert_eq!(of(&tokens, &request), wanted, "{value:?}");
        }
    }
}
