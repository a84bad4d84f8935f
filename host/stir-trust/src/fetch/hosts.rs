//! The hosts that may be asked, as a file lists them.
use super::place::Host;
use std::collections::HashSet;
use std::net::{IpAddr, Ipv4Addr, Ipv6Addr};
use thiserror::Error;

/// The ports of a host that is listed without one.
const PORTS: [u16; 2] = [443, 8443];

/// The hosts that may be asked.
///
/// A file has one a line, in any order. Empty lines are passed over, and those that begin
/// with `;`.
///
/// | Line | What may be asked |
/// |---|---|
/// | `HOST` | the ports 443 and 8443 of this host, a name or an address (as `[2001:db8::1]`) |
/// | `HOST:PORT` | this port of it |
/// | `*.DOMAIN`, `*.DOMAIN:PORT` | each name below the domain |
/// | `*`, `*:PORT` | each name |
/// | `!HOST`, `!*.DOMAIN`, `!HOST:PORT` | nothing of this; without a port, no port of it |
///
/// What a line with `!` names isn't asked, wherever the line stands. Without lines nothing is.
///
/// ```
/// use stir_trust::fetch::Hosts;
///
/// assert!(Hosts::read(b"*\n!*.internal.example\n192.0.2.1:8443\n").is_ok());
/// assert_eq!(Hosts::read(b"*\n*.*.example\n").unwrap_err().line, 2);
/// ```
#[derive(Clone, Debug, Default, PartialEq, Eq)]
pub struct Hosts {
    allowed: HashSet<Line>,
    refused: HashSet<Line>,
}

/// What a line names: hosts, and a port if it has one.
type Line = (Name, Option<u16>);

#[derive(Clone, Debug, PartialEq, Eq, Hash)]
enum Name {
    Any,
    Below(String),
    Domain(String),
    Address(IpAddr),
}

/// A line that lists no host.
///
/// ```
/// let fault = stir_trust::fetch::Hosts::read(b"https://cr.example\n").unwrap_err();
/// assert_eq!(fault.to_string(), "line 1 is no `HOST`, `HOST:PORT`, `*.DOMAIN`, `*` or `!HOST`");
/// ```
#[derive(Clone, Copy, Debug, Error, PartialEq, Eq)]
#[error("line {line} is no `HOST`, `HOST:PORT`, `*.DOMAIN`, `*` or `!HOST`")]
pub struct HostsFault {
    /// The line, counted from 1.
    pub line: usize,
}

impl Hosts {
    /// The hosts that a file lists.
    ///
    /// # Errors
    ///
    /// The first line that lists no host.
    ///
    /// ```
    /// assert!(stir_trust::fetch::Hosts::read(b"cr.example:443\r\n\n*.example").is_ok());
    /// ```
    pub fn read(text: &[u8]) -> Result<Hosts, HostsFault> {
        let mut hosts = Hosts::default();
        for (number, line) in text.split(|byte| *byte == b'\n').enumerate() {
            let line = line.strip_suffix(b"\r").unwrap_or(line);
            if line.is_empty() || line.starts_with(b";") {
                continue;
            }
            let fault = HostsFault { line: number + 1 };
            let line = std::str::from_utf8(line).map_err(|_| fault)?;
            let (to, line) = match line.strip_prefix('!') {
                Some(rest) => (&mut hosts.refused, rest),
                None => (&mut hosts.allowed, line),
            };
            to.insert(line_of(line).ok_or(fault)?);
        }
        Ok(hosts)
    }

    /// Whether nothing is listed, so that nothing is fetched.
    ///
    /// ```
    /// assert!(stir_trust::fetch::Hosts::default().is_empty());
    /// ```
    pub fn is_empty(&self) -> bool {
        self.allowed.is_empty()
    }

    /// Whether this port of a host may be asked.
    pub(super) fn has(&self, host: &Host, port: u16) -> bool {
        let names = names_of(host);
        let is_in = |lines: &HashSet<Line>, port| {
            names.iter().any(|name| lines.contains(&(name.clone(), port)))
        };
        let is_refused = is_in(&self.refused, None) || is_in(&self.refused, Some(port));
        let is_usual = PORTS.contains(&port) && is_in(&self.allowed, None);
        !is_refused && (is_usual || is_in(&self.allowed, Some(port)))
    }
}

/// The names under which a host may be listed. An address is under no `*`.
fn names_of(host: &Host) -> Vec<Name> {
    match host {
        Host::Address(address) => vec![Name::Address(*address)],
        Host::Domain(name) => {
            let above = name.match_indices('.').filter_map(|(at, _)| name.get(at + 1..));
            [Name::Any, Name::Domain(name.clone())]
                .into_iter()
                .chain(above.map(|domain| Name::Below(domain.into())))
                .collect()
        }
    }
}

fn line_of(line: &str) -> Option<Line> {
    if let Some(rest) = line.strip_prefix('[') {
        let (address, rest) = rest.split_once(']')?;
        let port = if rest.is_empty() { None } else { Some(port_of(rest.strip_prefix(':')?)?) };
        return Some((Name::Address(address.parse::<Ipv6Addr>().ok()?.into()), port));
    }
    match line.split_once(':') {
        None => Some((name_of(line)?, None)),
        Some((name, port)) => Some((name_of(name)?, Some(port_of(port)?))),
    }
}

fn name_of(text: &str) -> Option<Name> {
    if text == "*" {
        return Some(Name::Any);
    }
    if let Some(domain) = text.strip_prefix("*.") {
        return Some(Name::Below(domain_of(domain)?));
    }
    match text.parse::<Ipv4Addr>() {
        Ok(address) => Some(Name::Address(address.into())),
        Err(_) => Some(Name::Domain(domain_of(text)?)),
    }
}

/// A name of labels (RFC 1123, section 2.1) in lower case. Its last label isn't a number, since a
/// URI's host with such a one is an address.
fn domain_of(text: &str) -> Option<String> {
    let is_label = |label: &str| {
        (1..=63).contains(&label.len())
            && label.bytes().all(|byte| byte.is_ascii_alphanumeric() || matches!(byte, b'-' | b'_'))
    };
    let last = text.rsplit('.').next()?;
    let is_name = text.len() <= 253 && text.split('.').all(is_label);
    (is_name && !last.bytes().all(|byte| byte.is_ascii_digit())).then(|| text.to_ascii_lowercase())
}

/// A port from 1 on, without a leading zero.
fn port_of(text: &str) -> Option<u16> {
    let is_number = text.bytes().all(|byte| byte.is_ascii_digit()) && !text.starts_with('0');
    text.parse().ok().filter(|_| is_number)
}

#[cfg(test)]
mod tests {
    use super::*;

    fn has(lines: &str, host: &str, port: u16) -> bool {
        let hosts = Hosts::read(lines.as_bytes()).expect(lines);
        let host = match host.parse() {
            Ok(address) => Host::Address(address),
            Err(_) => Host::Domain(host.into()),
        };
        hosts.has(&host, port)
    }

    #[test]
    fn lines_allow_what_they_name_and_nothing_else() {
        for (lines, allowed, refused) in [
            ("", vec![], vec![("a.example", 443)]),
            (
                "A.example",
                vec![("a.example", 443), ("a.example", 8443)],
                vec![
                    ("a.example", 444),
                    ("b.example", 443),
                    ("b.a.example", 443),
                    ("example", 443),
                ],
            ),
            ("a.example:444", vec![("a.example", 444)], vec![("a.example", 443)]),
            (
                "*.b.example\r\n",
                vec![("a.b.example", 443), ("c.a.b.example", 8443)],
                vec![("b.example", 443), ("ab.example", 443), ("a.b.example.com", 443)],
            ),
            ("*.b.example:1", vec![("a.b.example", 1)], vec![("a.b.example", 443)]),
            (
                "*",
                vec![("a.example", 443), ("localhost", 8443)],
                vec![("a.example", 80), ("192.0.2.1", 443), ("2001:db8::1", 443)],
            ),
            (
                "192.0.2.1\n[2001:db8::1]:8444",
                vec![("192.0.2.1", 443), ("192.0.2.1", 8443), ("2001:db8::1", 8444)],
                vec![("192.0.2.2", 443), ("2001:db8::1", 443)],
            ),
            ("!a.example\n*", vec![("b.example", 443)], vec![("a.example", 443)]),
            ("*\n!a.example", vec![("b.a.example", 443)], vec![("a.example", 8443)]),
            ("*\n!*.a.example", vec![("a.example", 443)], vec![("b.a.example", 443)]),
            ("a.example\n!a.example:443", vec![("a.example", 8443)], vec![("a.example", 443)]),
            ("!*\na.example", vec![], vec![("a.example", 443)]),
        ] {
            for (host, port) in allowed {
                assert!(has(lines, host, port), "{lines:?} {host}:{port}");
            }
            for (host, port) in refused {
                assert!(!has(lines, host, port), "{lines:?} {host}:{port}");
            }
        }
    }

    #[test]
    fn a_line_that_lists_no_host_is_named() {
        for line in [
            " ",
            "!",
            "!!a",
            "a b",
            "*a.example",
            "a.*.example",
            "*.*",
            "*.",
            "a..b",
            ".a",
            "a.",
            "a:",
            "a:0",
            "a:065",
            "a:65536",
            "a:+1",
            "a:1:2",
            "[::1",
            "[a]",
            "[::1]1",
            "::1",
            "1.2.3",
            "256.1.1.1",
            "a.1",
            "https://a",
            "a/b",
            "ä.example",
            "[192.0.2.1]",
            ":443",
        ] {
            let fault = Hosts::read(format!(";\n\n{line}\n").as_bytes());
            assert_eq!(fault, Err(HostsFault { line: 3 }), "{line:?}");
        }
        assert_eq!(Hosts::read(b"a\n\xFF\n"), Err(HostsFault { line: 2 }));
        assert_eq!(
            Hosts::read(format!("{}\n", "a".repeat(64)).as_bytes()),
            Err(HostsFault { line: 1 })
        );
    }
}
