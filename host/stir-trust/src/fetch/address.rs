//! The addresses of a host, and which of them may be asked.
use async_trait::async_trait;
use std::io;
use std::net::{IpAddr, Ipv4Addr, Ipv6Addr, ToSocketAddrs};
use std::sync::{Arc, OnceLock};
use tokio::sync::Semaphore;

/// The most look-ups of the system's resolver that go on at once. Nothing ends one early, so those
/// that nobody waits for any more count too.
const MOST_LOOK_UPS: usize = 32;

static LOOK_UPS: OnceLock<Arc<Semaphore>> = OnceLock::new();

/// Networks of IPv4 that are no part of the internet, or no host's (RFC 6890 and IANA's registry
/// of special addresses), with the bits of their prefixes.
const SPECIAL: [(Ipv4Addr, u32); 16] = [
    (Ipv4Addr::new(0, 0, 0, 0), 8),
    (Ipv4Addr::new(10, 0, 0, 0), 8),
    (Ipv4Addr::new(100, 64, 0, 0), 10),
    (Ipv4Addr::new(127, 0, 0, 0), 8),
    (Ipv4Addr::new(169, 254, 0, 0), 16),
    (Ipv4Addr::new(172, 16, 0, 0), 12),
    (Ipv4Addr::new(192, 0, 0, 0), 24),
    (Ipv4Addr::new(192, 0, 2, 0), 24),
    (Ipv4Addr::new(192, 31, 196, 0), 24),
    (Ipv4Addr::new(192, 52, 193, 0), 24),
    (Ipv4Addr::new(192, 88, 99, 0), 24),
    (Ipv4Addr::new(192, 168, 0, 0), 16),
    (Ipv4Addr::new(198, 18, 0, 0), 15),
    (Ipv4Addr::new(198, 51, 100, 0), 24),
    (Ipv4Addr::new(203, 0, 113, 0), 24),
    // Multicast, what is reserved, and broadcast.
    (Ipv4Addr::new(224, 0, 0, 0), 3),
];

/// Networks within the global addresses of IPv6 that are no host's there: 2001::/23 with Teredo
/// (RFC 4380), and what is for documents (RFC 3849 and 9637).
const SPECIAL_6: [(Ipv6Addr, u32); 3] = [
    (Ipv6Addr::new(0x2001, 0, 0, 0, 0, 0, 0, 0), 23),
    (Ipv6Addr::new(0x2001, 0xdb8, 0, 0, 0, 0, 0, 0), 32),
    (Ipv6Addr::new(0x3fff, 0, 0, 0, 0, 0, 0, 0), 20),
];

/// Whether an address is one of the public internet; of an IPv6 address that stands for one of
/// IPv4 (RFC 4291, section 2.5.5.2; RFC 3056; RFC 6052), whether that is.
///
/// ```
/// use stir_trust::fetch::is_public;
///
/// assert!(is_public("8.8.8.8".parse()?));
/// assert!(!is_public("169.254.169.254".parse()?) && !is_public("::ffff:10.0.0.1".parse()?));
/// # Ok::<(), std::net::AddrParseError>(())
/// ```
pub fn is_public(address: IpAddr) -> bool {
    match address {
        IpAddr::V4(address) => is_public_4(address),
        IpAddr::V6(address) => match within(address) {
            Some(address) => is_public_4(address),
            None => {
                let is_global = begins_with(address, Ipv6Addr::new(0x2000, 0, 0, 0, 0, 0, 0, 0), 3);
                is_global && !SPECIAL_6.iter().any(|(net, bits)| begins_with(address, *net, *bits))
            }
        },
    }
}

fn is_public_4(address: Ipv4Addr) -> bool {
    let is_in =
        |net: Ipv4Addr, bits: u32| (u32::from(address) ^ u32::from(net)) >> (32 - bits) == 0;
    !SPECIAL.iter().any(|(net, bits)| is_in(*net, *bits))
}

fn begins_with(address: Ipv6Addr, net: Ipv6Addr, bits: u32) -> bool {
    (u128::from(address) ^ u128::from(net)) >> (128 - bits) == 0
}

/// The address of IPv4 for which one of IPv6 stands.
fn within(address: Ipv6Addr) -> Option<Ipv4Addr> {
    let pair = |high: u16, low: u16| Ipv4Addr::from(u32::from(high) << 16 | u32::from(low));
    match address.segments() {
        [0, 0, 0, 0, 0, 0xffff, high, low] | [0x64, 0xff9b, 0, 0, 0, 0, high, low] => {
            Some(pair(high, low))
        }
        [0x2002, high, low, ..] => Some(pair(high, low)),
        _ => None,
    }
}

/// The addresses that may be asked.
///
/// ```
/// use stir_trust::fetch::Reach;
///
/// let here = "127.0.0.1".parse()?;
/// assert!(!Reach::Public.has(here));
/// assert!(Reach::PublicAnd(vec![here]).has(here) && Reach::All.has(here));
/// # Ok::<(), std::net::AddrParseError>(())
/// ```
#[derive(Clone, Debug, Default, PartialEq, Eq)]
pub enum Reach {
    /// Public ones alone.
    #[default]
    Public,
    /// Public ones, and these.
    PublicAnd(Vec<IpAddr>),
    /// Private ones too.
    All,
}

impl Reach {
    /// Whether an address may be asked.
    ///
    /// ```
    /// # use stir_trust::fetch::Reach;
    /// assert!(!Reach::Public.has(std::net::Ipv6Addr::LOCALHOST.into()));
    /// ```
    pub fn has(&self, address: IpAddr) -> bool {
        match self {
            Reach::Public => is_public(address),
            Reach::PublicAnd(others) => is_public(address) || others.contains(&address),
            Reach::All => true,
        }
    }
}

/// What tells the addresses of a name. Tests have a table.
#[async_trait]
pub trait Resolver: Send + Sync {
    /// The addresses of a name, in the order in which they are to be tried.
    ///
    /// # Errors
    ///
    /// The look-up failed.
    async fn addresses(&self, name: &str) -> io::Result<Vec<IpAddr>>;
}

/// The system's resolver, with what `/etc/hosts` and its other sources say. It blocks a thread
/// that is there for such, of a bounded number, and no task.
///
/// ```
/// use stir_trust::fetch::{Resolver, SystemResolver};
///
/// let runtime = tokio::runtime::Builder::new_current_thread().build()?;
/// let here = runtime.block_on(SystemResolver.addresses("localhost"))?;
/// assert!(here.iter().all(|address| address.is_loopback()));
/// # Ok::<(), std::io::Error>(())
/// ```
#[derive(Clone, Copy, Debug, Default)]
pub struct SystemResolver;

#[async_trait]
impl Resolver for SystemResolver {
    async fn addresses(&self, name: &str) -> io::Result<Vec<IpAddr>> {
        let turn = Arc::clone(look_ups()).acquire_owned().await.map_err(io::Error::other)?;
        let name = name.to_owned();
        let look_up = move || {
            let _turn = turn;
            Ok((name.as_str(), 443).to_socket_addrs()?.map(|address| address.ip()).collect())
        };
        tokio::task::spawn_blocking(look_up).await?
    }
}

fn look_ups() -> &'static Arc<Semaphore> {
    LOOK_UPS.get_or_init(|| Arc::new(Semaphore::new(MOST_LOOK_UPS)))
}

#[cfg(test)]
mod tests {
    use super::*;
    use std::time::Duration;

    #[tokio::test]
    async fn look_ups_of_the_system_have_a_bound() {
        let turns = look_ups().acquire_many(MOST_LOOK_UPS as u32).await.expect("all turns");
        let late = Duration::from_millis(200);
        let waits = tokio::time::timeout(late, SystemResolver.addresses("localhost")).await;
        assert!(waits.is_err(), "{waits:?}");
        drop(turns);
        let found = SystemResolver.addresses("localhost").await.expect("localhost");
        assert!(!found.is_empty() && found.iter().all(IpAddr::is_loopback), "{found:?}");
        assert_eq!(look_ups().available_permits(), MOST_LOOK_UPS);
        assert!(SystemResolver.addresses(&"a".repeat(300)).await.is_err(), "no name");
    }

    #[test]
    fn public_addresses_are_told_from_others_at_the_edges_of_each_network() {
        for (address, is) in [
            ("0.0.0.0", false),
            ("0.255.255.255", false),
            ("1.0.0.0", true),
            ("9.255.255.255", true),
            ("10.0.0.0", false),
            ("10.255.255.255", false),
            ("11.0.0.0", true),
            ("100.63.255.255", true),
            ("100.64.0.0", false),
            ("100.127.255.255", false),
            ("100.128.0.0", true),
            ("127.0.0.1", false),
            ("128.0.0.0", true),
            ("169.253.255.255", true),
            ("169.254.169.254", false),
            ("169.255.0.0", true),
            ("172.15.255.255", true),
            ("172.16.0.0", false),
            ("172.31.255.255", false),
            ("172.32.0.0", true),
            ("192.0.0.1", false),
            ("192.0.1.0", true),
            ("192.0.2.255", false),
            ("192.88.99.1", false),
            ("192.167.255.255", true),
            ("192.168.0.0", false),
            ("192.169.0.0", true),
            ("198.17.255.255", true),
            ("198.18.0.0", false),
            ("198.19.255.255", false),
            ("198.20.0.0", true),
            ("198.51.100.7", false),
            ("203.0.113.7", false),
            ("223.255.255.255", true),
            ("224.0.0.1", false),
            ("240.0.0.1", false),
            ("255.255.255.255", false),
            ("::", false),
            ("::1", false),
            ("::8.8.8.8", false),
            ("::ffff:8.8.8.8", true),
            ("::ffff:10.0.0.1", false),
            ("64:ff9b::8.8.8.8", true),
            ("64:ff9b::127.0.0.1", false),
            ("64:ff9b:1::8.8.8.8", false),
            ("2002:808:808::1", true),
            ("2002:a00:1::1", false),
            ("2001::1", false),
            ("2001:1ff:ffff::1", false),
            ("2001:200::1", true),
            ("2001:db8::1", false),
            ("2606:4700::1111", true),
            ("3fff:1::1", false),
            ("1fff::1", false),
            ("4000::1", false),
            ("fc00::1", false),
            ("fd00:ec2::254", false),
            ("fe80::1", false),
            ("fec0::1", false),
            ("ff02::1", false),
        ] {
            assert_eq!(is_public(address.parse().expect(address)), is, "{address}");
        }
    }
}
