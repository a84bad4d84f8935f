//! Requests one after another, as redirects lead.
use super::one::{self, Answer, Body};
use super::place::{Host, Place};
use super::reason::Reason;
use super::Fetcher;
use std::net::IpAddr;
use tokio::time::Instant;

/// The most redirects of a fetch.
pub const MOST_REDIRECTS: usize = 3;

/// The body to which a place leads.
pub(super) async fn followed(
    fetcher: &Fetcher,
    mut place: Place,
    until: Instant,
) -> Result<Body, Reason> {
    for _ in 0..=MOST_REDIRECTS {
        let addresses = checked(fetcher, &place).await?;
        let (connector, most) = (&fetcher.connector, fetcher.settings.most);
        match one::asked(connector, &place, &addresses, most, until).await? {
            Answer::Whole(body) => return Ok(body),
            Answer::Leads(location) => {
                place = place.redirected(&location, &fetcher.settings.hosts)?;
            }
        }
    }
    Err(Reason::Redirects)
}

/// The addresses of a place, each of which may be asked. If one may not, none is asked.
async fn checked(fetcher: &Fetcher, place: &Place) -> Result<Vec<IpAddr>, Reason> {
    let found = match place.host() {
        Host::Address(address) => vec![*address],
        Host::Domain(name) => fetcher.resolver.addresses(name).await.map_err(|_| Reason::Dns)?,
    };
    match found.iter().find(|address| !fetcher.settings.reach.has(**address)) {
        Some(address) => Err(Reason::Private(*address)),
        None if found.is_empty() => Err(Reason::Dns),
        None => Ok(found),
    }
}
