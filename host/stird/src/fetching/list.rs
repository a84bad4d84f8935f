//! The list of what was fetched.
use super::Fetching;
use crate::answers::Answer;
use crate::files::World;
use hyper::StatusCode;
use openssl::x509::X509;
use percent_encoding::percent_decode_str;
use serde::Serialize;
use stir::{Error, Part};
use stir_trust::cache::Entry;
use stir_trust::fetch::chain_of;
use stir_trust::names::text_of;

/// How many chains a page has if that isn't said, and at most.
const USUAL: usize = 100;
const MOST: usize = 1_000;

/// Which chains a page is to have.
///
/// ```
/// use stird::fetching::Page;
///
/// let page = Page::of("count=2&after=https%3A%2F%2Fcr.example%2Fa%3Fb").expect("a page");
/// assert_eq!(page, Page { after: Some("https://cr.example/a?b".into()), count: 2 });
/// assert_eq!(Page::of("count=0"), None);
/// ```
#[derive(Clone, Debug, PartialEq, Eq)]
pub struct Page {
    /// Those after this x5u; from the first on if there is none.
    pub after: Option<String>,
    /// So many at most.
    pub count: usize,
}

/// A page, as JSON.
#[derive(Serialize)]
struct Listed {
    certificates: Vec<Line>,
    /// After which one the next page begins, if there is one.
    #[serde(skip_serializing_if = "Option::is_none")]
    next: Option<String>,
}

/// A chain that is kept: the members in the order of their names. All times are in Unix seconds.
#[derive(Serialize)]
struct Line {
    codes: Vec<String>,
    due: u64,
    fetched: u64,
    /// The first and the last second of the certificate that ends first.
    #[serde(skip_serializing_if = "Option::is_none")]
    first: Option<i64>,
    #[serde(skip_serializing_if = "Option::is_none")]
    last: Option<i64>,
    subject: String,
    x5u: String,
}

impl Page {
    /// The page that the query of a request names; nothing if it names none.
    pub fn of(query: &str) -> Option<Page> {
        let mut page = Page { after: None, count: USUAL };
        for part in query.split('&').filter(|part| !part.is_empty()) {
            match part.split_once('=')? {
                ("after", x5u) => {
                    page.after = Some(percent_decode_str(x5u).decode_utf8().ok()?.into_owned());
                }
                ("count", number) if number.bytes().all(|byte| byte.is_ascii_digit()) => {
                    page.count = number.parse().ok().filter(|count| (1..=MOST).contains(count))?;
                }
                _ => return None,
            }
        }
        Some(page)
    }
}

impl Fetching {
    /// The chains of a page, as they are under a world. It opens each, so it takes a while.
    pub fn list(&self, page: &Page, world: &World) -> Answer {
        let mut found = self.cache.list(page.after.as_deref(), page.count + 1);
        let is_last = found.len() <= page.count;
        found.truncate(page.count);
        let next = found.last().filter(|_| !is_last).map(|(x5u, _)| x5u.clone());
        let lines = found.into_iter().map(|(x5u, entry)| line(x5u, &entry, world)).collect();
        match lines {
            Ok(certificates) => Answer::json(StatusCode::OK, &Listed { certificates, next }),
            Err(error) => {
                tracing::error!("certificates can't be listed: {error}");
                Answer::status(StatusCode::INTERNAL_SERVER_ERROR)
            }
        }
    }
}

fn line(x5u: String, entry: &Entry, world: &World) -> Result<Line, Error> {
    let chain = world.by().chain(&entry.der)?;
    let (mut codes, mut ends) = (Vec::new(), None);
    for number in 1..=6 {
        let lines = chain.part(number, Part::Codes)?.unwrap_or_default();
        codes.extend(String::from_utf8_lossy(&lines).lines().map(String::from));
        let second = |part| -> Result<Option<i64>, Error> {
            let digits = chain.part(number, part)?.unwrap_or_default();
            Ok(std::str::from_utf8(&digits).ok().and_then(|digits| digits.parse().ok()))
        };
        if let (Some(last), Some(first)) = (second(Part::NotAfter)?, second(Part::NotBefore)?) {
            ends = ends.into_iter().chain([(last, first)]).min();
        }
    }
    let leaf = chain_of(&entry.der).ok().and_then(|chain| X509::from_der(chain.first()?).ok());
    let subject = leaf.map_or_else(String::new, |leaf| text_of(leaf.subject_name()));
    let (last, first) = ends.unzip();
    Ok(Line { codes, due: entry.due, fetched: entry.fetched, first, last, subject, x5u })
}

#[cfg(test)]
mod tests {
    use super::*;

    #[test]
    fn a_page_is_named_by_a_query() {
        let page =
            |after: Option<&str>, count| Some(Page { after: after.map(String::from), count });
        for (query, wanted) in [
            ("", page(None, 100)),
            ("count=1000", page(None, 1000)),
            ("after=", page(Some(""), 100)),
            ("after=https://a/+b", page(Some("https://a/+b"), 100)),
            ("after=%e4", None),
            ("count=1001", None),
            ("count=0", None),
            ("count=+1", None),
            ("count=", None),
            ("other=1", None),
            ("count", None),
        ] {
            assert_eq!(Page::of(query), wanted, "{query}");
        }
    }
}
