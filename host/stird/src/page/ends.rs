//! Certificates that end soon, of those that are listed and of those that were fetched.
use super::Html;
use crate::judge::Judge;
use stir::Error;
use stir_trust::revocation::moment;

/// What counts as soon, in seconds: a month, and a week, which is marked.
const SOON: u64 = 30 * 86_400;
const WEEK: u64 = 7 * 86_400;

/// How many are shown.
const SHOWN: usize = 50;

/// So many fetched ones are looked at under one lock.
const PIECE: usize = 1_000;

/// A chain that ends soon.
struct Ending {
    last: u64,
    x5u: String,
    codes: Vec<String>,
    subject: String,
    is_fetched: bool,
}

/// Those that end soon.
pub(super) struct Ends {
    first: Vec<Ending>,
    more: usize,
    /// How many chains were looked at.
    all: usize,
    now: u64,
}

/// A chain by its last second, its x5u, and whether it was fetched.
type Found = (u64, String, bool);

/// The chains that end soon after this second. It goes through all, and opens those that are shown.
///
/// # Errors
///
/// Want of memory.
pub(super) fn ends(judge: &Judge, now: u64) -> Result<Ends, Error> {
    let (mut found, all) = up_to(judge, now.saturating_add(SOON));
    found.sort_unstable();
    let more = found.len().saturating_sub(SHOWN);
    found.truncate(SHOWN);
    let first = found.into_iter().map(|found| opened(judge, found)).collect::<Result<_, _>>()?;
    Ok(Ends { first, more, all, now })
}

/// Those that end up to this second, and how many were looked at.
fn up_to(judge: &Judge, until: u64) -> (Vec<Found>, usize) {
    let (mut found, mut all) = (Vec::new(), 0);
    let mut look = |last: u64, x5u: String, is_fetched| {
        all += 1;
        if last <= until {
            found.push((last, x5u, is_fetched));
        }
    };
    for (x5u, last) in judge.world.load().ends_of_each() {
        look(last, String::from_utf8_lossy(x5u).into_owned(), false);
    }
    let mut after: Option<String> = None;
    while let Some(fetching) = &judge.fetching {
        let piece = fetching.cache.list(after.as_deref(), PIECE);
        after = piece.last().map(|(x5u, _)| x5u.clone());
        piece.into_iter().for_each(|(x5u, entry)| look(entry.ends, x5u, true));
        if after.is_none() {
            break;
        }
    }
    (found, all)
}

/// What such a chain says.
fn opened(judge: &Judge, (last, x5u, is_fetched): Found) -> Result<Ending, Error> {
    let world = judge.world.load();
    let fetched = judge.fetching.as_ref().filter(|_| is_fetched);
    let signer = match fetched.map(|fetching| fetching.cache.kept(&x5u)) {
        Some(Some(entry)) => Some(world.ground().chain(x5u.as_bytes(), &entry.der)?.signer()?),
        Some(None) => None,
        None => world.listed(x5u.as_bytes()).map(|listed| listed.signer()).transpose()?,
    };
    let (codes, subject) =
        signer.map(|it| (it.codes.clone(), it.subject.clone())).unwrap_or_default();
    Ok(Ending { last, x5u, codes, subject, is_fetched })
}

impl Html {
    /// Those that end soon, the first one first.
    pub(super) fn ends(&mut self, ends: &Ends) -> &mut Html {
        self.markup("<h2>Certificates that end soon</h2>\n<p>Of ").say(ends.all);
        self.markup(" chains that are listed or fetched, ").say(ends.first.len() + ends.more);
        self.markup(" end within 30 days.</p>\n");
        if ends.first.is_empty() {
            return self;
        }
        self.markup("<table><tr><th>ends</th><th>x5u</th><th>subject</th><th>codes</th>");
        self.markup("<th></th></tr>\n");
        for Ending { last, x5u, codes, subject, is_fetched } in &ends.first {
            let is_near = *last <= ends.now.saturating_add(WEEK);
            self.markup(if is_near { "<tr><td class=\"bad\">" } else { "<tr><td>" });
            self.text(&moment(*last)).markup(if *last < ends.now { " (over)" } else { "" });
            self.markup("</td><td>").text(x5u).markup("</td><td>").text(subject);
            self.markup("</td><td>").text(&codes.join(" ")).markup("</td><td class=\"soft\">");
            self.markup(if *is_fetched { "fetched" } else { "listed" }).markup("</td></tr>\n");
        }
        self.markup("</table>\n");
        if ends.more > 0 {
            self.markup("<p class=\"soft\">and ").say(ends.more).markup(" more</p>\n");
        }
        self
    }
}
