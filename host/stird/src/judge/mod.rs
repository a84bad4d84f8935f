//! A call judged: it is given its chains, its questions are asked of OpenSSL, what comes of it is
//! taken from the proved library, and its ticket claimed.
mod about;
mod judged;
mod onward;
mod outcome;
mod reach;
mod spoilt;

pub use about::{About, Passport, Ppt, Spent};
pub use judged::{Explained, Judged};
pub use onward::Onward;
pub use outcome::{reason_of, Outcome, Verstat};
pub use spoilt::{Revocations, Spoilt};
pub use stir::Attest;

use crate::codes::Codes;
use crate::fetching::{Certificates, Fetching};
use crate::files::World;
use crate::metrics::Metrics;
use crate::record::Record;
use crate::tickets::{Claim, Latest, Passed, Tickets};
use crate::today::{SignedBy, Today};
use arc_swap::ArcSwap;
use spoilt::Handed;
use std::sync::atomic::{AtomicU64, Ordering};
use std::sync::Arc;
use std::time::Instant;
use stir::{Call, Error, Explanation, Passes, Refused, Verdict};
use stir_trust::{split, Unanswered, Verifier};

/// The judge with all that it goes by.
pub struct Judge {
    /// What calls are judged by.
    pub world: ArcSwap<World>,
    /// ES256.
    pub verifier: Verifier,
    /// Which tickets passed.
    pub tickets: Arc<dyn Tickets>,
    /// The latest moment of a call, if they come in the order of one clock.
    pub latest: Option<Latest>,
    /// The number of the last call.
    pub numbers: AtomicU64,
    /// What is counted.
    pub metrics: Arc<Metrics>,
    /// Whether lists in P-Asserted-Identity are split.
    pub split: bool,
    /// What fetches certificates, if they are fetched.
    pub fetching: Option<Fetching>,
    /// Which codes count beside those of the table, if others are trusted.
    pub codes: Option<Codes>,
    /// Which certificates are revoked, if that is looked at.
    pub revocation: Option<Revocations>,
    /// Which values the `verstat` parameter has.
    pub verstat: Verstat,
    /// Where calls are recorded, if they are.
    pub record: Option<Record>,
    /// What is counted of today and of yesterday.
    pub today: Today,
}

/// A call as it came.
#[derive(Clone, Copy)]
struct Case<'a> {
    message: &'a [u8],
    moment: u64,
    aim: Aim,
}

/// What is wanted of a call.
#[derive(Clone, Copy, PartialEq, Eq)]
enum Aim {
    Verdict,
    Explanation,
}

/// What is said of a call.
struct Ruled {
    verdict: Verdict,
    /// Why it breaks the rule on signatures of certificates, if that is known.
    spoilt: Option<Spoilt>,
    about: About,
    spent: Spent,
    /// The call, if it breaks no rule.
    passing: Option<Passing>,
    explanation: Option<Explanation>,
}

/// A call with its chains, and which of its questions were confirmed.
struct Passing {
    call: Call,
    good: Vec<bool>,
}

/// What is said of a call, and how its certificates came.
type Said = Result<(Ruled, Option<Certificates>), Unsaid>;

impl Ruled {
    /// What is said of a message that can't be read.
    fn unread(call: &mut Call, aim: Aim) -> Result<Ruled, Error> {
        let explanation = match aim {
            Aim::Explanation => Some(call.explain(1, &[])?),
            Aim::Verdict => None,
        };
        let (verdict, about, spent) = (call.early(), About::default(), Spent::default());
        Ok(Ruled { verdict, spoilt: None, about, spent, passing: None, explanation })
    }
}

/// The next number of a call. At the greatest that there is it stands still.
fn next(numbers: &AtomicU64) -> u64 {
    let more = |number: u64| Some(number.saturating_add(1));
    let (Ok(before) | Err(before)) = numbers.fetch_update(Ordering::SeqCst, Ordering::SeqCst, more);
    before.saturating_add(1)
}

/// Why nothing is said of a call.
#[derive(Debug, thiserror::Error)]
enum Unsaid {
    /// By the proved library.
    #[error("{0}")]
    Library(#[from] Error),
    /// OpenSSL doesn't say whether a signature is good.
    #[error("{0}")]
    Signature(#[from] Unanswered),
}

/// Whether a message can't be read, or is no INVITE: rule 1.
fn is_unread(call: &Call) -> bool {
    matches!(call.early(), Verdict::Refused(Refused { rule: 1, .. }))
}

impl Judge {
    /// What comes of an INVITE that came at this moment.
    pub async fn judge(&self, message: &[u8], moment: u64) -> Judged {
        let said = self.said(Case { message, moment, aim: Aim::Verdict }).await;
        self.came_of(said, moment).await
    }

    /// What comes of a call of this moment, of which this is said.
    async fn came_of(&self, said: Said, moment: u64) -> Judged {
        let call = next(&self.numbers);
        let mut judged = match said {
            Ok((ruled, certificates)) => {
                let judged = self.claimed(call, ruled, moment).await;
                Judged { certificates, ..judged }
            }
            Err(_) => Judged::new(call, Outcome::Unjudged),
        };
        self.metrics.count(&judged.outcome);
        let codes = judged.signer().map(|signer| &signer.codes[..]);
        self.today.count(&judged.outcome, &SignedBy::of(codes));
        if judged.spoilt.is_some() {
            self.metrics.revocation.calls.inc();
        }
        if let Some(record) = &self.record {
            judged.json = record.put(&judged, moment);
        }
        judged
    }

    /// Which rules an INVITE meets that came at this moment, with certificates as a call gets them.
    /// No ticket is claimed, and no call is counted. Nothing is said if memory runs out.
    pub async fn explain(&self, message: &[u8], moment: u64) -> Option<Explained> {
        let said = self.said(Case { message, moment, aim: Aim::Explanation }).await;
        let (ruled, certificates) = said.ok()?;
        let outcome = match ruled.verdict {
            Verdict::Passes(_) => Outcome::Valid,
            Verdict::Refused(refused) => refused.into(),
        };
        let explanation = ruled.explanation?;
        let attest = ruled.about.passports.first().and_then(Passport::attest);
        let (verstat, spoilt) = (outcome.verstat_in(self.verstat, attest), ruled.spoilt);
        let judged =
            Judged { certificates, verstat, spoilt, about: ruled.about, ..Judged::new(0, outcome) };
        Some(Explained { judged, explanation })
    }

    /// What is said of a call, and how its certificates came.
    async fn said(&self, case: Case<'_>) -> Said {
        match (&self.fetching, &self.codes) {
            (None, None) => self.verdict(case).map(|ruled| (ruled, None)),
            _ => self.reached(case).await,
        }
    }

    /// What comes of a call of which this is said: a call that passes claims its ticket.
    async fn claimed(&self, call: u64, ruled: Ruled, moment: u64) -> Judged {
        let Ruled { verdict, spoilt, about, mut spent, .. } = ruled;
        let (outcome, ticket) = match verdict {
            Verdict::Refused(refused) => (refused.into(), None),
            Verdict::Passes(Passes { ticket, last }) => {
                let begun = Instant::now();
                let outcome = self.claim(ticket, Passed { last, number: call }, moment).await;
                spent.claim = begun.elapsed();
                (outcome, Some(ticket))
            }
        };
        let attest = about.passports.first().and_then(Passport::attest);
        let verstat = outcome.verstat_in(self.verstat, attest);
        Judged { verstat, spoilt, about, ticket, spent, ..Judged::new(call, outcome) }
    }

    /// What comes of a call with this ticket.
    async fn claim(&self, ticket: [u8; 32], passed: Passed, moment: u64) -> Outcome {
        if self.latest.as_ref().is_some_and(|it| it.leaves_behind(moment, passed.last)) {
            return Outcome::Unjudged;
        }
        let timer = self.metrics.claims.start_timer();
        let claim = self.tickets.claim(ticket, passed, moment).await;
        timer.observe_duration();
        match claim {
            Claim::Won => Outcome::Valid,
            Claim::Lost { winner } => Outcome::Replay { winner },
            Claim::Forgotten | Claim::Unable => Outcome::Unjudged,
        }
    }

    /// What the rules say of a message, or of the same with its lists split.
    fn verdict(&self, case: Case<'_>) -> Result<Ruled, Unsaid> {
        let world = self.world.load();
        let Some(split) = self.split.then(|| split::lists(case.message)).flatten() else {
            return self.ruled(&world, case);
        };
        // A place in a message that can't be read is one in what came.
        let mut call = world.call(case.moment, case.message)?;
        if is_unread(&call) {
            return Ok(Ruled::unread(&mut call, case.aim)?);
        }
        self.metrics.split.inc();
        self.ruled(&world, Case { message: &split, ..case })
    }

    /// What the rules say: asked with each answer taken for good; and if an answer isn't, judged by
    /// those that are.
    fn ruled(&self, world: &World, case: Case<'_>) -> Result<Ruled, Unsaid> {
        let start = Instant::now();
        let (mut call, mut handed) = (world.call(case.moment, case.message)?, Handed::default());
        for index in 0..call.passports() {
            if let Some(listed) = world.listed(&call.x5u(index)?) {
                self.hand_in(&mut call, index, listed, case.moment, &mut handed)?;
            }
        }
        self.settled(call, case.aim, start, &handed)
    }

    /// What comes of a call that has its chains, of which these were handed in. The work on it
    /// began at this moment.
    fn settled(
        &self,
        mut call: Call,
        aim: Aim,
        start: Instant,
        handed: &Handed,
    ) -> Result<Ruled, Unsaid> {
        let asked = call.questions()?;
        let confirming = Instant::now();
        let answers = asked.questions.iter().map(|question| self.verifier.answer(question));
        let good = answers.collect::<Result<Vec<bool>, Unanswered>>()?;
        let judging = Instant::now();
        let (ask, confirm) = (confirming - start, judging - confirming);
        let mut spent = Spent { ask, confirm, ..Spent::default() };
        let verdict = if good.iter().all(|good| *good) {
            asked.if_all
        } else {
            let verdict = call.judge(&good)?;
            spent.judge = judging.elapsed();
            verdict
        };
        self.metrics.spend(&spent);
        let spoilt = spoilt::why(&mut call, &verdict, handed)?;
        let explanation = match aim {
            Aim::Explanation => Some(call.explain(1, &good)?),
            Aim::Verdict => None,
        };
        let about = About::of(&mut call, &verdict, handed, self.record.is_some())?;
        let passes = matches!(verdict, Verdict::Passes(_));
        let passing = passes.then_some(Passing { call, good });
        Ok(Ruled { verdict, spoilt, about, spent, passing, explanation })
    }
}

#[cfg(test)]
mod tests {
    use super::*;

    #[test]
    fn calls_are_numbered_up_to_the_greatest_number() {
        let numbers = AtomicU64::new(u64::MAX - 2);
        let given = [(); 3].map(|()| next(&numbers));
        assert_eq!(given, [u64::MAX - 1, u64::MAX, u64::MAX]);
    }
}
