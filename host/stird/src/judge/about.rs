//! What is known of a call beside what came of it: what its PASSporTs say, and who signed them.
use super::spoilt::Handed;
use super::Attest;
use crate::files::signing_line::attest_of;
use crate::files::Signer;
use std::sync::Arc;
use std::time::Duration;
use stir::{Call, Claims, Error, Verdict};
use stir_trust::claims::Claimed;

/// The type of a PASSporT.
#[derive(Clone, Copy, Debug, PartialEq, Eq)]
pub enum Ppt {
    /// That of a call's origin (RFC 8588).
    Shaken,
    /// That of a call that was diverted (RFC 8946).
    Div,
}

/// What a PASSporT says, and who signed it.
#[derive(Clone, Debug, Default, PartialEq, Eq)]
pub struct Passport {
    /// The number of its Identity field, counted from 1 in message order.
    pub field: u32,
    /// Its type. One without a type that claims what `shaken` has to claim counts as one.
    pub ppt: Option<Ppt>,
    /// Where its certificates are.
    pub x5u: String,
    /// What it claims: whoever sent the call claimed it, and if the signature is good the signer.
    pub claimed: Claimed,
    /// Who signed it, if its signature is good by certificates that lead to a trust anchor.
    pub signer: Option<Arc<Signer>>,
}

/// What is known of a call.
#[derive(Clone, Debug, Default, PartialEq, Eq)]
pub struct About {
    /// Its PASSporTs in the order in which it went: the originating one is the first. There are
    /// none if it breaks one of the rules of the call.
    pub passports: Vec<Passport>,
    /// Its Call-ID, if calls are recorded.
    pub call_id: Option<Vec<u8>>,
}

/// How long the parts of the work on a call took.
#[derive(Clone, Copy, Debug, Default, PartialEq, Eq)]
pub struct Spent {
    /// Reading it, and asking what is to be confirmed.
    pub ask: Duration,
    /// ES256.
    pub confirm: Duration,
    /// Judging it by what wasn't confirmed.
    pub judge: Duration,
    /// Waiting for certificates and codes.
    pub wait: Duration,
    /// Claiming its ticket.
    pub claim: Duration,
}

impl Ppt {
    /// Its name (RFC 8588, section 3; RFC 8946, section 3).
    pub fn name(self) -> &'static str {
        match self {
            Ppt::Shaken => "shaken",
            Ppt::Div => "div",
        }
    }
}

impl Passport {
    /// How well the signer says that the caller is known, of a PASSporT of SHAKEN.
    pub fn attest(&self) -> Option<Attest> {
        let letter = self.claimed.attest.as_deref().filter(|_| self.ppt == Some(Ppt::Shaken));
        letter.and_then(attest_of)
    }

    /// What is said at this place in the order of the call.
    fn of(index: usize, claims: Claims, x5u: Vec<u8>, signer: Option<Arc<Signer>>) -> Passport {
        let claimed = claims.payload.as_deref().map(Claimed::of).unwrap_or_default();
        // The links are all of this type, and the first is never (docs/RULES.md).
        let ppt = match index {
            0 => is_shaken(&claimed).then_some(Ppt::Shaken),
            _ => Some(Ppt::Div),
        };
        let x5u = String::from_utf8_lossy(&x5u).into_owned();
        Passport { field: claims.field, ppt, x5u, claimed, signer }
    }
}

/// Whether this is what a PASSporT of SHAKEN has to claim.
fn is_shaken(claimed: &Claimed) -> bool {
    claimed.attest.as_deref().and_then(attest_of).is_some() && claimed.origid.is_some()
}

impl About {
    /// What is known of a call of which this is said, and whose chains were handed in.
    pub(super) fn of(
        call: &mut Call,
        verdict: &Verdict,
        handed: &Handed,
        is_recorded: bool,
    ) -> Result<About, Error> {
        let call_id = match is_recorded {
            true => call.header("Call-ID").next().transpose()?,
            false => None,
        };
        if call.passports() == 0 {
            return Ok(About { call_id, ..About::default() });
        }
        let signer = |index| handed.signer(index).filter(|_| verdict.is_signed());
        let all = call.x5us()?.into_iter().zip(call.claims()?).enumerate();
        let passports =
            all.map(|(index, (x5u, claims))| Passport::of(index, claims, x5u, signer(index)));
        Ok(About { passports: passports.collect(), call_id })
    }
}

impl Spent {
    /// What is spent of two turns on one call.
    pub(super) fn and(self, other: Spent) -> Spent {
        Spent {
            ask: self.ask + other.ask,
            confirm: self.confirm + other.confirm,
            judge: self.judge + other.judge,
            wait: self.wait + other.wait,
            claim: self.claim + other.claim,
        }
    }
}

#[cfg(test)]
mod tests {
    use super::*;

    fn passport(index: usize, payload: &str) -> Passport {
        let claims = Claims { field: 1, payload: Some(payload.into()) };
        Passport::of(index, claims, b"https://cr.example/".to_vec(), None)
    }

    #[test]
    fn only_what_claims_as_shaken_has_an_attestation() {
        let others = r#""dest":{"tn":["2"]},"iat":1,"orig":{"tn":"1"}"#;
        for (index, claims, wanted) in [
            (0, r#""attest":"B","origid":"x","#, (Some(Ppt::Shaken), Some(Attest::B))),
            (0, r#""attest":"B","#, (None, None)),
            (0, r#""attest":"D","origid":"x","#, (None, None)),
            (0, r#""attest":1,"origid":"x","#, (None, None)),
            (0, "", (None, None)),
            (1, r#""attest":"A","origid":"x","#, (Some(Ppt::Div), None)),
        ] {
            let one = passport(index, &format!("{{{claims}{others}}}"));
            assert_eq!((one.ppt, one.attest()), wanted, "{index} {claims}");
        }
    }
}
