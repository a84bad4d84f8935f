//! The form by which an INVITE comes (WHATWG URL, section 5.1).
use super::Html;
use url::form_urlencoded;

/// The last second of the year 9999: a later one is no moment (docs/FORMATS.md).
const LAST: u64 = 253_402_300_799;

/// A call that is to be explained.
#[derive(Clone, Debug, Default, PartialEq, Eq)]
pub(super) struct Asked {
    /// The INVITE. A browser ends its lines by CR LF, as SIP does.
    pub invite: String,
    /// The second at which it came, in Unix time; the clock's if it isn't said.
    pub moment: Option<u64>,
}

/// Why a form can't be taken.
#[derive(Clone, Copy, Debug, PartialEq, Eq, thiserror::Error)]
pub(super) enum FormFault {
    /// It has no INVITE.
    #[error("the form has no INVITE")]
    NoInvite,
    /// What it says as the second is none.
    #[error("a second is a number up to {LAST}")]
    Moment,
}

impl Asked {
    /// What the body of a request says.
    pub fn read(body: &[u8]) -> Result<Asked, FormFault> {
        let (mut invite, mut moment) = (None, None);
        for (name, value) in form_urlencoded::parse(body) {
            match &*name {
                "invite" => invite = Some(value.into_owned()),
                "moment" if !value.trim().is_empty() => {
                    let digits = value.trim();
                    let is_number = digits.bytes().all(|byte| byte.is_ascii_digit());
                    let number = digits.parse().ok().filter(|it| is_number && *it <= LAST);
                    moment = Some(number.ok_or(FormFault::Moment)?);
                }
                _ => {}
            }
        }
        let invite = invite.filter(|invite| !invite.is_empty()).ok_or(FormFault::NoInvite)?;
        Ok(Asked { invite, moment })
    }

    /// The form, with what was asked.
    pub fn form(&self, html: &mut Html) {
        html.markup("<form method=\"post\" action=\"/\">\n<p><label for=\"invite\">An INVITE, ");
        html.markup("with the empty line after its head</label></p>\n<textarea id=\"invite\" ");
        html.markup("name=\"invite\" rows=\"10\" required spellcheck=\"false\">\n");
        html.text(&self.invite).markup("</textarea>\n<p><label>came in the second ");
        html.markup("<input name=\"moment\" inputmode=\"numeric\" placeholder=\"now\" value=\"");
        if let Some(moment) = self.moment {
            html.say(moment);
        }
        html.markup("\"></label> <span class=\"soft\">(Unix time; a PASSporT is too old a minute ");
        html.markup("after its iat)</span> <button>Explain</button></p></form>\n");
    }
}

#[cfg(test)]
mod tests {
    use super::*;

    #[test]
    fn a_form_says_an_invite_and_perhaps_its_second() {
        let asked = |invite: &str, moment| Ok(Asked { invite: invite.into(), moment });
        for (body, wanted) in [
            ("invite=INVITE+sip%3Aa%0D%0A%0D%0A", asked("INVITE sip:a\r\n\r\n", None)),
            ("invite=a&moment=", asked("a", None)),
            ("moment=+17+&invite=a&other=1", asked("a", Some(17))),
            ("invite=a&moment=253402300799", asked("a", Some(LAST))),
            ("invite=a&moment=253402300800", Err(FormFault::Moment)),
            ("invite=a&moment=-1", Err(FormFault::Moment)),
            ("invite=a&moment=%2B1", Err(FormFault::Moment)),
            ("invite=a&moment=now", Err(FormFault::Moment)),
            ("invite=", Err(FormFault::NoInvite)),
            ("", Err(FormFault::NoInvite)),
            ("INVITE sip:a SIP/2.0", Err(FormFault::NoInvite)),
        ] {
            assert_eq!(Asked::read(body.as_bytes()), wanted, "{body}");
        }
        assert_eq!(Asked::read(b"invite=%ff").map(|it| it.invite).as_deref(), Ok("\u{fffd}"));
    }
}
