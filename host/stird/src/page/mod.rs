//! A page to look at: how the service stands, what came of the calls of today and of yesterday,
//! which certificates end soon, and a form that has an INVITE explained. It is plain HTML.
mod counts;
mod ends;
mod explained;
mod form;
mod html;
mod mark;
mod passports;
mod place;
mod visitor;

pub use html::{Html, KIND};

use crate::answers::Answer;
use crate::clients::Denied;
use crate::health::Ready;
use crate::judge::Explained;
use crate::routes::{Request, Service};
use crate::settings::VERSION;
use explained::Told;
use form::Asked;
use hyper::header::{HeaderMap, HeaderName, HeaderValue};
use hyper::header::{CACHE_CONTROL, CONTENT_SECURITY_POLICY, REFERRER_POLICY, X_FRAME_OPTIONS};
use hyper::header::{WWW_AUTHENTICATE, X_CONTENT_TYPE_OPTIONS};
use hyper::{Method, StatusCode};
use mark::Marked;
use std::sync::Arc;
use stir::{Error, Verdict};
use stir_trust::revocation::moment;
use tokio::task::spawn_blocking;

/// What each page has in its head, so that a browser takes nothing for what it isn't.
pub(crate) fn protect(fields: &mut HeaderMap, is_unauthorized: bool) {
    let policy = HeaderValue::from_str(&html::POLICY).ok();
    fields.extend(policy.map(|policy| (CONTENT_SECURITY_POLICY, policy)));
    let opener = HeaderName::from_static("cross-origin-opener-policy");
    let resource = HeaderName::from_static("cross-origin-resource-policy");
    for (name, value) in [
        (CACHE_CONTROL, "no-store"),
        (REFERRER_POLICY, "no-referrer"),
        (X_CONTENT_TYPE_OPTIONS, "nosniff"),
        (X_FRAME_OPTIONS, "DENY"),
        (opener, "same-origin"),
        (resource, "same-origin"),
    ] {
        fields.insert(name, HeaderValue::from_static(value));
    }
    if is_unauthorized {
        let asks = HeaderValue::from_static("Basic realm=\"stird\", charset=\"UTF-8\"");
        fields.insert(WWW_AUTHENTICATE, asks);
    }
}

/// What the rules say of a call at a moment.
struct Said {
    moment: u64,
    /// Nothing if memory ran out.
    said: Option<Explained>,
}

/// A page as an answer.
fn answer(status: StatusCode, html: Html) -> Answer {
    Answer { kind: KIND, ..Answer::text(status, html.end()) }
}

/// A page that says why there is no other.
fn refusal(status: StatusCode, why: &str) -> Answer {
    let mut html = Html::page("stird");
    html.markup("<header><h1>stird</h1></header>\n<p class=\"bad\">").text(why).markup("</p>\n");
    html.markup("<p><a href=\"/\">Back</a></p>\n");
    answer(status, html)
}

impl Service {
    /// The page; and if an INVITE comes with the request, what is to be said of it.
    pub(crate) async fn page(self: Arc<Service>, request: Request) -> Answer {
        let denied = self.admission(|admission| visitor::admits(&admission, &request)).err();
        let asked = match request.method {
            Method::POST if denied.is_none() => Asked::read(&request.body).map(Some),
            _ => Ok(None),
        };
        let (status, why) = match (denied, &asked) {
            (None, Ok(_)) => (StatusCode::OK, String::new()),
            (None, Err(fault)) => (StatusCode::BAD_REQUEST, fault.to_string()),
            (Some(Denied::NoToken), _) => (
                StatusCode::UNAUTHORIZED,
                "A token is wanted: it is the password, and the name is any.".into(),
            ),
            (Some(Denied::Unknown), _) => (
                StatusCode::FORBIDDEN,
                "Only this host may look, by its address, or who is known by a certificate.".into(),
            ),
        };
        let Some(asked) = asked.ok().filter(|_| status == StatusCode::OK) else {
            self.judge.metrics.bad_requests.inc();
            return refusal(status, &why);
        };
        let explained = match &asked {
            Some(asked) => Some(self.explanation(asked).await),
            None => None,
        };
        let written = spawn_blocking(move || self.written(asked.unwrap_or_default(), explained));
        match written.await {
            Ok(Ok(html)) => answer(StatusCode::OK, html),
            failed => {
                tracing::error!("the page can't be written: {:?}", failed.map(|it| it.err()));
                Answer::status(StatusCode::INTERNAL_SERVER_ERROR)
            }
        }
    }

    /// Which rules a call meets, and at which moment.
    async fn explanation(&self, asked: &Asked) -> Said {
        let moment = asked.moment.unwrap_or_else(|| self.clock.now());
        let said = self.judge.explain(asked.invite.as_bytes(), moment).await;
        Said { moment, said }
    }

    /// What is to be said of a call that was explained.
    fn told(&self, asked: &Asked, Said { moment, said }: Said) -> Result<Told, Error> {
        let message = asked.invite.clone().into_bytes();
        let said = match said {
            Some(explained) => {
                let marked = match &explained.explanation.verdict {
                    Verdict::Refused(refused) => {
                        let world = self.judge.world.load();
                        mark::marked(world.by(), moment, &message, refused)?
                    }
                    Verdict::Passes(_) => Marked::default(),
                };
                Some((explained, marked))
            }
            None => None,
        };
        Ok(Told { message, moment, said })
    }

    /// The whole page. It goes through all certificates, so it takes a while.
    fn written(&self, asked: Asked, said: Option<Said>) -> Result<Html, Error> {
        let now = self.clock.now();
        let mut html = Html::page("stird");
        html.markup("<header><h1>stird ").text(VERSION).markup("</h1><span>").text(&moment(now));
        html.markup("</span></header>\n").ready(&self.standing.says(self));
        let is_explained = said.is_some();
        if let Some(said) = said {
            html.told(&self.told(&asked, said)?);
            html.markup("<h2>Explain another call</h2>\n");
            asked.form(&mut html);
        }
        let days = self.judge.today.days();
        html.markup("<h2>Calls</h2>\n<p class=\"soft\">By the days of UTC, since this service ");
        html.markup("started.</p>\n<div class=\"days\">\n").day("Today", &days.today);
        html.day("Yesterday", &days.yesterday).markup("</div>\n");
        html.ends(&ends::ends(&self.judge, now)?);
        if !is_explained {
            html.markup("<h2>Explain a call</h2>\n");
            asked.form(&mut html);
        }
        Ok(html)
    }
}

impl Html {
    /// How the service stands.
    fn ready(&mut self, ready: &Ready) -> &mut Html {
        if ready.ready {
            self.markup("<p class=\"good\">Ready: calls are judged as they should be.</p>\n");
        } else {
            self.markup("<p class=\"bad\">Not ready: calls aren't judged as they should be.</p>\n");
        }
        for (kind, lines) in [("<li class=\"bad\">", &ready.why), ("<li>", &ready.notes)] {
            if !lines.is_empty() {
                self.markup("<ul>");
                for line in lines {
                    self.markup(kind).text(line).markup("</li>");
                }
                self.markup("</ul>\n");
            }
        }
        self
    }
}
