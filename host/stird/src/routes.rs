//! The paths, and what is answered there.
use crate::answers::{name_of, Answer, Answers};
use crate::atis;
use crate::clients::{Admission, Clients, Denied, Peer, Sender};
use crate::codes::Codes;
use crate::diverting::Diversion;
use crate::explain;
use crate::fetching::Page;
use crate::files::signing::Blocks;
use crate::health::Standing;
use crate::judge::{Judge, Judged};
use crate::tickets::{Clock, Health};
use crate::tokens::Tokens;
use crate::told;
use arc_swap::ArcSwap;
use bytes::Bytes;
use hyper::{Method, StatusCode};
use std::sync::Arc;
use std::time::Instant;
use tokio::runtime::Handle;
use tokio::task::spawn_blocking;

/// The endpoints, and what is behind them.
pub struct Service {
    /// What calls are judged by.
    pub judge: Judge,
    /// For whom is signed; nothing if no table is named.
    pub blocks: Option<ArcSwap<Blocks>>,
    /// The tokens of those who may have calls signed.
    pub tokens: ArcSwap<Tokens>,
    /// The clients that may have some calls signed.
    pub clients: ArcSwap<Clients>,
    /// Whether without both calls are signed for this host over TCP too.
    pub signs_locally: bool,
    /// Answers that are kept.
    pub answers: Answers,
    /// How the service stands.
    pub standing: Standing,
    /// The clock.
    pub clock: Arc<dyn Clock>,
    /// Whether the moment of a call is what the caller says.
    pub asked_moments: bool,
    /// Whether there is a page to look at.
    pub has_page: bool,
}

/// A request, read whole.
#[derive(Debug)]
pub struct Request {
    /// Its method.
    pub method: Method,
    /// Its path, without a query.
    pub path: String,
    /// The query after it.
    pub query: Option<String>,
    /// Its body.
    pub body: Bytes,
    /// The moment of the call, by `X-Moment`.
    pub moment: Option<u64>,
    /// By what it is told again, by `Idempotency-Key` or `X-RequestID`.
    pub key: Option<Bytes>,
    /// Its `Authorization`.
    pub authorization: Option<Bytes>,
    /// The host that it names.
    pub host: Option<Bytes>,
    /// Who sent it.
    pub peer: Peer,
}

impl Request {
    /// Whether the line for proxies is to have the attestation, by `?attest=yes`.
    fn asks_attest(&self) -> bool {
        let query = self.query.as_deref().unwrap_or_default();
        query.split('&').any(|part| part == "attest=yes")
    }
}

/// What there is at a path.
#[derive(Clone, Copy, Debug, PartialEq, Eq)]
pub enum Door {
    /// A call judged, told in JSON.
    Verify,
    /// A call judged, told in a line.
    Line,
    /// A call explained, rule by rule.
    Explain,
    /// A call judged as ATIS-1000082 has it.
    Verification,
    /// A call signed as ATIS-1000082 has it.
    Signing,
    /// A message signed that goes on to another number.
    Divert,
    /// A call judged, and sent on to another number.
    Retarget,
    /// Counts.
    Metrics,
    /// Whether tickets can be kept.
    Healthz,
    /// Whether the process answers.
    Livez,
    /// Whether calls are judged, and if not, why.
    Readyz,
    /// Which certificates were fetched.
    Certificates,
    /// A page to look at, and a call that is explained on it.
    Page,
}

impl Door {
    /// The door at this path.
    ///
    /// ```
    /// use stird::routes::Door;
    ///
    /// assert_eq!(Door::at("/verify"), Some(Door::Verify));
    /// assert_eq!(Door::at("/verify/"), None);
    /// ```
    pub fn at(path: &str) -> Option<Door> {
        match path {
            "/verify" => Some(Door::Verify),
            "/verify/line" => Some(Door::Line),
            "/explain" => Some(Door::Explain),
            "/stir/v1/verification" => Some(Door::Verification),
            "/stir/v1/signing" => Some(Door::Signing),
            "/divert" => Some(Door::Divert),
            "/retarget" => Some(Door::Retarget),
            "/metrics" => Some(Door::Metrics),
            "/healthz" => Some(Door::Healthz),
            "/livez" => Some(Door::Livez),
            "/readyz" => Some(Door::Readyz),
            "/certificates" => Some(Door::Certificates),
            "/" => Some(Door::Page),
            _ => None,
        }
    }

    /// Whether requests there have a body.
    pub fn takes_body(self) -> bool {
        let judges = matches!(self, Door::Verify | Door::Line | Door::Explain | Door::Verification);
        judges || self.signs() || self == Door::Page
    }

    /// Whether something is signed there.
    fn signs(self) -> bool {
        matches!(self, Door::Signing | Door::Divert | Door::Retarget)
    }

    /// By which path a request is told again: with its query, where that says what is wanted.
    fn path_of(self, request: &Request) -> String {
        match (self, &request.query) {
            (Door::Divert | Door::Retarget, Some(query)) => format!("{}?{query}", request.path),
            _ => request.path.clone(),
        }
    }

    /// The methods of requests there.
    fn methods(self) -> &'static str {
        match (self, self.takes_body()) {
            (Door::Page, _) => "GET, HEAD, POST",
            (_, true) => "POST",
            (_, false) => "GET, HEAD",
        }
    }

    fn allows(self, method: &Method) -> bool {
        match *method {
            Method::POST => self.takes_body(),
            Method::GET | Method::HEAD => self == Door::Page || !self.takes_body(),
            _ => false,
        }
    }
}

impl Service {
    /// The answer to a request.
    pub async fn answer(self: Arc<Service>, request: Request) -> Answer {
        let door = Door::at(&request.path).filter(|door| self.has(*door));
        let Some(door) = door else { return Answer::status(StatusCode::NOT_FOUND) };
        if !door.allows(&request.method) {
            let refused = Answer::status(StatusCode::METHOD_NOT_ALLOWED);
            return Answer { allow: Some(door.methods()), ..refused };
        }
        match door {
            Door::Metrics => self.metrics(),
            Door::Healthz => match self.judge.tickets.health() {
                Health::Well => Answer::text(StatusCode::OK, "ok\n"),
                Health::Ill { .. } => {
                    Answer::text(StatusCode::SERVICE_UNAVAILABLE, "tickets can't be kept\n")
                }
            },
            Door::Livez => Answer::text(StatusCode::OK, "ok\n"),
            Door::Readyz => self.standing.answer(&self),
            Door::Certificates => self.certificates(request).await,
            Door::Page => self.page(request).await,
            Door::Verify | Door::Line | Door::Explain | Door::Verification => {
                self.call(door, request).await
            }
            Door::Signing | Door::Divert | Door::Retarget if self.waits_for_hsm() => {
                self.aside(door, request).await
            }
            Door::Signing | Door::Divert | Door::Retarget => self.call(door, request).await,
        }
    }

    /// Whether this service has a door.
    fn has(&self, door: Door) -> bool {
        match door {
            Door::Signing | Door::Divert | Door::Retarget => self.blocks.is_some(),
            Door::Certificates => self.judge.fetching.is_some(),
            Door::Page => self.has_page,
            _ => true,
        }
    }

    /// Whether what is signed may wait for an HSM.
    fn waits_for_hsm(&self) -> bool {
        self.blocks.as_ref().is_some_and(|blocks| blocks.load().has_hsm())
    }

    /// The answer to a request with a call, made on a thread that may wait.
    async fn aside(self: Arc<Service>, door: Door, request: Request) -> Answer {
        let made = spawn_blocking(move || Handle::current().block_on(self.call(door, request)));
        made.await.unwrap_or_else(|_| Answer::status(StatusCode::INTERNAL_SERVER_ERROR))
    }

    /// A page of the certificates that were fetched, for those for whom would be signed.
    async fn certificates(self: Arc<Service>, request: Request) -> Answer {
        let admitted = self.admission(|admission| {
            admission.may_look(request.authorization.as_deref(), &request.peer)
        });
        if let Err(denied) = admitted {
            self.judge.metrics.bad_requests.inc();
            return Answer::status(match denied {
                Denied::NoToken => StatusCode::UNAUTHORIZED,
                Denied::Unknown => StatusCode::FORBIDDEN,
            });
        }
        let Some(page) = Page::of(request.query.as_deref().unwrap_or_default()) else {
            self.judge.metrics.bad_requests.inc();
            return Answer::status(StatusCode::BAD_REQUEST);
        };
        let listed = spawn_blocking(move || {
            let world = self.judge.world.load_full();
            self.judge.fetching.as_ref().map(|fetching| fetching.list(&page, &world))
        });
        let listed = listed.await.ok().flatten();
        listed.unwrap_or_else(|| Answer::status(StatusCode::INTERNAL_SERVER_ERROR))
    }

    /// The answer to a request with a call; the same as before, if it comes again with its key.
    async fn call(self: Arc<Service>, door: Door, request: Request) -> Answer {
        let sender = match door.signs().then(|| self.sender(&request)) {
            Some(Ok(sender)) => sender,
            Some(Err(refusal)) => return self.refuse(&refusal),
            None => Sender::Known,
        };
        let start = Instant::now();
        let answer = match &request.key {
            Some(key) => {
                let moment = request.moment.map(u64::to_be_bytes);
                let moment = moment.as_ref().map_or(&[][..], |moment| moment);
                // No client gets the answer of another one.
                let client = sender.name().unwrap_or_default().as_bytes();
                let path = door.path_of(&request);
                let form: &[u8] = if request.asks_attest() { b"attest" } else { b"" };
                let name = name_of(&[path.as_bytes(), form, key, moment, &request.body, client]);
                let service = Arc::clone(&self);
                let made = async move { service.said(door, &request, &sender).await };
                self.answers.of(name, made).await
            }
            None => self.said(door, &request, &sender).await,
        };
        self.judge.metrics.requests.observe(start.elapsed().as_secs_f64());
        answer
    }

    async fn said(&self, door: Door, request: &Request, sender: &Sender) -> Answer {
        match door {
            Door::Verify => told::json(&self.verify(request).await),
            Door::Line => told::line(&self.verify(request).await, request.asks_attest()),
            Door::Explain => {
                let moment = self.moment(request.moment);
                explain::answer(self.judge.explain(&request.body, moment).await.as_ref())
            }
            Door::Verification => match atis::verification(&request.body) {
                Ok(call) => {
                    let moment = self.moment(call.time);
                    atis::verified(&self.judge.judge(&call.message, moment).await)
                }
                Err(refusal) => self.refuse(&refusal),
            },
            Door::Divert => self.divert(request, sender),
            Door::Retarget => self.retarget(request, sender).await,
            _ => match Diversion::read(&request.body).transpose() {
                Some(diversion) => self.sign_diversion(diversion, sender),
                None => self.signing(&request.body, sender),
            },
        }
    }

    /// The answer to a request to sign a call.
    fn signing(&self, body: &[u8], sender: &Sender) -> Answer {
        match self.sign(body, sender) {
            Ok(identity) => atis::signed(&identity),
            Err(refusal) => self.refuse(&refusal),
        }
    }

    /// The moment of a call: the clock's, or the one that is said where that is to be taken.
    pub(crate) fn moment(&self, said: Option<u64>) -> u64 {
        match said {
            Some(moment) if self.asked_moments => moment,
            _ => self.clock.now(),
        }
    }

    async fn verify(&self, request: &Request) -> Judged {
        self.judge.judge(&request.body, self.moment(request.moment)).await
    }

    /// What whoever asks for signatures is looked up in.
    pub(crate) fn admission<T>(&self, what: impl FnOnce(Admission) -> T) -> T {
        let (tokens, clients) = (self.tokens.load(), self.clients.load());
        what(Admission { tokens: &tokens, clients: &clients, is_local: self.signs_locally })
    }

    pub(crate) fn refuse(&self, refusal: &atis::Refusal) -> Answer {
        self.judge.metrics.bad_requests.inc();
        refusal.answer()
    }

    fn metrics(&self) -> Answer {
        let metrics = &self.judge.metrics;
        let world = self.judge.world.load();
        metrics.tickets.set(self.judge.tickets.count().unwrap_or(0) as i64);
        let are_kept = matches!(self.judge.tickets.health(), Health::Well);
        metrics.tickets_kept.set(are_kept.into());
        metrics.chains.set(world.chains() as i64);
        metrics.missing.set(world.missing() as i64);
        metrics.unreadable.set(world.unreadable_count() as i64);
        metrics.confirmed.set(world.confirmed() as i64);
        let fetched = self.judge.fetching.as_ref().and_then(|fetching| {
            fetching.measure();
            fetching.cache.ends()
        });
        let ends = world.ends().into_iter().chain(fetched).min();
        metrics.next_end.set(ends.map_or(0, |second| second as i64));
        if let Some(revocation) = &self.judge.revocation {
            metrics.revocation.measure(&revocation.load(), self.clock.now());
        }
        let codes = self.judge.codes.as_ref().map_or(0, Codes::count);
        metrics.fetches.codes.set(codes as i64);
        metrics.keys.measure();
        metrics.lost_lines.set(crate::logs::lost() as i64);
        let answer = Answer::text(StatusCode::OK, metrics.text());
        Answer { kind: "text/plain; version=0.0.4", ..answer }
    }
}

#[cfg(test)]
mod tests {
    use super::*;

    #[test]
    fn each_path_has_its_methods() {
        for (path, methods) in [
            ("/verify", "POST"),
            ("/verify/line", "POST"),
            ("/explain", "POST"),
            ("/stir/v1/verification", "POST"),
            ("/stir/v1/signing", "POST"),
            ("/divert", "POST"),
            ("/retarget", "POST"),
            ("/metrics", "GET, HEAD"),
            ("/healthz", "GET, HEAD"),
            ("/livez", "GET, HEAD"),
            ("/readyz", "GET, HEAD"),
            ("/certificates", "GET, HEAD"),
            ("/", "GET, HEAD, POST"),
        ] {
            let door = Door::at(path).expect(path);
            assert_eq!(door.methods(), methods, "{path}");
            for method in [Method::GET, Method::HEAD, Method::POST, Method::PUT, Method::OPTIONS] {
                let listed = methods.split(", ").any(|name| name == method.as_str());
                assert_eq!(door.allows(&method), listed, "{method} {path}");
            }
        }
        for path in ["//", "", "*", "/verify/", "/Verify", "/metrics/x"] {
            assert_eq!(Door::at(path), None, "{path}");
        }
    }
}
