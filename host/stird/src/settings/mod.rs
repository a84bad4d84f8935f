//! What the words of the command line and the file of settings order.
mod file;
mod words;

pub use file::ConfigError;
pub use words::{Form, Listen};

use crate::fetching;
use crate::files::{Anchors, Codes, Ended, HostFiles, ListFiles, Sources};
use crate::judge::Verstat;
use crate::record;
use crate::tickets::MOST_SHARDS;
use clap::parser::ValueSource;
use clap::{CommandFactory, FromArgMatches};
use std::ffi::OsString;
use std::path::PathBuf;
use std::time::Duration;
use stir::Settings as Rules;
use stir_trust::fetch::Reach;
use words::{Choice, EndedList, Moments, NumbersForm, TrustedCodes, VerstatForm, Words};

/// The version of the project.
pub const VERSION: &str = include_str!("../../../../VERSION").trim_ascii();

/// How long the stores of tickets, and what else a call needs, may take at most.
const STORES: Duration = Duration::from_secs(4);

/// What is ordered.
#[derive(Debug)]
pub struct Settings {
    /// Where to listen.
    pub listen: Vec<Listen>,
    /// The mode of Unix sockets.
    pub socket_mode: u32,
    /// TLS over TCP, if it is to be spoken.
    pub tls: Option<Tls>,
    /// The chain map.
    pub chains: Option<PathBuf>,
    /// The trust anchors.
    pub anchors: Anchors,
    /// The code table.
    pub table: Option<PathBuf>,
    /// Which codes stand for numbers.
    pub codes: Codes,
    /// How certificates are fetched, if they are.
    pub fetch: Option<Fetch>,
    /// Which certificates are revoked, if that is looked at.
    pub revocation: Option<ListFiles>,
    /// How old calls may be, and how numbers are written.
    pub rules: Rules,
    /// Whether the moment of a call is what the caller says.
    pub asked_moments: bool,
    /// Whether calls come in the order of their moments.
    pub ordered_moments: bool,
    /// Whether lists in P-Asserted-Identity are split.
    pub split: bool,
    /// Which values the `verstat` parameter has.
    pub verstat: Verstat,
    /// The file in which tickets are kept.
    pub journal: Option<PathBuf>,
    /// Whether a call is answered after its ticket is on the disk.
    pub sync: bool,
    /// The Redis servers in which tickets are kept.
    pub redis: Vec<String>,
    /// How many tickets are held at most.
    pub tickets: usize,
    /// How many answers are kept at most.
    pub answers: usize,
    /// How many connections there may be at once.
    pub connections: usize,
    /// How many from one address.
    pub connections_each: usize,
    /// How long a request may take to come, and its answer to go.
    pub request: Duration,
    /// How long a connection may be without a request.
    pub idle: Duration,
    /// How often the files are looked at.
    pub reload: Duration,
    /// The table of numbers that are signed for.
    pub signing: Option<PathBuf>,
    /// The tokens of those that may have calls signed.
    pub signing_tokens: Option<PathBuf>,
    /// The clients that may have some calls signed.
    pub signing_clients: Option<PathBuf>,
    /// Whether without both calls are signed for this host over TCP too.
    pub signs_locally: bool,
    /// How calls are recorded, if they are.
    pub record: Option<record::Order>,
    /// Whether there is a page to look at.
    pub page: bool,
    /// The form of what is told, and the file for it.
    pub log: Form,
    /// The file for it; standard error if there is none.
    pub log_file: Option<PathBuf>,
}

/// How certificates are fetched.
#[derive(Clone, Debug)]
pub struct Fetch {
    /// From whom.
    pub files: HostFiles,
    /// How they are waited for and kept.
    pub order: fetching::Order,
}

/// The files of TLS.
#[derive(Clone, Debug)]
pub struct Tls {
    /// The certificate and those after it.
    pub certificate: PathBuf,
    /// Its private key.
    pub key: PathBuf,
    /// The authorities of clients, if clients are to show a certificate.
    pub clients: Option<PathBuf>,
}

/// Why words can't be taken.
#[derive(Debug, thiserror::Error)]
pub enum SettingsError {
    /// A word is no text.
    #[error("{} isn't UTF-8", .0.to_string_lossy())]
    NotText(OsString),
    /// The words aren't those of the options; or help, or the version, is wanted.
    #[error("{0}")]
    Words(#[from] clap::Error),
    /// No start is wanted, but this completion of the words for a shell.
    #[error("a completion is wanted")]
    Completion(String),
    /// The file of settings can't be taken.
    #[error("{0}")]
    File(#[from] ConfigError),
    /// There are no trust anchors.
    #[error("--anchors is missing, or --roots")]
    NoAnchors,
    /// Numbers are to be hashed, and there is no key.
    #[error("--record-key is missing, by which numbers are hashed")]
    NoRecordKey,
    /// There are more Redis servers than tickets are shared out among.
    #[error("--redis may be given {MOST_SHARDS} times at most")]
    ManyRedis,
}

/// What these words order, and the file of settings that they name.
///
/// # Errors
///
/// They can't be taken; or help, the version, or a completion is wanted.
///
/// ```
/// use stird::settings::{read, Listen};
///
/// let words = ["--chains", "a", "--anchors", "b", "--table", "c", "--listen", "unix:/run/stird"];
/// let settings = read(words.map(Into::into))?;
/// assert_eq!(settings.listen, [Listen::Unix("/run/stird".into())]);
/// # Ok::<(), stird::settings::SettingsError>(())
/// ```
pub fn read(words: impl IntoIterator<Item = OsString>) -> Result<Settings, SettingsError> {
    let mut words = words
        .into_iter()
        .map(OsString::into_string)
        .collect::<Result<Vec<String>, OsString>>()
        .map_err(SettingsError::NotText)?;
    words.insert(0, "stird".into());
    let options = Words::command().version(VERSION);
    // A fault of these words is one of the whole too.
    let given = options.clone().ignore_errors(true).try_get_matches_from(&words).ok();
    if let Some((given, path)) =
        given.as_ref().and_then(|given| Some((given, given.get_one::<PathBuf>("config")?)))
    {
        let is_given = |id: &str| given.value_source(id) == Some(ValueSource::CommandLine);
        words.extend(file::words(path, &options, is_given)?);
    }
    let matches = options.clone().try_get_matches_from(words)?;
    let words = Words::from_arg_matches(&matches)?;
    match words.completion {
        Some(shell) => Err(SettingsError::Completion(completion(options, shell))),
        None => Settings::of(words),
    }
}

/// The completion of these words for a shell.
fn completion(mut options: clap::Command, shell: clap_complete::Shell) -> String {
    let mut script = Vec::new();
    clap_complete::generate(shell, &mut options, "stird", &mut script);
    String::from_utf8_lossy(&script).into_owned()
}

impl Settings {
    /// The files by which calls are judged and signed.
    pub fn sources(&self) -> Sources {
        Sources {
            rules: self.rules.clone(),
            chains: self.chains.clone(),
            anchors: self.anchors.clone(),
            table: self.table.clone(),
            codes: self.codes,
            signing: self.signing.clone(),
        }
    }

    /// Whether calls would be signed, but nobody could ask for that.
    pub fn signs_for_nobody(&self) -> bool {
        // What systemd hands over may be a Unix socket.
        let may_be = |listen: &Listen| matches!(listen, Listen::Unix(_) | Listen::Systemd);
        let has_socket = self.listen.iter().any(may_be);
        let has_lists = self.signing_tokens.is_some() || self.signing_clients.is_some();
        let is_reached = has_lists || has_socket || self.signs_locally;
        self.signing.is_some() && !is_reached && !self.asks_for_certificates()
    }

    /// Whether clients over TLS are asked for a certificate.
    pub fn asks_for_certificates(&self) -> bool {
        self.tls.as_ref().is_some_and(|tls| tls.clients.is_some())
    }

    /// How long what is under way at the end may take: a request has to come, its certificates and
    /// its ticket may be waited for, and its answer has to go.
    pub fn drain(&self) -> Duration {
        let wait = self.fetch.as_ref().map_or(Duration::ZERO, |fetch| fetch.order.limit);
        self.request * 2 + wait + STORES
    }

    fn of(words: Words) -> Result<Settings, SettingsError> {
        let (fetch, revocation) = (fetch(&words), revocation(&words));
        let record = record(&words)?;
        if words.redis.len() > MOST_SHARDS {
            return Err(SettingsError::ManyRedis);
        }
        let anchors = match (words.anchors, words.roots) {
            (Some(path), _) => Anchors::Der(path),
            (None, Some(path)) => Anchors::Pem(path),
            (None, None) => return Err(SettingsError::NoAnchors),
        };
        // Without a table no code would stand for any number.
        let codes = match (words.codes, &words.table) {
            (Some(TrustedCodes::Listed), _) | (None, Some(_)) => Codes::Listed,
            (Some(TrustedCodes::Trusted), _) | (None, None) => Codes::Trusted,
        };
        Ok(Settings {
            listen: words.listen,
            socket_mode: words.socket_mode,
            tls: words.tls_certificate.zip(words.tls_key).map(|(certificate, key)| Tls {
                certificate,
                key,
                clients: words.tls_clients,
            }),
            chains: words.chains,
            anchors,
            table: words.table,
            codes,
            fetch,
            revocation,
            rules: Rules {
                past: words.past,
                future: words.future,
                country: words.country,
                national: words.national,
            },
            asked_moments: matches!(words.moments, Moments::Asked | Moments::Ordered),
            ordered_moments: matches!(words.moments, Moments::Ordered),
            split: matches!(words.split, Choice::Yes),
            verstat: match words.verstat {
                VerstatForm::Plain => Verstat::Plain,
                VerstatForm::Letter => Verstat::Letter,
            },
            journal: words.journal,
            sync: matches!(words.sync, Choice::Yes),
            redis: words.redis,
            tickets: words.tickets,
            answers: words.answers,
            connections: words.connections,
            connections_each: words.connections_each.unwrap_or(usize::MAX),
            request: words.request,
            idle: words.idle,
            reload: words.reload,
            signing: words.signing,
            signing_tokens: words.signing_tokens,
            signing_clients: words.signing_clients,
            signs_locally: matches!(words.signing_local, Choice::Yes),
            record,
            page: matches!(words.page, Choice::Yes),
            log: words.log,
            log_file: words.log_file,
        })
    }
}

/// Which certificates are revoked, if there are lists.
fn revocation(words: &Words) -> Option<ListFiles> {
    let ended = match words.crl_ended {
        EndedList::Go => Ended::Go,
        EndedList::Refuse => Ended::Refuse,
    };
    let (lists, signers) = (words.crl.clone(), words.crl_signer.clone());
    (!lists.is_empty()).then_some(ListFiles { lists, signers, ended })
}

/// How calls are recorded, if they are.
fn record(words: &Words) -> Result<Option<record::Order>, SettingsError> {
    let numbers = match (words.record_numbers, &words.record_key) {
        (NumbersForm::Whole, _) => record::Form::Whole,
        (NumbersForm::Short, _) => record::Form::Short,
        (NumbersForm::Hashed, Some(key)) => record::Form::Hashed(key.clone()),
        (NumbersForm::Hashed, None) => return Err(SettingsError::NoRecordKey),
    };
    Ok(words.record.as_ref().map(|path| {
        let to = match path.as_os_str() == "-" {
            true => record::To::Output,
            false => record::To::File(path.clone()),
        };
        record::Order { to, numbers }
    }))
}

/// How certificates are fetched, if hosts are named.
fn fetch(words: &Words) -> Option<Fetch> {
    let files = HostFiles {
        hosts: words.fetch_hosts.clone()?,
        authorities: words.fetch_authorities.clone(),
        reach: match words.fetch_private {
            Choice::Yes => Reach::All,
            Choice::No => Reach::Public,
        },
    };
    let order = fetching::Order {
        folder: words.fetch.clone(),
        limit: words.fetch_wait,
        waits: words.connections.div_ceil(4),
    };
    Some(Fetch { files, order })
}

#[cfg(test)]
mod tests {
    use super::*;

    fn of(words: &str) -> Result<Settings, SettingsError> {
        read(words.split_whitespace().map(OsString::from))
    }

    /// A file of settings with this text, and what the words beside it and it order.
    fn with(text: &str, words: &str) -> Result<Settings, SettingsError> {
        static NUMBER: std::sync::atomic::AtomicUsize = std::sync::atomic::AtomicUsize::new(0);
        let number = NUMBER.fetch_add(1, std::sync::atomic::Ordering::Relaxed);
        let name = format!("stird-settings-{}-{number}.toml", std::process::id());
        let path = std::env::temp_dir().join(name);
        std::fs::write(&path, text).expect("a file");
        let read = of(&format!("{words} --config {}", path.display()));
        std::fs::remove_file(&path).expect("it is removed");
        read
    }

    #[test]
    fn trust_anchors_are_enough_and_the_door_is_the_loopback() {
        let settings = of("--roots a").unwrap();
        assert_eq!(settings.anchors, Anchors::Pem("a".into()));
        assert_eq!((settings.chains, settings.table), (None, None));
        assert_eq!((settings.codes, settings.fetch.is_none()), (Codes::Trusted, true));
        assert_eq!(of("--roots a --codes listed").unwrap().codes, Codes::Listed);
        assert_eq!(of("--roots a --table c").unwrap().codes, Codes::Listed);
        let settings = of("--chains a --anchors b --table c").unwrap();
        assert_eq!(settings.anchors, Anchors::Der("b".into()));
        assert_eq!(settings.listen, [Listen::Tcp("127.0.0.1:8080".into())]);
        assert_eq!(
            (settings.rules.past, settings.rules.future, settings.sync, settings.asked_moments),
            (60, 5, true, false)
        );
        assert_eq!((settings.connections, settings.connections_each), (256, usize::MAX));
    }

    #[test]
    fn moments_are_the_clocks_or_asked_in_any_order_or_in_one() {
        for (words, wanted) in [
            ("", (false, false)),
            ("--moments clock", (false, false)),
            ("--moments asked", (true, false)),
            ("--moments ordered", (true, true)),
        ] {
            let settings = of(&format!("--chains a --anchors b --table c {words}")).unwrap();
            assert_eq!((settings.asked_moments, settings.ordered_moments), wanted, "{words}");
        }
    }

    #[test]
    fn signing_is_for_this_host_over_tcp_only_if_that_is_said() {
        for (words, wanted) in [
            ("", (false, true)),
            ("--signing-local no", (false, true)),
            ("--signing-local yes", (true, false)),
            ("--listen unix:a", (false, false)),
            ("--listen unix:a --listen 127.0.0.1:1", (false, false)),
            ("--signing-clients c --signing-tokens t", (false, false)),
            ("--signing-tokens t", (false, false)),
            ("--tls-certificate c --tls-key k", (false, true)),
            ("--tls-certificate c --tls-key k --tls-clients a", (false, false)),
        ] {
            let settings = of(&format!("--roots a --signing s {words}")).unwrap();
            let found = (settings.signs_locally, settings.signs_for_nobody());
            assert_eq!(found, wanted, "{words}");
        }
        assert!(!of("--roots a").unwrap().signs_for_nobody());
    }

    #[test]
    fn calls_are_recorded_in_a_file_or_on_the_output_with_numbers_in_a_form() {
        let path = |name: &str| record::To::File(name.into());
        for (words, wanted) in [
            ("", None),
            ("--record-numbers short", None),
            ("--record -", Some((record::To::Output, record::Form::Whole))),
            ("--record f --record-numbers short", Some((path("f"), record::Form::Short))),
            (
                "--record f --record-numbers hashed --record-key k",
                Some((path("f"), record::Form::Hashed("k".into()))),
            ),
        ] {
            let settings = of(&format!("--roots a {words}")).unwrap();
            let wanted = wanted.map(|(to, numbers)| record::Order { to, numbers });
            assert_eq!(settings.record, wanted, "{words}");
        }
    }

    #[test]
    fn certificates_are_fetched_if_hosts_are_named() {
        let settings = of("--roots a --fetch-hosts h --connections 10").unwrap();
        assert_eq!(settings.codes, Codes::Trusted);
        let Fetch { files, order } = settings.fetch.expect("they are fetched");
        assert_eq!((files.reach, order.folder, order.waits), (Reach::Public, None, 3));
        assert_eq!(order.limit, Duration::from_millis(1200));
        let words = "--roots a --fetch-hosts h --fetch f --fetch-authorities x --fetch-wait 0 \
            --fetch-private yes --codes trusted";
        let settings = of(words).unwrap();
        let Fetch { files, order } = settings.fetch.expect("they are fetched");
        assert_eq!((files.reach, files.authorities), (Reach::All, Some("x".into())));
        assert_eq!((order.folder, order.limit), (Some("f".into()), Duration::ZERO));
        assert_eq!(settings.codes, Codes::Trusted);
    }

    #[test]
    fn words_that_cant_be_taken_are_named() {
        let three = "--chains a --anchors b --table c";
        for (words, told) in [
            ("", "--anchors is missing, or --roots"),
            ("--chains a --table b", "--anchors is missing, or --roots"),
            (&format!("{three} --roots r"), "--roots"),
            (&format!("{three} --fetch f"), "--fetch-hosts"),
            (&format!("{three} --fetch-authorities f"), "--fetch-hosts"),
            (&format!("{three} --fetch-hosts h --fetch-wait 10001"), "--fetch-wait"),
            (&format!("{three} --codes all"), "--codes"),
            (&format!("{three} --past 86401"), "--past"),
            (&format!("{three} --past -1"), "'-1'"),
            (&format!("{three} --request 0"), "--request"),
            (&format!("{three} --chains a"), "--chains"),
            (&format!("{three} --journal j --redis r"), "--redis"),
            (&format!("{three}{}", " --redis r".repeat(65)), "--redis"),
            (&format!("{three} --sync maybe"), "maybe"),
            (&format!("{three} --listen"), "--listen"),
            (&format!("{three} --listen nowhere"), "HOST:PORT"),
            (&format!("{three} --socket-mode 1777"), "octal"),
            (&format!("{three} --tls-certificate a"), "--tls-key"),
            (&format!("{three} --crl a"), "--crl-signer"),
            (&format!("{three} --crl-signer a"), "--crl"),
            (&format!("{three} --crl a --crl-signer b --crl-ended stop"), "stop"),
            (&format!("{three} --record-key a"), "--record"),
            (&format!("{three} --record a --record-numbers hashed"), "--record-key"),
            (&format!("{three} --verstat none"), "none"),
            (&format!("{three} --signing-tokens a"), "--signing"),
            (&format!("{three} --signing-clients a"), "--signing"),
            (&format!("{three} --signing-local yes"), "--signing"),
            (&format!("{three} --signing s --signing-local maybe"), "maybe"),
            (&format!("{three} --signing s --signing-local yes --signing-tokens t"), "--signing"),
            (&format!("{three} --signing s --signing-clients c --signing-local yes"), "--signing"),
            (&format!("{three} --nothing a"), "--nothing"),
            (&format!("{three} a"), "'a'"),
        ] {
            let fault = of(words).err().map(|fault| fault.to_string()).unwrap_or_default();
            assert!(fault.contains(told), "{words}: {fault}");
        }
    }

    #[test]
    fn a_completion_has_each_option_and_is_wanted_alone() {
        for shell in ["bash", "zsh"] {
            let told = of(&format!("--completion {shell}"));
            let Err(SettingsError::Completion(script)) = told else { panic!("{shell}: {told:?}") };
            for option in Words::command().get_arguments().filter(|option| !option.is_hide_set()) {
                let name = option.get_long().unwrap_or_default();
                assert!(script.contains(&format!("--{name}")), "{shell}: {name}");
            }
        }
        let fault = of("--completion bash --roots a").expect_err("it is wanted alone");
        assert!(fault.to_string().contains("--completion"), "{fault}");
    }

    #[test]
    fn a_word_that_isnt_text_is_named() {
        use std::os::unix::ffi::OsStringExt;
        let fault = read([OsString::from_vec(vec![0xff])]).expect_err("it is no text");
        assert!(fault.to_string().ends_with("isn't UTF-8"), "{fault}");
    }

    #[test]
    fn several_doors_are_listed() {
        let words = "--chains a --anchors b --table c --listen [::1]:80 --listen unix:/run/s";
        let wanted = [Listen::Tcp("[::1]:80".into()), Listen::Unix("/run/s".into())];
        assert_eq!(of(words).unwrap().listen, wanted);
    }

    #[test]
    fn a_file_has_the_same_names_and_the_command_line_goes_before_it() {
        let text = "chains = 'a'\nanchors = 'b'\npast = 7\nfuture = 8\nsync = false\n\
            listen = ['unix:/a', '127.0.0.1:1']\ntls-certificate = 'x'\ntls-key = 'y'\n";
        let settings = with(text, "--table c --past 9").unwrap();
        assert_eq!((settings.rules.past, settings.rules.future, settings.sync), (9, 8, false));
        assert_eq!((settings.listen.len(), settings.tls.is_some()), (2, true));
        let settings = with(text, "--table c --listen 127.0.0.1:2").unwrap();
        assert_eq!(settings.listen, [Listen::Tcp("127.0.0.1:2".into())]);
    }

    #[test]
    fn what_a_file_cant_say_is_named() {
        for (text, told) in [
            ("past = 86401", "--past"),
            ("past = 1.5", "past is a text"),
            ("pasts = 1", "pasts isn't an option"),
            ("config = 'x'", "config isn't an option"),
            ("completion = 'bash'", "completion isn't an option"),
            ("past", "line 1"),
            ("past = 1\npast = 2", "past"),
            ("journal = 'a'\nredis = 'b'", "--redis"),
        ] {
            let fault = with(text, "--chains a --anchors b --table c");
            let fault = fault.err().map(|fault| fault.to_string()).unwrap_or_default();
            assert!(fault.contains(told), "{text}: {fault}");
        }
        let fault = of("--config /nowhere/at/all").expect_err("there is no such file");
        assert!(fault.to_string().starts_with("/nowhere/at/all: "), "{fault}");
    }
}
