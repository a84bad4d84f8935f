//! A server of https on 127.0.0.1 that behaves as a test wants, and a resolver with a table.
#![allow(dead_code)]
pub mod certificates;

use async_trait::async_trait;
use certificates::{now, Identity};
use openssl::ssl::{
    Ssl, SslAcceptor, SslConnector, SslMethod, SslOptions, SslVerifyMode, SslVersion,
};
use std::collections::HashMap;
use std::io;
use std::net::IpAddr;
use std::pin::Pin;
use std::sync::atomic::{AtomicUsize, Ordering};
use std::sync::{Arc, Mutex};
use std::time::Duration;
use stir_trust::fetch::{Fetcher, Hosts, Reach, Resolver, Settings};
use tokio::io::{AsyncReadExt, AsyncWriteExt};
use tokio::net::{TcpListener, TcpStream};
use tokio_openssl::SslStream;

/// What a server does after it has read a request.
#[derive(Clone)]
pub enum Does {
    /// Writes this and closes the connection.
    Says(Vec<u8>),
    /// Writes this a byte each so often.
    Drips(Vec<u8>, Duration),
    /// Writes this, and then that again and again.
    Repeats(Vec<u8>, Vec<u8>),
    /// Waits, and then writes this.
    Waits(Duration, Vec<u8>),
}

/// An answer of 200 with these fields and this body.
pub fn good(fields: &str, body: &[u8]) -> Does {
    let head = format!("HTTP/1.1 200 OK\r\nContent-Length: {}\r\n{fields}\r\n", body.len());
    Does::Says([head.as_bytes(), body].concat())
}

/// An answer of this status with these fields and no body.
pub fn answer(status: &str, fields: &str) -> Does {
    Does::Says(format!("HTTP/1.1 {status}\r\n{fields}Content-Length: 0\r\n\r\n").into())
}

/// A server, and what was asked of it.
pub struct Server {
    pub port: u16,
    asked: Arc<Asked>,
}

/// What was asked of a server.
#[derive(Default)]
struct Asked {
    connections: AtomicUsize,
    targets: Mutex<Vec<String>>,
    now: AtomicUsize,
    most: AtomicUsize,
}

type Behaviour = dyn Fn(&str) -> Does + Send + Sync;

impl Server {
    /// A server of this identity, which does what is said for each target.
    pub async fn start(
        identity: &Identity,
        does: impl Fn(&str) -> Does + Send + Sync + 'static,
    ) -> Server {
        Server::start_with(identity, SslVersion::TLS1_3, does).await
    }

    /// One that speaks this version of TLS at most.
    pub async fn start_with(
        identity: &Identity,
        version: SslVersion,
        does: impl Fn(&str) -> Does + Send + Sync + 'static,
    ) -> Server {
        let mut builder = SslAcceptor::mozilla_intermediate(SslMethod::tls()).expect("TLS");
        builder.set_min_proto_version(None).expect("a version");
        builder.set_max_proto_version(Some(version)).expect("a version");
        builder.clear_options(SslOptions::NO_TLSV1_1 | SslOptions::NO_TLSV1_3);
        builder.set_cipher_list("ALL:@SECLEVEL=0").expect("ciphers");
        builder.set_certificate(&identity.certificate).expect("a certificate");
        builder.set_private_key(&identity.key).expect("a key");
        let acceptor = builder.build();
        let listener = TcpListener::bind("127.0.0.1:0").await.expect("a port");
        let port = listener.local_addr().expect("an address").port();
        let asked = Arc::<Asked>::default();
        let server = Server { port, asked: Arc::clone(&asked) };
        let does: Arc<Behaviour> = Arc::new(does);
        tokio::spawn(async move {
            while let Ok((stream, _)) = listener.accept().await {
                asked.connections.fetch_add(1, Ordering::SeqCst);
                let ssl = Ssl::new(acceptor.context()).expect("TLS");
                let (does, asked) = (Arc::clone(&does), Arc::clone(&asked));
                tokio::spawn(async move {
                    served(ssl, stream, does, &asked).await;
                });
            }
        });
        server
    }

    /// What was asked for, in its order.
    pub fn targets(&self) -> Vec<String> {
        self.asked.targets.lock().expect("targets").clone()
    }

    pub fn connections(&self) -> usize {
        self.asked.connections.load(Ordering::SeqCst)
    }

    /// The most requests that waited for their answer at once.
    pub fn most_at_once(&self) -> usize {
        self.asked.most.load(Ordering::SeqCst)
    }

    /// A fetcher that may ask this server under the name `cr.example`.
    pub fn fetcher(&self, authority: &Identity, resolver: Arc<Table>) -> Fetcher {
        Fetcher::new(self.settings(authority), resolver).expect("a fetcher")
    }

    pub fn settings(&self, authority: &Identity) -> Settings {
        let hosts = format!("*:{0}\n127.0.0.1:{0}\n", self.port);
        Settings {
            authorities: Some(authority.pem()),
            reach: Reach::PublicAnd(vec![here()]),
            limit: Duration::from_secs(10),
            ..Settings::new(Hosts::read(hosts.as_bytes()).expect("hosts"))
        }
    }

    pub fn x5u(&self, target: &str) -> String {
        format!("https://cr.example:{}{target}", self.port)
    }
}

async fn served(ssl: Ssl, stream: TcpStream, does: Arc<Behaviour>, asked: &Asked) -> Option<()> {
    let mut stream = SslStream::new(ssl, stream).ok()?;
    Pin::new(&mut stream).accept().await.ok()?;
    let mut head = Vec::new();
    while !head.ends_with(b"\r\n\r\n") {
        head.push(stream.read_u8().await.ok()?);
    }
    let head = String::from_utf8(head).ok()?;
    let target = head.strip_prefix("GET ")?.split(' ').next()?.to_owned();
    asked.targets.lock().expect("targets").push(target.clone());
    match does(&target) {
        Does::Says(answer) => stream.write_all(&answer).await.ok()?,
        Does::Drips(answer, each) => {
            for byte in answer {
                stream.write_all(&[byte]).await.ok()?;
                tokio::time::sleep(each).await;
            }
        }
        Does::Repeats(first, again) => {
            stream.write_all(&first).await.ok()?;
            loop {
                stream.write_all(&again).await.ok()?;
            }
        }
        Does::Waits(time, answer) => {
            let now = asked.now.fetch_add(1, Ordering::SeqCst) + 1;
            asked.most.fetch_max(now, Ordering::SeqCst);
            tokio::time::sleep(time).await;
            asked.now.fetch_sub(1, Ordering::SeqCst);
            stream.write_all(&answer).await.ok()?;
        }
    }
    stream.shutdown().await.ok()
}

/// Whether a server takes a client that speaks this version alone.
pub async fn takes(port: u16, version: SslVersion) -> bool {
    let taken = move || {
        let mut builder = SslConnector::builder(SslMethod::tls_client()).expect("TLS");
        builder.set_min_proto_version(Some(version)).expect("a version");
        builder.set_max_proto_version(Some(version)).expect("a version");
        builder.set_cipher_list("ALL:@SECLEVEL=0").expect("ciphers");
        builder.set_verify(SslVerifyMode::NONE);
        let stream = std::net::TcpStream::connect(("127.0.0.1", port)).expect("a connection");
        builder.build().connect("cr.example", stream).is_ok()
    };
    tokio::task::spawn_blocking(taken).await.expect("a thread")
}

pub fn here() -> IpAddr {
    "127.0.0.1".parse().expect("an address")
}

/// A table of names. Each look-up of a name gives its next addresses, and the last ones stay.
#[derive(Default)]
pub struct Table {
    names: HashMap<String, Vec<Vec<IpAddr>>>,
    pub asked: AtomicUsize,
}

impl Table {
    pub fn of(names: &[(&str, &[&[&str]])]) -> Arc<Table> {
        let of = |list: &&[&str]| list.iter().map(|text| text.parse().expect(text)).collect();
        let names =
            names.iter().map(|(name, lists)| (name.to_string(), lists.iter().map(of).collect()));
        Arc::new(Table { names: names.collect(), asked: AtomicUsize::new(0) })
    }

    /// The one in which `cr.example` is here.
    pub fn here() -> Arc<Table> {
        Table::of(&[("cr.example", &[&["127.0.0.1"]])])
    }
}

#[async_trait]
impl Resolver for Table {
    async fn addresses(&self, name: &str) -> io::Result<Vec<IpAddr>> {
        let number = self.asked.fetch_add(1, Ordering::SeqCst);
        let lists = self.names.get(name).ok_or(io::ErrorKind::NotFound)?;
        Ok(lists.get(number).or(lists.last()).cloned().unwrap_or_default())
    }
}

/// An authority of TLS, and a server's identity by it for `cr.example`.
pub fn identities() -> (Identity, Identity) {
    let authority = Identity::root("Test authority", now() + 86_400);
    let server = authority.issue("cr.example", &["cr.example"], now() + 86_400);
    (authority, server)
}
