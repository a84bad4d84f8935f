//! A Redis that a test starts, and peers that stand between.
use crate::ticket_trials::{run, Folder};
use std::io::{Read, Write};
use std::process::{Child, Command, Stdio};
use std::sync::atomic::{AtomicU16, Ordering::SeqCst};
use std::time::{Duration, Instant};
use tokio::io::{AsyncReadExt, AsyncWriteExt};
use tokio::net::{TcpListener, TcpStream};

/// A Redis on a port of its own. It ends with the test.
pub struct Server {
    child: Child,
    pub port: u16,
    pub folder: Folder,
    words: Vec<String>,
}

/// A port that nobody has, below those that the system gives to others (32,768 on).
pub fn free_port() -> u16 {
    static NEXT: AtomicU16 = AtomicU16::new(0);
    let first = 20_000 + (std::process::id() % 120) as u16 * 100;
    loop {
        let port = first + NEXT.fetch_add(1, SeqCst) % 100;
        if std::net::TcpListener::bind(("127.0.0.1", port)).is_ok() {
            return port;
        }
    }
}

impl Server {
    /// Starts one with these words, besides its port and its folder.
    pub fn new(name: &str, words: &[&str]) -> Server {
        Server::in_folder(Folder::new(name), words)
    }

    pub fn in_folder(folder: Folder, words: &[&str]) -> Server {
        let port = free_port();
        let words: Vec<String> = words.iter().map(|word| word.to_string()).collect();
        let child = start(port, &folder, &words);
        Server { child, port, folder, words }
    }

    pub fn address(&self) -> String {
        format!("127.0.0.1:{}", self.port)
    }

    /// Kills it.
    pub fn stop(&mut self) {
        let _ = self.child.kill();
        let _ = self.child.wait();
    }

    /// Starts it again, with nothing in it.
    pub fn start(&mut self) {
        self.child = start(self.port, &self.folder, &self.words);
    }

    /// Lets it stand still, or go on.
    pub fn signal(&self, name: &str) {
        assert!(run("kill", &[name, &self.child.id().to_string()]));
    }

    /// How many connections it has, besides the one that asks for this.
    pub fn connections(&self) -> usize {
        let facts = self.ask(&["INFO", "clients"]);
        let count = facts.lines().find_map(|line| line.strip_prefix("connected_clients:"));
        count.and_then(|count| count.trim().parse::<usize>().ok()).unwrap() - 1
    }

    /// What `redis-cli` says to these words.
    pub fn ask(&self, words: &[&str]) -> String {
        ask(self.port, words)
    }
}

impl Drop for Server {
    fn drop(&mut self) {
        self.stop();
    }
}

fn start(port: u16, folder: &Folder, words: &[String]) -> Child {
    let tls = words.iter().any(|word| word == "--tls-port");
    let at = if tls { vec![] } else { vec!["--port".into(), port.to_string()] };
    let child = Command::new("redis-server")
        .args(["--bind", "127.0.0.1", "--save", "", "--dir", &folder.name()])
        .args(at)
        .args(words.iter().map(|word| word.replace("PORT", &port.to_string())))
        .stdout(Stdio::null())
        .spawn()
        .unwrap();
    let limit = Instant::now() + Duration::from_secs(10);
    while !answers(port) {
        assert!(Instant::now() < limit, "the Redis at {port} doesn't come");
        std::thread::sleep(Duration::from_millis(20));
    }
    child
}

/// Whether what listens there deals with its connections: it may listen for a while before that.
/// One that speaks TLS ends this one.
fn answers(port: u16) -> bool {
    let ask = |mut stream: std::net::TcpStream| {
        stream.set_read_timeout(Some(Duration::from_secs(10)))?;
        stream.write_all(b"PING\r\n")?;
        stream.read(&mut [0; 64])
    };
    match std::net::TcpStream::connect(("127.0.0.1", port)).and_then(ask) {
        Ok(_) => true,
        Err(error) => error.kind() == std::io::ErrorKind::ConnectionReset,
    }
}

pub fn ask(port: u16, words: &[&str]) -> String {
    let output =
        Command::new("redis-cli").args(["-p", &port.to_string()]).args(words).output().unwrap();
    String::from_utf8(output.stdout).unwrap().trim_end().into()
}

/// A peer that answers whatever comes with these bytes, once a connection. Gives its port.
pub async fn parrot(answer: &'static [u8]) -> u16 {
    let listener = TcpListener::bind("127.0.0.1:0").await.unwrap();
    let port = listener.local_addr().unwrap().port();
    tokio::spawn(async move {
        while let Ok((mut stream, _)) = listener.accept().await {
            tokio::spawn(async move {
                let mut bytes = [0; 1_024];
                if stream.read(&mut bytes).await.is_ok() {
                    let _ = stream.write_all(answer).await;
                    let _ = stream.read(&mut bytes).await;
                }
            });
        }
    });
    port
}

/// A way to a Redis, on which something is done with each piece of what it answers: the number of
/// the connection, and of its piece, say which. Gives its port.
pub async fn way<T>(to: u16, treat: T) -> u16
where
    T: Fn(usize, usize, Vec<u8>) -> (Duration, Option<Vec<u8>>) + Clone + Send + Sync + 'static,
{
    let listener = TcpListener::bind("127.0.0.1:0").await.unwrap();
    let port = listener.local_addr().unwrap().port();
    tokio::spawn(async move {
        for number in 0.. {
            let (near, _) = listener.accept().await.unwrap();
            let far = TcpStream::connect(("127.0.0.1", to)).await.unwrap();
            let treat = treat.clone();
            tokio::spawn(carry(near, far, move |answer, bytes| treat(number, answer, bytes)));
        }
    });
    port
}

async fn carry<T>(near: TcpStream, far: TcpStream, treat: T)
where
    T: Fn(usize, Vec<u8>) -> (Duration, Option<Vec<u8>>) + Send + Sync + 'static,
{
    let (mut near_in, mut near_out) = near.into_split();
    let (mut far_in, mut far_out) = far.into_split();
    tokio::spawn(async move {
        let _ = tokio::io::copy(&mut near_in, &mut far_out).await;
    });
    let mut bytes = vec![0; 64 * 1_024];
    for answer in 0.. {
        let size = match far_in.read(&mut bytes).await {
            Ok(0) | Err(_) => return,
            Ok(size) => size,
        };
        match treat(answer, bytes[..size].to_vec()) {
            (_, None) => return,
            (pause, Some(bytes)) if pause.is_zero() => {
                let _ = near_out.write_all(&bytes).await;
            }
            (pause, Some(bytes)) => {
                for byte in bytes {
                    tokio::time::sleep(pause).await;
                    let _ = near_out.write_all(&[byte]).await;
                }
            }
        }
    }
}
