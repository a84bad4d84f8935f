//! The sockets of `collect`: packets of HEP3 over UDP and TCP, read in a thread of their own.

use crate::hep::{self, HEAD};
use crate::{say, Fault};
use std::io;
use std::sync::atomic::{AtomicU64, Ordering};
use std::sync::mpsc::{sync_channel, Receiver, SyncSender, TrySendError};
use std::sync::Arc;
use std::thread;
use std::time::Duration;
use tokio::io::AsyncReadExt;
use tokio::net::{TcpListener, TcpStream, UdpSocket};
use tokio::runtime::{Builder, Runtime};
use tokio::signal::unix::{signal, SignalKind};
use tokio::sync::Semaphore;
use tokio::time::{sleep, timeout};

/// So many packets wait at most to be written.
const WAITING: usize = 8_192;

/// So many connections there are at most.
const CONNECTIONS: usize = 64;

/// How long a connection may say nothing, and how long a packet may take to come.
const IDLE: Duration = Duration::from_secs(600);
const PACKET: Duration = Duration::from_secs(10);

/// How long is waited for a place, or after a fault of a socket.
const PAUSE: Duration = Duration::from_millis(5);

/// The most bytes of a packet.
const LONGEST: usize = 65_535;

/// What comes.
#[derive(Debug)]
pub(crate) enum Event {
    Packet(Vec<u8>),
    /// It is to end.
    End,
}

/// How many packets were lost, since others waited to be written.
#[derive(Clone, Debug, Default)]
pub(crate) struct Lost(Arc<AtomicU64>);

impl Lost {
    pub fn count(&self) -> u64 {
        self.0.load(Ordering::Relaxed)
    }
}

/// Listens at these addresses, and gives what comes, in its order; and how much is lost.
pub(crate) fn start(addresses: &[String]) -> Result<(Receiver<Event>, Lost), Fault> {
    let (give, take) = sync_channel(WAITING);
    let lost = Lost::default();
    let runtime = Builder::new_current_thread().enable_all().build().map_err(|_| Fault::Memory)?;
    let places = Arc::new(Semaphore::new(CONNECTIONS));
    for address in addresses {
        let fault = |error: io::Error| Fault::Words(format!("{address}: {error}"));
        let (udp, tcp) = runtime.block_on(bound(address)).map_err(fault)?;
        let at = tcp.local_addr().map_err(fault)?;
        say(&format!("listens at {at}"));
        runtime.spawn(datagrams(udp, give.clone(), lost.clone()));
        runtime.spawn(connections(tcp, give.clone(), Arc::clone(&places)));
    }
    let ends = |kind| {
        let _inside = runtime.enter();
        signal(kind).map_err(|error| Fault::Words(format!("signals: {error}")))
    };
    let (mut terminated, mut interrupted) =
        (ends(SignalKind::terminate())?, ends(SignalKind::interrupt())?);
    let ended = async move {
        tokio::select! {
            _ = terminated.recv() => {}
            _ = interrupted.recv() => {}
        }
    };
    thread::spawn(move || run(&runtime, ended, &give));
    Ok((take, lost))
}

/// Both sockets of an address. If its port is 0, TCP has that of UDP.
async fn bound(address: &str) -> io::Result<(UdpSocket, TcpListener)> {
    let udp = UdpSocket::bind(address).await?;
    let tcp = TcpListener::bind(udp.local_addr()?).await?;
    Ok((udp, tcp))
}

fn run(runtime: &Runtime, ended: impl std::future::Future, give: &SyncSender<Event>) {
    runtime.block_on(ended);
    // If nobody takes it, it has ended.
    let _ = give.send(Event::End);
}

/// Gives the packets of datagrams. One that has no place is lost: an agent doesn't wait.
async fn datagrams(socket: UdpSocket, give: SyncSender<Event>, lost: Lost) {
    let mut buffer = vec![0; LONGEST];
    loop {
        match socket.recv_from(&mut buffer).await {
            Ok((size, _)) => {
                let packet = buffer.get(..size).unwrap_or_default().to_vec();
                match give.try_send(Event::Packet(packet)) {
                    Ok(()) => {}
                    Err(TrySendError::Full(_)) => {
                        lost.0.fetch_add(1, Ordering::Relaxed);
                    }
                    Err(TrySendError::Disconnected(_)) => return,
                }
            }
            Err(_) => sleep(PAUSE).await,
        }
    }
}

async fn connections(listener: TcpListener, give: SyncSender<Event>, places: Arc<Semaphore>) {
    loop {
        let Ok(place) = Arc::clone(&places).acquire_owned().await else { return };
        match listener.accept().await {
            Ok((stream, _)) => {
                let give = give.clone();
                tokio::spawn(async move {
                    packets(stream, give).await;
                    drop(place);
                });
            }
            Err(_) => sleep(PAUSE).await,
        }
    }
}

/// Gives the packets of a connection until it ends, or says what is none: then nobody knows where
/// the next one begins.
async fn packets(mut stream: TcpStream, give: SyncSender<Event>) {
    loop {
        let mut head = [0; HEAD];
        let Ok(Ok(_)) = timeout(IDLE, stream.read_exact(&mut head)).await else { return };
        let Some(length) = hep::length(&head) else {
            let _ = give.try_send(Event::Packet(head.to_vec()));
            return;
        };
        let mut packet = head.to_vec();
        packet.resize(length, 0);
        let rest = packet.get_mut(HEAD..).unwrap_or_default();
        let Ok(Ok(_)) = timeout(PACKET, stream.read_exact(rest)).await else { return };
        let mut event = Event::Packet(packet);
        // A connection waits for its place, and so does its agent.
        while let Err(TrySendError::Full(back)) = give.try_send(event) {
            event = back;
            sleep(PAUSE).await;
        }
    }
}
