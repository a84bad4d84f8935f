//! Runs over x5us, into a folder.
mod server;

use server::certificates::{now, Identity};
use server::{answer, good, identities, Server, Table};
use std::fs;
use std::sync::atomic::{AtomicU64, Ordering};
use std::sync::Arc;
use std::time::Duration;
use stir_trust::cache::{Clock, Folder, Run, Times, Told};
use stir_trust::fetch::Reason;

/// A clock that tells this second.
struct At(AtomicU64);

impl Clock for At {
    fn now(&self) -> u64 {
        self.0.load(Ordering::SeqCst)
    }

    fn since_start(&self) -> Duration {
        Duration::ZERO
    }
}

#[tokio::test]
async fn a_run_fetches_what_is_due_and_keeps_what_fails() {
    let path = std::env::temp_dir().join(format!("stir-a-run-{}", std::process::id()));
    drop(fs::remove_dir_all(&path));
    let (authority, identity) = identities();
    let ends = now() + 864_000;
    let der = Identity::root("a", ends).der();
    let body = der.clone();
    let broken = Arc::new(AtomicU64::new(0));
    let is_broken = Arc::clone(&broken);
    let server = Server::start(&identity, move |target| match target {
        "/gone" => answer("404 Not Found", ""),
        "/later" if is_broken.load(Ordering::SeqCst) == 1 => answer("503 Later", ""),
        _ => good("Cache-Control: max-age=1000\r\n", &body),
    })
    .await;
    let clock = Arc::new(At(AtomicU64::new(now())));
    let run = |is_all| Run {
        fetcher: Arc::new(server.fetcher(&authority, Table::here())),
        folder: Folder::open(&path, 50_000).expect("a folder"),
        clock: clock.clone(),
        is_all,
        jobs: 4,
    };
    let mut x5us: Vec<String> = (0..70).map(|number| server.x5u(&format!("/{number}"))).collect();
    x5us.extend(["/gone", "/later", "/0"].map(|target| server.x5u(target)));
    let fetched = |is_all| {
        let (run, x5us) = (run(is_all), &x5us);
        async move {
            let (mut good, mut failed) = (0, Vec::new());
            let there = run.fetch(x5us, |x5u, told| match told {
                Told::Fetched(entry) => {
                    let file = fs::read(run.folder.file_of(x5u)).expect("it is written");
                    assert_eq!(*entry.der, *file, "as it is told: {x5u}");
                    good += 1;
                }
                Told::Failed { reason, stays } => {
                    failed.push((x5u.to_owned(), reason, stays.map(|times| times.fetched)));
                }
            });
            let there = there.await.expect("a run");
            (good, failed, there)
        }
    };
    let first = clock.0.load(Ordering::SeqCst);
    let gone = (server.x5u("/gone"), Reason::Status(404), None);
    let (good, failed, there) = fetched(false).await;
    assert_eq!((good, &failed[..], there.len()), (71, &[gone.clone()][..], 71));
    let times = Times { fetched: first, due: first + 1_000, ends };
    assert_eq!(there[3], (x5us[3].clone(), times));
    let file = Folder::open(&path, 50_000).expect("a folder").file_of(&x5us[3]);
    assert_eq!(fs::read(file).expect("its file"), der);
    assert_eq!(server.targets().len(), 72, "what stands twice is fetched once");

    let (good, failed, there) = fetched(false).await;
    assert_eq!((good, &failed[..], there.len()), (0, &[gone.clone()][..], 71), "nothing is due");
    assert_eq!(fetched(true).await.0, 71, "all are fetched");

    clock.0.fetch_add(1_001, Ordering::SeqCst);
    broken.store(1, Ordering::SeqCst);
    let (good, mut failed, there) = fetched(false).await;
    failed.sort_by_key(|(x5u, ..)| x5u.clone());
    let later = (server.x5u("/later"), Reason::Status(503), Some(first));
    assert_eq!((good, failed, there.len()), (70, vec![gone, later], 71), "the old one stays");
    fs::remove_dir_all(&path).expect("removed");
}
