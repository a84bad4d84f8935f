//! Measures how many tickets a second can be claimed: `claims FILE yes|no TASKS SECONDS` in a file,
//! synced or not, or `claims ADDRESS redis TASKS SECONDS` in a Redis.
use std::path::Path;
use std::sync::atomic::{AtomicU64, Ordering};
use std::sync::Arc;
use std::time::{Duration, Instant};
use stird::tickets::{Claim, Clock, Passed, Redis, Sqlite, SystemClock, Tickets};

fn main() -> Result<(), Box<dyn std::error::Error>> {
    let words: Vec<String> = std::env::args().skip(1).collect();
    let [place, way, tasks, seconds] = &words[..] else {
        return Err(
            "claims FILE yes|no TASKS SECONDS, or claims ADDRESS redis TASKS SECONDS".into()
        );
    };
    let clock = Arc::new(SystemClock);
    let tickets: Arc<dyn Tickets> = match way.as_str() {
        "redis" => Arc::new(Redis::new(place, clock)?),
        sync => Arc::new(Sqlite::open(Path::new(place), sync == "yes", 100_000_000, clock)?),
    };
    let (tasks, length) = (tasks.parse()?, Duration::from_secs(seconds.parse()?));
    let runtime = tokio::runtime::Builder::new_multi_thread().enable_all().build()?;
    let mut times = runtime.block_on(measure(tickets, tasks, length));
    times.sort_unstable();
    let at = |part: f64| {
        let index = (times.len().saturating_sub(1) as f64 * part) as usize;
        times.get(index).copied().unwrap_or_default().as_secs_f64() * 1e3
    };
    println!(
        "{} tasks: {:.0} claims a second, p50 {:.2} ms, p99 {:.2} ms, most {:.2} ms",
        tasks,
        times.len() as f64 / length.as_secs_f64(),
        at(0.5),
        at(0.99),
        at(1.0)
    );
    Ok(())
}

/// How long each claim took that was won.
async fn measure(tickets: Arc<dyn Tickets>, tasks: u64, length: Duration) -> Vec<Duration> {
    let numbers = Arc::new(AtomicU64::new(tickets.greatest()));
    let end = Instant::now() + length;
    let tasks: Vec<_> = (0..tasks)
        .map(|_| {
            let (tickets, numbers) = (tickets.clone(), numbers.clone());
            tokio::spawn(async move {
                let mut times = Vec::new();
                while Instant::now() < end {
                    let number = numbers.fetch_add(1, Ordering::Relaxed) + 1;
                    let now = SystemClock.now();
                    let mut ticket = [0; 32];
                    ticket[..8].copy_from_slice(&number.to_be_bytes());
                    ticket[8..16].copy_from_slice(&now.to_be_bytes());
                    let start = Instant::now();
                    let passed = Passed { last: now + 60, number };
                    if tickets.claim(ticket, passed, now).await == Claim::Won {
                        times.push(start.elapsed());
                    }
                }
                times
            })
        })
        .collect();
    let mut times = Vec::new();
    for task in tasks {
        times.extend(task.await.unwrap_or_default());
    }
    times
}
