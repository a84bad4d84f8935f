//! Tickets in a file: over restarts, kills, full disks, files that vanish, and clocks that leap.
mod ticket_trials;

use rusqlite::Connection;
use std::fs;
use std::io::{BufRead, BufReader, Write};
use std::path::Path;
use std::process::{Command, Stdio};
use std::sync::Arc;
use std::time::{Duration, Instant};
use stird::tickets::{Claim, Health, Passed, Sqlite, SystemClock, Tickets, TicketsError};
use ticket_trials::*;

fn open(path: &Path, clock: &Arc<Moved>) -> Sqlite {
    Sqlite::open(path, true, 1_000_000, clock.clone()).unwrap()
}

#[tokio::test]
async fn what_passed_doesnt_pass_after_a_restart_and_numbers_go_on() {
    let (folder, clock) = (Folder::new("restart"), Moved::at(START));
    let path = folder.file("tickets");
    for sync in [true, false] {
        let tickets = Sqlite::open(&path, sync, 9, clock.clone()).unwrap();
        assert_eq!(call(&tickets, &*clock, 7).await, if sync { Claim::Won } else { lost(7) });
        assert_eq!(call(&tickets, &*clock, 7).await, lost(7));
    }
    let tickets = open(&path, &clock);
    assert_eq!((tickets.count(), tickets.greatest()), (Some(1), 7));
    assert_eq!(call(&tickets, &*clock, 7).await, lost(7));
}

fn lost(winner: u64) -> Claim {
    Claim::Lost { winner }
}

#[tokio::test]
async fn numbers_up_to_the_greatest_are_kept() {
    let (folder, clock) = (Folder::new("greatest"), Moved::at(START));
    let passed = Passed { last: START + 60, number: u64::MAX };
    let path = folder.file("tickets");
    assert_eq!(open(&path, &clock).claim(ticket(1), passed, START).await, Claim::Won);
    let tickets = open(&path, &clock);
    assert_eq!(tickets.greatest(), u64::MAX);
    assert_eq!(tickets.claim(ticket(1), passed, START).await, lost(u64::MAX));
}

#[tokio::test(flavor = "multi_thread", worker_threads = 4)]
async fn of_calls_at_once_with_one_ticket_one_passes() {
    let (folder, clock) = (Folder::new("at-once"), Moved::at(START));
    let tickets = Arc::new(open(&folder.file("tickets"), &clock));
    let calls: Vec<_> = (0..64_u64)
        .map(|task| {
            let (tickets, clock) = (tickets.clone(), clock.clone());
            tokio::spawn(async move {
                let mut won = Vec::new();
                for number in 0..50 {
                    let number = (number + task) % 50;
                    match call(&*tickets, &*clock, number).await {
                        Claim::Won => won.push(number),
                        claim => assert_eq!(claim, lost(number)),
                    }
                }
                won
            })
        })
        .collect();
    let mut won = Vec::new();
    for calls in calls {
        won.extend(calls.await.unwrap());
    }
    won.sort_unstable();
    assert_eq!(won, (0..50).collect::<Vec<_>>());
}

#[tokio::test]
async fn a_second_service_is_refused_and_files_are_named() {
    let (folder, clock) = (Folder::new("second"), Moved::at(START));
    let one = folder.file("a.one");
    let _tickets = open(&one, &clock);
    let fault = Sqlite::open(&one, true, 9, clock.clone()).err().unwrap();
    assert!(matches!(fault, TicketsError::Taken { .. }), "{fault}");
    assert!(fault.to_string().starts_with(one.to_str().unwrap()), "{fault}");
    open(&folder.file("a.two"), &clock);
    open(&folder.file("a"), &clock);
    for (path, text) in
        [(folder.path().to_path_buf(), "a folder"), (folder.file("none/tickets"), "no folder")]
    {
        let fault = Sqlite::open(&path, true, 9, clock.clone()).err().unwrap();
        assert!(fault.to_string().starts_with(path.to_str().unwrap()), "{text}: {fault}");
    }
}

#[test]
fn a_second_process_is_refused() {
    let (folder, clock) = (Folder::new("process"), Moved::at(START));
    let path = folder.file("tickets");
    let _tickets = open(&path, &clock);
    let mut other = child("claims_until_it_is_killed", &path);
    let mut said = String::new();
    BufReader::new(other.stdout.take().unwrap()).read_line(&mut said).unwrap();
    assert!(said.contains("another service has this file"), "{said:?}");
    other.wait().unwrap();
}

#[tokio::test]
async fn a_name_that_sqlite_might_take_for_something_else_is_a_file() {
    let (folder, clock) = (Folder::new("names"), Moved::at(START));
    for name in [":memory:", "file:x?mode=memory", "a b", "\u{e9}"] {
        let path = folder.file(name);
        assert_eq!(call(&open(&path, &clock), &*clock, 1).await, Claim::Won);
        assert_eq!(call(&open(&path, &clock), &*clock, 1).await, lost(1), "{name}");
        assert!(path.is_file(), "{name}");
    }
}

#[tokio::test]
async fn a_full_disk_lets_nothing_pass_until_there_is_room() {
    let folder = Folder::new("full");
    if !folder.mount("512k") {
        return;
    }
    let clock = Moved::at(START);
    let path = folder.file("tickets");
    let tickets = open(&path, &clock);
    assert_eq!(call(&tickets, &*clock, 1).await, Claim::Won);
    let mut filler = Filler::new(folder.file("filler"));
    // What stands in pages that are there already may still be written, and a log that was closed
    // leaves room.
    let mut failed = Vec::new();
    let mut number = 1;
    while failed.len() < 3 {
        number += 1;
        assert!(number < 5_000);
        filler.fill();
        if call(&tickets, &*clock, number).await == Claim::Unable {
            failed.push(number);
            filler.fill();
            tickets.look().await;
        }
    }
    filler.fill();
    tickets.look().await;
    assert!(why(&tickets).starts_with(path.to_str().unwrap()), "{}", why(&tickets));
    for again in 0..3 {
        assert_eq!(call(&tickets, &*clock, number).await, Claim::Unable, "{again}");
        assert_eq!(call(&tickets, &*clock, 1).await, lost(1));
        tickets.look().await;
        why(&tickets);
    }
    drop(filler);
    tickets.look().await;
    assert_eq!(tickets.health(), Health::Well);
    // No answer said that these tickets are somebody's; so they are free, if they aren't in the
    // file.
    for failed in failed {
        let claim = call(&tickets, &*clock, failed).await;
        assert!(claim == Claim::Won || claim == lost(failed), "{claim:?}");
    }
    drop(tickets);
    let tickets = open(&path, &clock);
    for number in 1..=number {
        assert_eq!(call(&tickets, &*clock, number).await, lost(number));
    }
}

/// Takes all room of a file system, and gives it back when it goes.
struct Filler {
    file: fs::File,
    path: std::path::PathBuf,
}

impl Filler {
    fn new(path: std::path::PathBuf) -> Filler {
        Filler { file: fs::File::create(&path).unwrap(), path }
    }

    fn fill(&mut self) {
        while self.file.write_all(&[0; 512]).is_ok() {}
    }
}

impl Drop for Filler {
    fn drop(&mut self) {
        fs::remove_file(&self.path).unwrap();
        self.file.set_len(0).unwrap();
    }
}

#[tokio::test]
async fn a_claim_tries_a_disk_again_that_was_full() {
    let folder = Folder::new("full-again");
    if !folder.mount("512k") {
        return;
    }
    let clock = Moved::at(START);
    let tickets = open(&folder.file("tickets"), &clock);
    let mut filler = Filler::new(folder.file("filler"));
    filler.fill();
    let mut number = 0;
    while call(&tickets, &*clock, number).await == Claim::Won {
        number += 1;
        filler.fill();
    }
    drop(filler);
    let start = Instant::now();
    while call(&tickets, &*clock, 6_000).await == Claim::Unable {
        assert!(start.elapsed() < Duration::from_secs(5));
        tokio::time::sleep(Duration::from_millis(20)).await;
    }
    assert_eq!(call(&tickets, &*clock, 6_000).await, lost(6_000));
}

#[tokio::test]
async fn a_small_disk_is_enough_for_many_calls() {
    let folder = Folder::new("small");
    if !folder.mount("8m") {
        return;
    }
    let clock = Moved::at(START);
    let tickets = open(&folder.file("tickets"), &clock);
    for number in 0..3_000 {
        assert_eq!(call(&tickets, &*clock, number).await, Claim::Won, "{number}");
        if number % 20 == 0 {
            clock.wait(1);
        }
    }
}

#[tokio::test]
async fn a_file_that_vanishes_is_made_anew_with_all_that_is_held() {
    let (folder, clock) = (Folder::new("vanish"), Moved::at(START));
    let path = folder.file("tickets");
    let log = folder.file("tickets-wal");
    let other = folder.file("other");
    call(&open(&other, &clock), &*clock, 100).await;
    let takes: [(&str, &dyn Fn()); 5] = [
        ("deleted", &|| fs::remove_file(&path).unwrap()),
        ("moved", &|| fs::rename(&path, folder.file("elsewhere")).unwrap()),
        ("the log is deleted", &|| fs::remove_file(&log).unwrap()),
        ("both are deleted", &|| {
            fs::remove_file(&path).unwrap();
            fs::remove_file(&log).unwrap();
        }),
        ("another is in its place", &|| fs::rename(&other, &path).unwrap()),
    ];
    let mut number = 0;
    for (text, take) in takes {
        let tickets = open(&path, &clock);
        number += 10;
        assert_eq!(call(&tickets, &*clock, number).await, Claim::Won, "{text}");
        take();
        assert_eq!(call(&tickets, &*clock, number + 1).await, Claim::Won, "{text}");
        take_if(text == "deleted", &path);
        tickets.look().await;
        assert_eq!(tickets.health(), Health::Well, "{text}");
        drop(tickets);
        let tickets = open(&path, &clock);
        for number in [number, number + 1] {
            assert_eq!(call(&tickets, &*clock, number).await, lost(number), "{text}");
        }
    }
    assert_eq!(call(&open(&path, &clock), &*clock, 100).await, lost(100));
}

#[tokio::test]
async fn a_ticket_that_was_written_though_its_call_is_unjudged_isnt_free() {
    let (folder, clock) = (Folder::new("unsure"), Moved::at(START));
    let (path, log) = (folder.file("tickets"), folder.file("tickets-wal"));
    let tickets = open(&path, &clock);
    assert_eq!(call(&tickets, &*clock, 1).await, Claim::Won);
    // What is written now comes to the file, but not before its log is seen to be gone.
    fs::remove_file(&log).unwrap();
    fs::create_dir(&log).unwrap();
    let claims = [call(&tickets, &*clock, 2).await, call(&tickets, &*clock, 2).await];
    assert_eq!(claims, [Claim::Unable; 2]);
    why(&tickets);
    fs::remove_dir(&log).unwrap();
    tickets.look().await;
    assert_eq!(tickets.health(), Health::Well);
    for number in [1, 2] {
        assert_eq!(call(&tickets, &*clock, number).await, lost(number));
    }
    drop(tickets);
    assert_eq!(open(&path, &clock).count(), Some(2));
}

#[tokio::test]
async fn a_file_in_the_place_of_another_loses_no_ticket_of_its_own() {
    let (folder, clock) = (Folder::new("both"), Moved::at(START));
    let (path, other) = (folder.file("tickets"), folder.file("other"));
    let others = open(&other, &clock);
    for number in 100..110 {
        assert_eq!(call(&others, &*clock, number).await, Claim::Won);
    }
    drop(others);
    let tickets = open(&path, &clock);
    for number in 1..5 {
        assert_eq!(call(&tickets, &*clock, number).await, Claim::Won);
    }
    fs::rename(&other, &path).unwrap();
    for number in 5..10 {
        assert_eq!(call(&tickets, &*clock, number).await, Claim::Won);
    }
    drop(tickets);
    let tickets = open(&path, &clock);
    for number in (1..10).chain(100..110) {
        assert_eq!(call(&tickets, &*clock, number).await, lost(number));
    }
}

fn take_if(take: bool, path: &Path) {
    if take {
        fs::remove_file(path).unwrap();
    }
}

#[tokio::test]
async fn a_file_of_another_kind_is_refused_and_left_as_it_is() {
    let (folder, clock) = (Folder::new("foreign"), Moved::at(START));
    let database = folder.file("database");
    Connection::open(&database).unwrap().execute_batch("CREATE TABLE t (a)").unwrap();
    let damaged = folder.file("damaged");
    fs::write(&damaged, b"SQLite format 3\0 and then something else").unwrap();
    let text = folder.file("text");
    fs::write(&text, b"forgotten 5\nwhat is this?\n").unwrap();
    for (path, said) in [
        (database, "this isn't a file of tickets"),
        (damaged, "this isn't a file of tickets"),
        (text, "line 2 of the journal can't be read"),
    ] {
        let before = fs::read(&path).unwrap();
        let fault = Sqlite::open(&path, true, 9, clock.clone()).err().unwrap().to_string();
        assert_eq!(fault, format!("{}: {said}", path.display()));
        assert_eq!(fs::read(&path).unwrap(), before);
    }
}

#[tokio::test]
async fn a_journal_of_an_earlier_release_is_taken_over_once() {
    let (folder, clock) = (Folder::new("journal"), Moved::at(START));
    let path = folder.file("stird.journal");
    let hex = |number| ticket(number).iter().map(|byte| format!("{byte:02x}")).collect::<String>();
    let mut text = format!("forgotten {}\n", START - 100);
    for number in [3, 9, 5] {
        text += &format!("{} {} {number}\n", hex(number), START + 50);
    }
    fs::write(&path, text + &hex(4)).unwrap();
    // What an end within an earlier try left behind.
    fs::write(folder.file("stird.journal-import"), b"half of a file").unwrap();

    let lock = fs::File::create(folder.file("stird.lock")).unwrap();
    rustix::fs::flock(&lock, rustix::fs::FlockOperation::LockExclusive).unwrap();
    let fault = Sqlite::open(&path, true, 9, clock.clone()).err().unwrap();
    assert!(matches!(fault, TicketsError::Taken { .. }), "{fault}");
    drop(lock);

    let tickets = open(&path, &clock);
    assert_eq!((tickets.count(), tickets.greatest()), (Some(3), 9));
    assert_eq!(call_since(&tickets, &*clock, 3, START - 10).await, lost(3));
    assert_eq!(call_since(&tickets, &*clock, 4, START - 161).await, Claim::Forgotten);
    assert_eq!(call_since(&tickets, &*clock, 4, START).await, Claim::Won);
    drop(tickets);
    let tickets = open(&path, &clock);
    assert_eq!((tickets.count(), tickets.greatest()), (Some(4), 9));
    assert!(fs::read(&path).unwrap().starts_with(b"SQLite format 3\0"));
    assert!(!folder.file("stird.journal-import").exists());
}

#[tokio::test]
async fn a_link_stays_one_and_the_file_to_which_it_leads_is_taken_over() {
    let (folder, clock) = (Folder::new("link"), Moved::at(START));
    let (link, journal) = (folder.file("link"), folder.file("journal"));
    fs::write(&journal, format!("{} {} 8\n", "11".repeat(32), START + 50)).unwrap();
    std::os::unix::fs::symlink(&journal, &link).unwrap();
    for count in [2, 3] {
        let tickets = open(&link, &clock);
        assert_eq!(tickets.greatest(), 8);
        assert_eq!(call(&tickets, &*clock, count).await, Claim::Won);
        assert_eq!(tickets.count(), Some(count as usize));
        tickets.look().await;
        assert_eq!(tickets.health(), Health::Well);
    }
    assert!(fs::symlink_metadata(&link).unwrap().is_symlink());
    assert_eq!(open(&journal, &clock).count(), Some(3));
}

#[tokio::test]
async fn a_disk_that_hangs_holds_no_call_for_long() {
    let folder = Folder::new("hangs");
    let (image, disk) = (folder.file("image"), folder.file("disk"));
    let (image, disk) = (image.display().to_string(), disk.display().to_string());
    fs::create_dir(&disk).unwrap();
    let can = run("truncate", &["-s", "32M", &image])
        && run("mkfs.ext4", &["-q", &image])
        && run("mount", &["-o", "loop", &image, &disk]);
    if !can {
        eprintln!("left out: no disk can be mounted here");
        return;
    }
    let clock = Moved::at(START);
    let tickets = open(&folder.file("disk/tickets"), &clock);
    assert_eq!(call(&tickets, &*clock, 1).await, Claim::Won);
    assert!(run("fsfreeze", &["-f", &disk]));
    let start = Instant::now();
    let calls = (2..40).map(|number| call(&tickets, &*clock, number));
    let claims = futures_util::future::join_all(calls).await;
    let (took, replay) = (start.elapsed(), call(&tickets, &*clock, 1).await);
    // The write began a little later than the claims.
    tokio::time::sleep(Duration::from_millis(300)).await;
    let again = Instant::now();
    let quick = call(&tickets, &*clock, 50).await;
    let (again, health) = (again.elapsed(), tickets.health());
    assert!(run("fsfreeze", &["-u", &disk]));
    assert!(claims.iter().all(|claim| *claim == Claim::Unable), "{claims:?}");
    assert!(took < Duration::from_secs(4) && again < Duration::from_secs(1), "{took:?} {again:?}");
    assert_eq!((replay, quick), (lost(1), Claim::Unable));
    assert!(matches!(&health, Health::Ill { why } if why.contains("a write takes")), "{health:?}");
    well_within(&tickets, Duration::from_secs(5)).await;
    // They were written in the end, so their tickets aren't free.
    for number in 2..40 {
        assert_eq!(call(&tickets, &*clock, number).await, lost(number));
    }
    drop(tickets);
    assert!(run("umount", &[&disk]));
}

#[tokio::test]
async fn what_is_forgotten_goes_from_the_file_and_doesnt_pass_after_a_restart() {
    let (folder, clock) = (Folder::new("forget"), Moved::at(START));
    let path = folder.file("tickets");
    let tickets = open(&path, &clock);
    for number in 0..500 {
        assert_eq!(call(&tickets, &*clock, number).await, Claim::Won);
    }
    clock.wait(100);
    assert_eq!(call(&tickets, &*clock, 1_000).await, Claim::Won);
    tickets.look().await;
    assert_eq!(tickets.count(), Some(1));
    drop(tickets);
    let rows: i64 = Connection::open(&path)
        .unwrap()
        .query_row("SELECT count(*) FROM tickets", [], |row| row.get(0))
        .unwrap();
    assert_eq!(rows, 1);
    let tickets = open(&path, &clock);
    clock.set(START);
    assert_eq!(call_since(&tickets, &*clock, 5, START).await, Claim::Forgotten);
    assert_eq!(call_since(&tickets, &*clock, 2_000, START + 1).await, Claim::Won);
    assert_eq!(tickets.greatest(), 1_000);
}

#[tokio::test]
async fn the_greatest_number_outlives_its_ticket() {
    let (folder, clock) = (Folder::new("outlives"), Moved::at(START));
    let path = folder.file("tickets");
    let tickets = open(&path, &clock);
    call(&tickets, &*clock, 77).await;
    clock.wait(100);
    call(&tickets, &*clock, 5).await;
    tickets.look().await;
    drop(tickets);
    let tickets = open(&path, &clock);
    assert_eq!((tickets.count(), tickets.greatest()), (Some(1), 77));
}

#[tokio::test]
async fn a_clock_that_was_fast_harms_no_call_also_after_a_restart() {
    let (folder, clock) = (Folder::new("fast"), Moved::at(START));
    let path = folder.file("tickets");
    let tickets = open(&path, &clock);
    assert_eq!(call(&tickets, &*clock, 1).await, Claim::Won);
    clock.set(START + 3600);
    assert_eq!(call(&tickets, &*clock, 2).await, Claim::Won);
    clock.wait(30);
    assert_eq!(call(&tickets, &*clock, 3).await, Claim::Won);
    clock.set(START + 30);
    assert_eq!(call(&tickets, &*clock, 4).await, Claim::Won);
    assert_eq!(call_since(&tickets, &*clock, 1, START).await, lost(1));
    drop(tickets);
    let tickets = open(&path, &clock);
    assert_eq!(call(&tickets, &*clock, 5).await, Claim::Won);
    assert_eq!(call_since(&tickets, &*clock, 2, START + 3600).await, lost(2));
    assert_eq!(call_since(&tickets, &*clock, 1, START).await, lost(1));
}

#[tokio::test]
async fn a_clock_that_is_fast_at_a_restart_forgets_nothing_early() {
    let (folder, clock) = (Folder::new("fast-start"), Moved::at(START));
    let path = folder.file("tickets");
    assert_eq!(call(&open(&path, &clock), &*clock, 1).await, Claim::Won);
    clock.set(START + 3600);
    let tickets = open(&path, &clock);
    assert_eq!(call(&tickets, &*clock, 2).await, Claim::Won);
    tickets.look().await;
    clock.wait(20);
    assert_eq!(call(&tickets, &*clock, 3).await, Claim::Won);
    clock.set(START + 20);
    assert_eq!(call_since(&tickets, &*clock, 1, START).await, lost(1));
    assert_eq!(call(&tickets, &*clock, 4).await, Claim::Won);
}

#[tokio::test]
async fn no_more_tickets_are_held_than_may_be() {
    let (folder, clock) = (Folder::new("most"), Moved::at(START));
    let tickets = Sqlite::open(&folder.file("tickets"), true, 2, clock.clone()).unwrap();
    let mut claims = Vec::new();
    for number in [1, 2, 3, 1] {
        claims.push(call(&tickets, &*clock, number).await);
    }
    assert_eq!(claims, [Claim::Won, Claim::Won, Claim::Unable, lost(1)]);
    assert!(why(&tickets).contains("2 tickets are held"));
    clock.wait(71);
    assert_eq!(call(&tickets, &*clock, 3).await, Claim::Won);
    assert_eq!(tickets.health(), Health::Well);
}

/// Not a test of its own: another one starts it as a process, and kills it.
#[test]
fn claims_until_it_is_killed() {
    let Some(path) = std::env::var_os("TICKETS_FILE") else { return };
    let tickets = match Sqlite::open(Path::new(&path), true, 1_000_000, Arc::new(SystemClock)) {
        Ok(tickets) => Arc::new(tickets),
        Err(fault) => {
            println!("{fault}");
            std::process::exit(1);
        }
    };
    let runtime = tokio::runtime::Builder::new_multi_thread().enable_time().build().unwrap();
    runtime.block_on(async {
        let first = tickets.greatest() + 1;
        let tasks: Vec<_> = (0..32)
            .map(|task| {
                let tickets = tickets.clone();
                tokio::spawn(async move {
                    for number in (first + task..).step_by(32) {
                        if call(&*tickets, &SystemClock, number).await == Claim::Won {
                            // One write, so that a line is whole or isn't there.
                            let line = format!("{number}\n");
                            std::io::stdout().lock().write_all(line.as_bytes()).unwrap();
                        }
                    }
                })
            })
            .collect();
        for task in tasks {
            let _ = task.await;
        }
    });
}

/// Not a test of its own: another one starts it as a process, so that it has its own descriptors.
#[tokio::test]
async fn claims_while_no_descriptor_is_free() {
    let Some(path) = std::env::var_os("TICKETS_FILE") else { return };
    let path = Path::new(&path);
    let (own, clock) = (std::process::id().to_string(), Moved::at(START));
    let tickets = open(path, &clock);
    assert_eq!(call(&tickets, &*clock, 1).await, Claim::Won);
    assert!(run("prlimit", &["--nofile=64:64", "--pid", &own]));
    let mut taken = Vec::new();
    while let Ok(file) = fs::File::open("/dev/null") {
        taken.push(file);
    }
    assert_eq!(call(&tickets, &*clock, 2).await, Claim::Won);
    fs::remove_file(path).unwrap();
    // The descriptors of the old file serve for the new one.
    assert_eq!(call(&tickets, &*clock, 3).await, Claim::Won);
    assert_eq!(tickets.health(), Health::Well);
    drop((tickets, taken));
    let tickets = open(path, &clock);
    for number in 1..=3 {
        assert_eq!(call(&tickets, &*clock, number).await, lost(number));
    }
    println!("held\n");
}

#[test]
fn without_a_free_descriptor_tickets_are_kept_and_a_file_that_vanished_is_made_anew() {
    let folder = Folder::new("descriptors");
    let mut other = child("claims_while_no_descriptor_is_free", &folder.file("tickets"));
    let said: Vec<String> =
        BufReader::new(other.stdout.take().unwrap()).lines().map(Result::unwrap).collect();
    assert!(other.wait().unwrap().success() && said.contains(&"held".into()), "{said:?}");
}

fn child(test: &str, path: &Path) -> std::process::Child {
    let program = std::env::current_exe().unwrap();
    let mut child = Command::new(program)
        .args(["--exact", test, "--nocapture", "--quiet"])
        .env("TICKETS_FILE", path)
        .stdout(Stdio::piped())
        .spawn()
        .unwrap();
    // The frame of the tests says two lines first.
    let mut said = Vec::new();
    let stdout = child.stdout.as_mut().unwrap();
    while !said.ends_with(b"running 1 test\n") {
        let mut byte = [0];
        std::io::Read::read_exact(stdout, &mut byte).unwrap();
        said.push(byte[0]);
    }
    child
}

#[tokio::test]
async fn what_was_answered_before_a_kill_doesnt_pass_after_it() {
    let folder = Folder::new("kill");
    let path = folder.file("tickets");
    let mut answered = Vec::new();
    for round in 0..8 {
        let mut killed = child("claims_until_it_is_killed", &path);
        let stdout = killed.stdout.take().unwrap();
        let reader = std::thread::spawn(move || {
            BufReader::new(stdout).lines().map_while(Result::ok).collect::<Vec<_>>()
        });
        std::thread::sleep(Duration::from_millis(150 + 37 * round));
        killed.kill().unwrap();
        killed.wait().unwrap();
        let lines = reader.join().unwrap();
        answered.extend(lines.iter().filter_map(|line| line.parse::<u64>().ok()));
    }
    assert!(answered.len() > 100, "{} claims were answered", answered.len());
    let tickets = Sqlite::open(&path, true, 1_000_000, Arc::new(SystemClock)).unwrap();
    for number in answered {
        let claim = call(&tickets, &SystemClock, number).await;
        assert!(matches!(claim, Claim::Lost { .. }), "{number} {claim:?}");
    }
}
