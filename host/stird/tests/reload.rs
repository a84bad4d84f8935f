//! What calls are judged by, read from files and read again: files of all kinds, changed in all
//! ways.
mod support;

use std::io::Write;
use std::os::unix::fs::PermissionsExt;
use std::path::Path;
use std::sync::atomic::{AtomicBool, Ordering};
use std::time::{Duration, Instant};
use stir_trust::fetch::{HostsFault, Reach};
use stir_trust::roots::RootsFault;
use stir_trust::Verifier;
use stird::files::look::Kind;
use stird::files::{read, Anchors, Codes, FileFault, HostFiles, MayAsk, Sources, Why, World};
use support::{as_another_user, fifo, x5u, Dice, Files};

fn verifier() -> Verifier {
    Verifier::new().expect("OpenSSL")
}

fn start(sources: &Sources) -> World {
    read(sources, &verifier(), None).expect("it is read")
}

/// Looks and reads once more, as the service does each `--reload` seconds.
fn again(sources: &Sources, world: World) -> World {
    if !world.is_stale() {
        return world;
    }
    read(sources, &verifier(), Some(&world)).expect("there is memory")
}

/// Reads until all rests: what was changed a moment ago is read twice.
fn settled(sources: &Sources, mut world: World) -> World {
    for _ in 0..20 {
        if !world.is_stale() {
            return world;
        }
        world = again(sources, world);
        std::thread::sleep(Duration::from_millis(20));
    }
    panic!("it stays stale: {:?}", world.faults());
}

/// Whether the chain of an x5u is there and all of it is confirmed, so that nobody is asked.
fn is_confirmed(world: &World, number: usize) -> bool {
    let mut asked = 0;
    let listed = world.listed(x5u(number).as_bytes());
    let chain = listed.map(|listed| {
        listed.chain(|_| {
            asked += 1;
            false
        })
    });
    chain.is_some_and(|chain| chain.is_ok()) && asked == 0
}

/// The chain of an x5u, to see whether it is the same one.
fn at(world: &World, number: usize) -> *const stird::files::Listed {
    world.listed(x5u(number).as_bytes()).expect("it is there")
}

/// Does something that may not last longer than this many seconds.
fn within<T: Send>(seconds: u64, what: impl FnOnce() -> T + Send) -> T {
    let begin = Instant::now();
    let came = what();
    assert!(begin.elapsed() < Duration::from_secs(seconds), "{:?}", begin.elapsed());
    came
}

#[test]
fn a_world_is_what_its_files_say() {
    let files = Files::new(3);
    files.put_map(&format!("https://other.example/ {}\n", files.folder.path("0.der").display()));
    let world = settled(&files.sources(), start(&files.sources()));
    assert_eq!((world.chains(), world.missing(), world.unreadable_count()), (4, 0, 0));
    assert_eq!(world.confirmed(), 4, "three leaves, and the certificate above them");
    assert!((0..3).all(|number| is_confirmed(&world, number)));
    assert!(world.listed(b"https://other.example/").is_some());
    assert!(world.listed(b"https://none.example/").is_none());
    assert_eq!(world.ends(), u64::try_from(support::VALID.1).ok());
    assert!(world.faults().is_empty() && world.news().is_empty());
}

#[test]
fn what_is_refused_at_the_start_is_named_with_its_line() {
    let files = Files::new(1);
    let good = files.sources();
    let refused = |file: &str, bytes: &[u8]| {
        let before = std::fs::read(files.folder.path(file)).expect("it is there");
        files.folder.put(file, bytes);
        let fault = read(&good, &verifier(), None).err().expect("it is refused");
        files.folder.put(file, before);
        assert_eq!(fault.file, Some(files.folder.path(file)));
        fault
    };
    let line = |fault: FileFault| (fault.line, fault.to_string().contains("line "));
    assert_eq!(line(refused("chains.txt", b"; map\na b\nno-file\n")), (Some(3), true));
    assert_eq!(line(refused("chains.txt", b"a b\na c\n")), (Some(2), true));
    assert!(matches!(refused("anchors.der", b"no anchors").why, Why::Library(_)));
    assert!(matches!(refused("table.txt", b"bad table\n").why, Why::Library(_)));
    let long = refused("chains.txt", &vec![b';'; 16_777_217]);
    assert_eq!(long.why, Why::Long(16_777_216));
    let other = Sources {
        rules: stir::Settings { past: 86_401, ..stir::Settings::default() },
        ..good.clone()
    };
    let fault = read(&other, &verifier(), None).err().expect("they are refused");
    assert_eq!((fault.file, fault.line), (None, None));
    assert!(read(&good, &verifier(), None).is_ok());
}

#[test]
fn a_start_never_waits_for_what_is_no_file() {
    let files = Files::new(1);
    for name in ["chains", "anchors", "table"] {
        let other = files.folder.path("other");
        let mut sources = files.sources();
        match name {
            "chains" => sources.chains = Some(other.clone()),
            "anchors" => sources.anchors = Anchors::Der(other.clone()),
            _ => sources.table = Some(other.clone()),
        }
        let told = |wanted: Why| {
            let fault = within(5, || read(&sources, &verifier(), None).err()).expect("refused");
            assert_eq!((fault.file, fault.why), (Some(other.clone()), wanted));
        };
        told(Why::Missing);
        fifo(&other);
        told(Why::NoFile(Kind::Fifo));
        std::fs::remove_file(&other).expect("removed");
        std::fs::create_dir(&other).expect("a folder");
        told(Why::NoFile(Kind::Folder));
        std::fs::remove_dir(&other).expect("removed");
        let socket = std::os::unix::net::UnixListener::bind(&other).expect("a socket");
        told(Why::NoFile(Kind::Socket));
        drop(socket);
        std::fs::remove_file(&other).expect("removed");
        std::os::unix::fs::symlink("/dev/zero", &other).expect("a link");
        told(Why::NoFile(Kind::Device));
        std::fs::remove_file(&other).expect("removed");
    }
}

#[test]
fn chains_that_are_no_files_hold_up_nobody_and_are_told_once() {
    let files = Files::new(4);
    let sources = files.sources();
    for number in 1..4 {
        std::fs::remove_file(files.folder.path(&format!("{number}.der"))).expect("removed");
    }
    fifo(&files.folder.path("1.der"));
    std::fs::create_dir(files.folder.path("2.der")).expect("a folder");
    let world = within(5, || start(&sources));
    assert_eq!((world.chains(), world.missing(), world.unreadable_count()), (1, 1, 2));
    assert_eq!(world.unreadable(), [files.folder.path("1.der"), files.folder.path("2.der")]);
    assert_eq!(world.news().len(), 2, "{:?}", world.news());
    assert!(world
        .news()
        .iter()
        .all(|line| line.contains("breaks rule 10") || line.contains("break rule 10")));
    let world = settled(&sources, world);
    assert!(!world.is_stale(), "a folder isn't tried again each second");
    files.renew(0);
    let world = settled(&sources, world);
    assert!(world.news().is_empty(), "it was told before: {:?}", world.news());
    std::fs::remove_file(files.folder.path("1.der")).expect("removed");
    files.renew(1);
    files.renew(3);
    std::fs::remove_dir(files.folder.path("2.der")).expect("removed");
    let world = settled(&sources, world);
    assert_eq!((world.chains(), world.missing(), world.unreadable_count()), (3, 1, 0));
    assert!(is_confirmed(&world, 1) && is_confirmed(&world, 3));
}

#[test]
fn a_chain_that_cant_be_read_any_more_stays_what_it_was_and_all_else_is_taken() {
    let files = Files::new(3);
    let sources = files.sources();
    let world = settled(&sources, start(&sources));
    let before = [at(&world, 0), at(&world, 1), at(&world, 2)];
    let path = files.folder.path("1.der");
    std::fs::rename(&path, files.folder.path("kept.der")).expect("moved");
    std::fs::create_dir(&path).expect("a folder");
    files.renew(2);
    let world = again(&sources, world);
    assert!(world.news()[0].contains("stays what it was"), "{:?}", world.news());
    assert_eq!((world.chains(), world.unreadable_count()), (3, 1));
    assert_eq!(at(&world, 0), before[0], "it didn't change, and wasn't opened anew");
    assert_eq!(at(&world, 1), before[1], "it stays what it was");
    assert_ne!(at(&world, 2), before[2], "it was renewed");
    assert!((0..3).all(|number| is_confirmed(&world, number)));
    // Also over another world: its bytes are held.
    let other = support::Certificate::authority("other", None);
    let anchors = [std::fs::read(sources.anchors.path()).expect("anchors"), other.der()].concat();
    files.folder.put("anchors.der", anchors);
    let world = settled(&sources, world);
    assert_eq!((world.chains(), world.unreadable_count()), (3, 1));
    assert_ne!(at(&world, 0), before[0], "it was opened anew");
    assert!((0..3).all(|number| is_confirmed(&world, number)));
}

#[test]
fn a_file_without_permission_is_told_and_taken_once_it_has_it() {
    if as_another_user("a_file_without_permission_is_told_and_taken_once_it_has_it") {
        return;
    }
    let files = Files::new(2);
    let sources = files.sources();
    let mode = |name: &str, mode: u32| {
        let permissions = std::fs::Permissions::from_mode(mode);
        std::fs::set_permissions(files.folder.path(name), permissions).expect("changed");
    };
    mode("1.der", 0);
    let world = start(&sources);
    assert_eq!((world.chains(), world.unreadable_count()), (1, 1));
    assert!(world.news()[0].contains("Permission denied"), "{:?}", world.news());
    let world = again(&sources, world);
    assert!(world.news().is_empty(), "it was told before: {:?}", world.news());
    mode("1.der", 0o644);
    let world = settled(&sources, world);
    assert_eq!((world.chains(), world.unreadable_count()), (2, 0));
    mode("table.txt", 0);
    let world = again(&sources, world);
    let told = world.faults();
    assert_eq!(told.len(), 1);
    assert_eq!(told[0].file, sources.table);
    assert!(world.is_stale(), "it is tried again");
    mode("table.txt", 0o644);
    assert!(settled(&sources, world).faults().is_empty());
    mode("anchors.der", 0);
    let fault = read(&sources, &verifier(), None).err().expect("it can't be read");
    assert_eq!(fault.file.as_deref(), Some(sources.anchors.path()));
}

#[test]
fn all_chains_missing_at_once_is_told_and_counted() {
    let files = Files::new(5);
    let sources = files.sources();
    let world = settled(&sources, start(&sources));
    for number in 0..5 {
        std::fs::remove_file(files.folder.path(&format!("{number}.der"))).expect("removed");
    }
    let world = again(&sources, world);
    assert_eq!((world.chains(), world.missing()), (0, 5));
    assert_eq!(world.news().len(), 1, "{:?}", world.news());
    assert!(world.news()[0].starts_with("all 5 files of "), "{:?}", world.news());
    assert!(!world.is_stale());
    files.renew(4);
    assert_eq!(settled(&sources, world).missing(), 4);
}

#[test]
fn a_file_that_is_refused_at_a_reload_stays_and_all_else_is_taken() {
    let files = Files::new(2);
    let sources = files.sources();
    let mut world = settled(&sources, start(&sources));
    for (name, bad) in [
        ("table.txt", &b"bad table\n"[..]),
        ("anchors.der", b"no anchors"),
        ("chains.txt", b"one-word\n"),
    ] {
        let good = std::fs::read(files.folder.path(name)).expect("it is there");
        files.folder.put(name, bad);
        files.renew(1);
        let before = (at(&world, 0), at(&world, 1));
        world = again(&sources, world);
        let told: Vec<_> = world.faults().into_iter().map(|fault| fault.file.clone()).collect();
        assert_eq!(told, [Some(files.folder.path(name))]);
        assert_eq!(world.news().len(), 1, "{:?}", world.news());
        assert_eq!(at(&world, 0), before.0, "it stays what it was");
        assert_ne!(at(&world, 1), before.1, "{name} holds up a chain");
        world = settled(&sources, world);
        assert_eq!(world.faults().len(), 1, "it stays refused");
        assert!(world.news().is_empty(), "it was told before: {:?}", world.news());
        assert!(!world.is_stale(), "what was refused isn't read each second");
        files.folder.put(name, good);
        world = settled(&sources, world);
        assert!(world.faults().is_empty());
    }
}

#[test]
fn two_files_refused_at_once_are_both_named_and_put_back() {
    let files = Files::new(1);
    let sources = files.sources();
    let world = settled(&sources, start(&sources));
    files.folder.put("anchors.der", "no anchors");
    files.folder.put("table.txt", "bad table\n");
    files.folder.put("chains.txt", "one-word\n");
    let world = again(&sources, world);
    assert_eq!((world.faults().len(), world.chains()), (3, 1));
    assert!(is_confirmed(&world, 0));
}

#[test]
fn without_a_map_and_a_table_there_are_no_chains_and_no_codes() {
    let files = Files::new(1);
    let sources = Sources { chains: None, table: None, ..files.sources() };
    let world = settled(&sources, start(&sources));
    assert_eq!((world.chains(), world.missing(), world.names_count()), (0, 0, 0));
    assert!(!world.lists(x5u(0).as_bytes()) && world.faults().is_empty());
    assert!(!world.is_stale());
}

#[test]
fn the_names_of_codes_are_known_if_others_are_trusted() {
    let files = Files::new(1);
    for (codes, count) in [(Codes::Listed, 0), (Codes::Trusted, 1)] {
        let sources = Sources { codes, ..files.sources() };
        let world = start(&sources);
        assert_eq!((world.names_count(), world.names(b"709J")), (count, count == 1));
    }
    let sources = Sources { codes: Codes::Trusted, ..files.sources() };
    let world = settled(&sources, start(&sources));
    let ground = std::sync::Arc::clone(world.ground());
    files.renew(0);
    let world = settled(&sources, world);
    assert!(std::sync::Arc::ptr_eq(world.ground(), &ground), "a chain is none of the world");
    files.folder.put("table.txt", "42 *\n709J 12000000000 10000");
    let world = settled(&sources, world);
    assert!(!std::sync::Arc::ptr_eq(world.ground(), &ground));
    assert!(world.names(b"42") && world.names(b"709J") && world.names_count() == 2);
    let more = ["43".as_bytes().into()].into();
    assert!(world.extended(&more).is_ok(), "the last line has no end, and gets one");
}

#[test]
fn roots_in_pem_are_taken_and_what_is_left_out_is_told_once() {
    let files = Files::new(1);
    let pem = |der: &[u8]| {
        let certificate = openssl::x509::X509::from_der(der).expect("a certificate");
        certificate.to_pem().expect("PEM")
    };
    let root = std::fs::read(files.folder.path("anchors.der")).expect("a root");
    let leaf = files.middle.leaf("leaf", support::VALID, &support::Authority::Code("42"));
    let roots = files.folder.put("roots.pem", [pem(&root), pem(&leaf.der())].concat());
    let sources = Sources { anchors: Anchors::Pem(roots.clone()), ..files.sources() };
    let world = start(&sources);
    let told = format!(
        "{}: certificate 2, CN=leaf, is no trust anchor of the profile, and is left out",
        roots.display()
    );
    assert_eq!((world.news(), is_confirmed(&world, 0)), (&[told][..], true));
    let world = settled(&sources, world);
    files.renew(0);
    let world = again(&sources, world);
    assert!(world.news().is_empty(), "it was told before: {:?}", world.news());
    let before = at(&world, 0);
    files.folder.put("roots.pem", "no roots");
    let world = settled(&sources, again(&sources, world));
    let faults = world.faults();
    assert_eq!((faults.len(), &faults[0].why), (1, &Why::Roots(RootsFault::Pem)));
    assert_eq!(at(&world, 0), before, "it stays what it was");
    let fault = read(&sources, &verifier(), None).err().expect("there is none from before");
    assert_eq!(fault.to_string(), format!("{}: no certificates in PEM", roots.display()));
}

#[test]
fn hosts_and_authorities_that_are_refused_stay_what_they_were() {
    let files = Files::new(1);
    let root = std::fs::read(files.folder.path("anchors.der")).expect("a root");
    let root = openssl::x509::X509::from_der(&root).and_then(|root| root.to_pem()).expect("PEM");
    let wanted = HostFiles {
        hosts: files.folder.put("hosts.txt", "a.example\n"),
        authorities: Some(files.folder.put("authorities.pem", &root)),
        reach: Reach::Public,
    };
    let (mut now, fetcher) = MayAsk::read(&wanted, None).expect("it is read");
    assert!(fetcher.host_of("https://a.example/").is_ok());
    let mut read_again = |host: &str| {
        let (next, fetcher) = MayAsk::read(&wanted, Some(&now)).expect("there is one from before");
        let faults: Vec<Why> = next.faults().into_iter().map(|fault| fault.why.clone()).collect();
        let is_same = next.is_as(&now);
        now = next;
        (faults, is_same, fetcher.host_of(&format!("https://{host}/")).is_ok())
    };
    files.folder.put("hosts.txt", "b.example\nhttps://c.example\n");
    let fault = Why::Hosts(HostsFault { line: 2 });
    assert_eq!(read_again("a.example"), (vec![fault], true, true));
    files.folder.put("hosts.txt", "b.example\n");
    files.folder.put("authorities.pem", "none");
    assert_eq!(read_again("b.example"), (vec![Why::Authorities], false, true));
    files.folder.put("authorities.pem", [&root[..], &root].concat());
    assert_eq!(read_again("a.example"), (vec![], false, false));
    files.folder.put("hosts.txt", "https://c.example\n");
    let fault = MayAsk::read(&wanted, None).err().expect("there is none from before");
    assert!(fault.to_string().contains("hosts.txt: line 1 is no `HOST`"), "{fault}");
}

/// Gives a file the time of another.
fn same_time(path: &Path, as_of: &Path) {
    let time = std::fs::metadata(as_of).and_then(|data| data.modified()).expect("a time");
    let file = std::fs::File::options().write(true).open(path).expect("it is opened");
    file.set_modified(time).expect("it is set");
}

#[test]
fn a_file_of_the_same_size_and_time_is_noticed() {
    let files = Files::new(2);
    let sources = files.sources();
    let (one, two) = (files.folder.path("0.der"), files.folder.path("1.der"));
    // Signatures in DER haven't all one size.
    while std::fs::metadata(&one).expect("data").len()
        != std::fs::metadata(&two).expect("data").len()
    {
        files.renew(1);
    }
    same_time(&two, &one);
    let world = settled(&sources, start(&sources));
    let before = at(&world, 0);
    let (kept, bytes) = (files.folder.path("kept"), std::fs::read(&two).expect("bytes"));
    std::fs::hard_link(&one, &kept).expect("a link");
    // Another file in its place, of the same size and time.
    std::fs::copy(&two, files.folder.path("copy")).expect("a copy");
    same_time(&files.folder.path("copy"), &kept);
    std::fs::rename(files.folder.path("copy"), &one).expect("renamed");
    let world = settled(&sources, world);
    assert_ne!(at(&world, 0), before, "another inode");
    // The same file with other bytes, of the same size and time.
    let before = at(&world, 0);
    let mut other = bytes;
    let last = other.len() - 1;
    other[last] ^= 1;
    std::fs::write(&one, &other).expect("written");
    same_time(&one, &kept);
    let world = settled(&sources, world);
    assert_ne!(at(&world, 0), before, "another time of change");
}

#[test]
fn bytes_that_stay_the_same_leave_a_chain_as_it_is() {
    let files = Files::new(1);
    let sources = files.sources();
    let world = settled(&sources, start(&sources));
    let before = at(&world, 0);
    for name in ["0.der", "anchors.der", "table.txt", "chains.txt"] {
        let bytes = std::fs::read(files.folder.path(name)).expect("it is there");
        files.folder.put(name, bytes);
    }
    assert!(world.is_stale());
    let world = settled(&sources, world);
    assert_eq!(at(&world, 0), before);
}

#[test]
fn a_file_written_in_two_halves_is_never_taken_by_half() {
    let files = Files::new(1);
    let sources = files.sources();
    let lines: String =
        (0..2000).map(|n| format!("https://h.example/{n} none-{n}.der\n")).collect();
    let mut world = settled(&sources, start(&sources));
    let mut seen = 0;
    for round in 0..4 {
        let text = format!("{lines}https://h.example/round-{round} none.der\n");
        let (first, second) =
            text.as_bytes().split_at(text.find("https://h.example/900").unwrap_or(0));
        let done = AtomicBool::new(false);
        world = std::thread::scope(|threads| {
            threads.spawn(|| {
                let mut file =
                    std::fs::File::create(files.folder.path("chains.txt")).expect("it is opened");
                file.write_all(first).expect("half of it");
                std::thread::sleep(Duration::from_millis(120));
                file.write_all(second).expect("the other half");
                done.store(true, Ordering::SeqCst);
            });
            while !done.load(Ordering::SeqCst) || world.is_stale() {
                world = again(&sources, world);
                assert!(
                    [1, 2001].contains(&world.missing().max(1)),
                    "{} files were listed and missing",
                    world.missing()
                );
                seen += 1;
                std::thread::sleep(Duration::from_millis(5));
            }
            world
        });
        assert_eq!((world.missing(), world.faults().len()), (2001, 0));
    }
    assert!(seen > 4, "{seen} readings");
}

#[test]
fn a_storm_of_renames_is_taken_without_a_fault() {
    let files = Files::new(20);
    let sources = files.sources();
    let mut world = settled(&sources, start(&sources));
    let texts: Vec<(&str, Vec<u8>)> = ["table.txt", "anchors.der", "chains.txt", "3.der"]
        .into_iter()
        .map(|name| (name, std::fs::read(files.folder.path(name)).expect("it is there")))
        .collect();
    let done = AtomicBool::new(false);
    let mut readings = 0;
    world = std::thread::scope(|threads| {
        for (name, bytes) in &texts {
            let (files, done) = (&files, &done);
            threads.spawn(move || {
                while !done.load(Ordering::SeqCst) {
                    files.folder.put(name, bytes);
                    std::thread::sleep(Duration::from_millis(3));
                }
            });
        }
        let begin = Instant::now();
        while begin.elapsed() < Duration::from_secs(2) {
            world = again(&sources, world);
            assert!(world.faults().is_empty(), "{:?}", world.faults());
            assert_eq!((world.chains(), world.missing()), (20, 0), "{:?}", world.news());
            readings += 1;
        }
        done.store(true, Ordering::SeqCst);
        world
    });
    assert!(readings > 3, "{readings} readings");
    files.renew(3);
    let before = at(&world, 3);
    assert_ne!(at(&settled(&sources, world), 3), before);
}

#[test]
fn a_thousand_spoilt_files_of_each_kind_end_nothing() {
    let files = Files::new(2);
    let sources = files.sources();
    let names = ["chains.txt", "table.txt", "anchors.der", "0.der"];
    let good = names.map(|name| std::fs::read(files.folder.path(name)).expect("it is there"));
    let (seed, verifier) = (20_261_201, verifier());
    println!("the seed is {seed}");
    let mut dice = Dice(seed);
    let mut world = settled(&sources, start(&sources));
    let (mut refused, mut taken) = ([0; 4], [0; 4]);
    for round in 0..4000 {
        let kind = round % 4;
        files.folder.put(names[kind], dice.spoilt(&good[kind]));
        let is_start = round % 8 < 4;
        let read = read(&sources, &verifier, (!is_start).then_some(&world));
        match read {
            Ok(new) => {
                let is_refused = !new.faults().is_empty();
                refused[kind] += usize::from(is_refused);
                taken[kind] += usize::from(!is_refused);
                if !is_start {
                    world = new;
                }
            }
            Err(fault) => {
                assert!(is_start, "round {round}: {fault}");
                assert_eq!(fault.file, Some(files.folder.path(names[kind])), "{fault}");
                refused[kind] += 1;
            }
        }
        if round % 40 == 39 {
            for (name, bytes) in names.iter().zip(&good) {
                files.folder.put(name, bytes);
            }
            world = again(&sources, world);
            assert!(world.faults().is_empty(), "round {round}: {:?}", world.faults());
            assert!(is_confirmed(&world, 0) && is_confirmed(&world, 1), "round {round}");
        } else {
            files.folder.put(names[kind], &good[kind]);
        }
    }
    assert!(refused[..3].iter().all(|count| *count > 100), "refused {refused:?}, taken {taken:?}");
    assert!(taken.iter().all(|count| *count > 10), "refused {refused:?}, taken {taken:?}");
}

#[test]
fn what_isnt_confirmed_in_time_is_confirmed_in_the_background() {
    let files = Files::new(3);
    let world = start(&files.sources());
    let verifier = verifier();
    assert!(world.confirm(&verifier, Duration::from_secs(5)));
    assert!(world.confirm(&verifier, Duration::from_secs(5)), "nothing is left");
    assert!((0..3).all(|number| is_confirmed(&world, number)));
}
