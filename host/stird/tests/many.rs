//! What many chains under many trust anchors cost: 20,000 and 256. It takes a minute, and its
//! figures are those of a release:
//!
//! ```text
//! cargo test --offline --release -p stird --test many -- --ignored --nocapture
//! ```
mod support;

use std::time::{Duration, Instant};
use stir_trust::Verifier;
use stird::files::{read, Anchors, Codes, World};
use support::{x5u, Authority, Certificate, Folder, VALID};

const CHAINS: usize = 20_000;
const ANCHORS: usize = 256;

/// The processor time that all threads of this process took.
fn processor() -> Duration {
    let tasks = std::fs::read_dir("/proc/self/task").expect("Linux");
    let nanoseconds = tasks.flatten().filter_map(|task| {
        let text = std::fs::read_to_string(task.path().join("schedstat")).ok()?;
        text.split(' ').next()?.parse::<u64>().ok()
    });
    Duration::from_nanos(nanoseconds.sum())
}

/// Does something, and says how long it took by the clock and by the processor.
fn measured<T>(what: &str, doing: impl FnOnce() -> T) -> (T, Duration, Duration) {
    let (begin, before) = (Instant::now(), processor());
    let came = doing();
    let (clock, took) = (begin.elapsed(), processor() - before);
    println!("{what}: {clock:.1?} by the clock, {took:.1?} of a processor");
    (came, clock, took)
}

#[test]
#[ignore = "it takes a minute, and wants a release"]
fn twenty_thousand_chains_under_256_anchors_start_in_5_s_and_one_is_changed_in_20_ms() {
    let folder = Folder::new();
    let roots: Vec<Certificate> =
        (0..ANCHORS).map(|n| Certificate::authority(&format!("root {n}"), None)).collect();
    let middles: Vec<Certificate> = roots
        .iter()
        .enumerate()
        .map(|(n, root)| Certificate::authority(&format!("middle {n}"), Some(root)))
        .collect();
    let renew = |number: usize| {
        let middle = &middles[number % ANCHORS];
        let leaf = middle.leaf("leaf", VALID, &Authority::Code("709J"));
        folder.put(&format!("{number}.der"), [leaf.der(), middle.der()].concat());
    };
    (0..CHAINS).for_each(renew);
    let name = |number: usize| folder.path(&format!("{number}.der"));
    let map: String = (0..CHAINS).map(|n| format!("{} {}\n", x5u(n), name(n).display())).collect();
    let sources = stird::files::Sources {
        rules: stir::Settings::default(),
        chains: Some(folder.put("chains.txt", map)),
        anchors: Anchors::Der(
            folder.put("anchors.der", roots.iter().flat_map(Certificate::der).collect::<Vec<_>>()),
        ),
        table: Some(folder.put("table.txt", "709J 12000000000 10000\n")),
        codes: Codes::Listed,
        signing: None,
    };
    std::thread::sleep(Duration::from_millis(100));
    let verifier = Verifier::new().expect("OpenSSL");
    let start = || read(&sources, &verifier, None).expect("it is read");
    // By the processor, so that a machine with other work says the same.
    let (world, _, took) = measured("start", start);
    assert_eq!((world.chains(), world.missing()), (CHAINS, 0));
    assert!(took < Duration::from_secs(5), "the start took {took:?}");
    measured("the rest confirmed", || while !world.confirm(&verifier, Duration::from_secs(1)) {});
    assert_eq!(world.confirmed(), CHAINS + ANCHORS);

    measured("a look at what is as it was", || assert!(!world.is_stale()));
    let mut world = world;
    let mut taken = Vec::new();
    for number in 0..10 {
        renew(number * 1999);
        std::thread::sleep(Duration::from_millis(100));
        measured("a look that finds a changed chain", || assert!(world.is_stale()));
        let again = || read(&sources, &verifier, Some(&world)).expect("it is read");
        let (new, _, took) = measured("the changed chain taken", again);
        let (_, _, dropped) = measured("the world from before dropped", || drop(world));
        taken.push(took + dropped);
        world = new;
        assert_eq!(world.chains(), CHAINS);
    }
    taken.sort();
    println!("a changed chain, the middle of ten: {:.1?} of a processor", taken[5]);
    assert!(taken[5] < Duration::from_millis(20), "{:?}", taken[5]);

    opened(&sources, &roots);
    let other = Certificate::authority("other", None);
    let others = roots.iter().skip(1).chain([&other]);
    folder.put("anchors.der", others.flat_map(Certificate::der).collect::<Vec<_>>());
    std::thread::sleep(Duration::from_millis(100));
    world = changed("changed anchors", &sources, &verifier, world);
    assert_eq!(world.chains(), CHAINS);
    folder.put("table.txt", "709J 12000000000 20000\n");
    std::thread::sleep(Duration::from_millis(100));
    world = changed("a changed table", &sources, &verifier, world);
    (0..CHAINS).for_each(renew);
    std::thread::sleep(Duration::from_millis(100));
    changed("all chains changed", &sources, &verifier, world);
}

/// What the library alone takes to open chains, under all anchors and under the one of the chain.
fn opened(sources: &stird::files::Sources, roots: &[Certificate]) {
    let table = sources.table.as_ref().expect("a table");
    let table = std::fs::read(table).expect("it is read");
    let folder = sources.chains.as_ref().and_then(|map| map.parent()).expect("a folder");
    let under_first = |n: usize| folder.join(format!("{}.der", n % (CHAINS / ANCHORS) * ANCHORS));
    let chains: Vec<Vec<u8>> =
        (0..2000).map(|n| std::fs::read(under_first(n)).expect("a chain")).collect();
    for count in [1, ANCHORS] {
        let anchors: Vec<u8> = roots.iter().take(count).flat_map(Certificate::der).collect();
        let world = stir::World::open(&sources.rules, &anchors, &table).expect("a world");
        let open =
            || chains.iter().map(|der| world.chain(der).expect("a chain")).collect::<Vec<_>>();
        let (opened, ..) = measured(&format!("2,000 chains opened under {count} anchors"), open);
        assert!(opened.iter().all(|chain| chain.questions().is_ok_and(|asked| asked.len() == 2)));
        let parts = || {
            for chain in &opened {
                let ends = [1, 2].map(|n| chain.part(n, stir::Part::NotAfter).expect("a part"));
                assert!(ends.iter().all(Option::is_some));
            }
        };
        measured("the ends of their certificates asked", parts);
    }
}

/// Looks and reads, and says what that took.
fn changed(
    what: &str,
    sources: &stird::files::Sources,
    verifier: &Verifier,
    world: World,
) -> World {
    measured(what, || {
        assert!(world.is_stale());
        read(sources, verifier, Some(&world)).expect("it is read")
    })
    .0
}
