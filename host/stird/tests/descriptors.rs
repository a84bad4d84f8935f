//! A process without a free descriptor: what can't be read stays, and is read once it can be.
mod support;

use rustix::process::{getrlimit, setrlimit, Resource};
use stir_trust::Verifier;
use stird::files::{read, Why};
use support::{x5u, Files};

/// Sets how many descriptors there may be.
fn allow(descriptors: u64) {
    let mut limit = getrlimit(Resource::Nofile);
    limit.current = Some(descriptors);
    setrlimit(Resource::Nofile, limit).expect("the limit is set");
}

#[test]
fn without_a_free_descriptor_all_stays_as_it_is_and_is_read_once_there_is_one() {
    let files = Files::new(2);
    let (sources, verifier) = (files.sources(), Verifier::new().expect("OpenSSL"));
    let before = getrlimit(Resource::Nofile).current.expect("a limit");
    let world = read(&sources, &verifier, None).expect("it is read");
    std::thread::sleep(std::time::Duration::from_millis(100));
    let world = read(&sources, &verifier, Some(&world)).expect("it is read");
    assert!(!world.is_stale());
    files.renew(1);
    files.folder.put("table.txt", "709J 12000000000 20000\n");
    allow(3);
    assert!(world.is_stale());
    let world = read(&sources, &verifier, Some(&world)).expect("there is memory");
    assert!(world.is_stale(), "it is tried again");
    let told: Vec<_> = world.faults().into_iter().map(|fault| fault.why.clone()).collect();
    let (chains, unreadable) = (world.chains(), world.unreadable_count());
    allow(before);
    assert_eq!(told, [Why::Unreadable(libc::EMFILE)]);
    assert_eq!((chains, unreadable), (2, 1));
    assert!(world.listed(x5u(1).as_bytes()).is_some(), "its chain stays what it was");
    let world = read(&sources, &verifier, Some(&world)).expect("there is memory");
    assert_eq!((world.chains(), world.unreadable_count(), world.faults().len()), (2, 0, 0));
}
