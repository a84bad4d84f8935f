//! Values that go from thread to thread, and are used by many at once.

mod given;

use stir::{Call, Chain, Error, Refused, Settings, Verdict, World};

/// A world, and the chain of the examples with all its signatures confirmed.
fn opened() -> Result<(World, Chain), Error> {
    let world = World::open(&Settings::default(), given::ANCHORS, given::TABLE)?;
    let chain = world.chain(given::CHAIN)?;
    let good: Vec<bool> = chain.questions()?.iter().map(given::good).collect();
    Ok((world, chain.confirmed(&good)?))
}

#[test]
fn values_go_from_thread_to_thread() {
    fn goes<T: Send + Sync + 'static>() {}
    goes::<World>();
    goes::<Chain>();
    goes::<Call>();
    let (world, chain) = opened().expect("it is opened");
    let mut call = world.call(given::MOMENT, given::INVITE).expect("it is read");
    drop(world);
    let judged = std::thread::spawn(move || {
        call.set_chain(0, &chain)?;
        drop(chain);
        call.verify(given::good)
    });
    let verdict = judged.join().expect("it ends").expect("it is judged");
    assert!(matches!(verdict, Verdict::Passes(_)), "{verdict:?}");
}

#[test]
fn many_threads_use_one_world_and_one_chain() {
    let (world, chain) = opened().expect("it is opened");
    std::thread::scope(|threads| {
        for thread in 0..8 {
            let (world, chain) = (&world, &chain);
            threads.spawn(move || {
                for number in 0..50 {
                    let mut call = world.call(given::MOMENT, given::INVITE).expect("it is read");
                    let fetched = world.chain(given::CHAIN).expect("it is opened");
                    let chain = if number % 2 == 0 { chain } else { &fetched };
                    call.set_chain(0, chain).expect("it has this PASSporT");
                    let rule = match call.verify(given::good).expect("it is judged") {
                        Verdict::Passes(_) => 0,
                        Verdict::Refused(Refused { rule, .. }) => rule,
                    };
                    assert_eq!(rule, if number % 2 == 0 { 0 } else { 15 }, "thread {thread}");
                }
            });
        }
    });
}
