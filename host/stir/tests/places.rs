//! A call of two PASSporTs: each is judged by its own chain and its own answers.

mod given;

use stir::{Call, Chain, Error, Refused, Settings, Verdict, World};

/// The certificate to which the x5u of its second PASSporT leads.
const SECOND: &[u8] = include_bytes!("../../../examples/files/div.der");

fn world() -> World {
    World::open(&Settings::default(), given::ANCHORS, given::TABLE).expect("it is opened")
}

/// A chain with all its signatures confirmed.
fn confirmed(world: &World, der: &[u8]) -> Chain {
    let chain = world.chain(der).expect("it is opened");
    let count = chain.questions().expect("it is asked").len();
    chain.confirmed(&vec![true; count]).expect("it is confirmed")
}

/// The call with these chains.
fn call(world: &World, chains: [&Chain; 2]) -> Call {
    let mut call = world.call(given::MOMENT, given::DIVERTED).expect("it is read");
    for (index, chain) in chains.into_iter().enumerate() {
        call.set_chain(index, chain).expect("it has this PASSporT");
    }
    call
}

/// A verdict as `verify` writes it: rule, code and place, or nothing if it passes.
fn told(verdict: Verdict) -> Option<(u32, u32, u32, u32)> {
    match verdict {
        Verdict::Passes(_) => None,
        Verdict::Refused(Refused { rule, code, field, part }) => Some((rule, code, field, part)),
    }
}

#[test]
fn a_passport_is_judged_by_its_own_chain() {
    let world = world();
    let (first, second) = (confirmed(&world, given::CHAIN), confirmed(&world, SECOND));
    let x5us = call(&world, [&first, &second]).x5us().expect("it is asked");
    assert_eq!(x5us, [given::X5U.as_bytes(), given::DIVERTER_X5U.as_bytes()]);
    for (chains, wanted) in [([&first, &second], None), ([&second, &first], Some((17, 437, 1, 0)))]
    {
        let verdict = call(&world, chains).judge(&[true, true]).expect("it is judged");
        assert_eq!(told(verdict), wanted, "{chains:?}");
    }
}

#[test]
fn an_answer_is_that_of_its_own_question() {
    let world = world();
    let (first, second) = (confirmed(&world, given::CHAIN), confirmed(&world, SECOND));
    let mut call = call(&world, [&first, &second]);
    let (in_first, in_second) = (Some((16, 438, 1, 0)), Some((16, 438, 2, 0)));
    for (good, wanted) in [
        ([true, true].as_slice(), None),
        (&[false, true], in_first),
        (&[true, false], in_second),
        (&[false, false], in_first),
        // A question without an answer isn't confirmed, and an answer without a question is none.
        (&[], in_first),
        (&[true], in_second),
        (&[true, true, false], None),
    ] {
        assert_eq!(told(call.judge(good).expect("it is judged")), wanted, "{good:?}");
        let explained = call.explain(1, good).expect("it is explained");
        assert_eq!(told(explained.verdict), wanted, "{good:?}");
    }
}

#[test]
fn a_certificate_is_confirmed_by_its_own_answer() {
    let world = world();
    let all = [given::CHAIN, SECOND];
    for (unconfirmed, at, wanted) in
        [(0, 0, (15, 437, 1, 1)), (0, 1, (15, 437, 1, 2)), (1, 0, (15, 437, 2, 1))]
    {
        let chains = [0, 1].map(|number| {
            let chain = world.chain(all[number]).expect("it is opened");
            let count = chain.questions().expect("it is asked").len();
            let good: Vec<bool> =
                (0..count).map(|place| (number, place) != (unconfirmed, at)).collect();
            chain.confirmed(&good).expect("it is confirmed")
        });
        let mut call = call(&world, [&chains[0], &chains[1]]);
        let verdict = call.judge(&[true, true]).expect("it is judged");
        assert_eq!(told(verdict), Some(wanted), "question {at} of chain {unconfirmed}");
    }
}

#[test]
fn a_chain_of_another_world_is_refused_and_changes_nothing() {
    let (other, world) = (world(), world());
    let (first, second) = (confirmed(&world, given::CHAIN), confirmed(&world, SECOND));
    let mut call = call(&world, [&first, &second]);
    for (index, der) in [given::CHAIN, SECOND].into_iter().enumerate() {
        let foreign = confirmed(&other, der);
        assert_eq!(call.set_chain(index, &foreign), Err(Error::OtherWorld));
        assert_eq!(call.set_chain(2, &foreign), Err(Error::OtherWorld));
    }
    assert_eq!(told(call.judge(&[true, true]).expect("it is judged")), None);
}

#[test]
fn a_chain_that_is_taken_away_answers_no_more() {
    let world = world();
    let (first, second) = (confirmed(&world, given::CHAIN), confirmed(&world, SECOND));
    for (taken, field) in [(0, 1), (1, 2)] {
        let mut call = call(&world, [&first, &second]);
        call.clear_chain(taken).expect("it has this PASSporT");
        let verdict = call.judge(&[true, true]).expect("it is judged");
        assert_eq!(told(verdict), Some((10, 436, field, 0)), "PASSporT {taken}");
        assert_eq!(call.questions().expect("it is asked").questions, []);
    }
}
