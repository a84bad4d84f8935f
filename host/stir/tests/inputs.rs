//! Inputs that are outside their grammars or their limits, and what is at these limits.

mod given;

use stir::{Attest, Diversion, Error, Form, Input, Order, Settings, SignError, Withheld, World};

#[test]
fn settings_outside_their_limits_are_refused() {
    let usual = Settings::default;
    for (settings, is_good) in [
        (usual(), true),
        (Settings { past: 86_400, future: 86_400, ..usual() }, true),
        (Settings { past: 86_401, ..usual() }, false),
        (Settings { future: 86_401, ..usual() }, false),
        (Settings { country: "999".into(), national: 12, ..usual() }, true),
        (Settings { country: "999".into(), national: 13, ..usual() }, false),
        (Settings { country: "1234".into(), ..usual() }, false),
        (Settings { country: "".into(), ..usual() }, false),
        (Settings { country: "x".into(), ..usual() }, false),
        (Settings { country: "\u{e9}".into(), ..usual() }, false),
        (Settings { national: 0, ..usual() }, false),
        (Settings { national: 14, ..usual() }, true),
        (Settings { national: 15, ..usual() }, false),
    ] {
        let fault = World::open(&settings, b"", b"").err();
        let wanted = (!is_good).then_some(Error::BadInput(Input::Settings));
        assert_eq!(fault, wanted, "{settings:?}");
    }
}

#[test]
fn the_first_bad_file_of_a_world_is_named() {
    for (anchors, table, input) in [
        (b"x".as_slice(), b"a b c\n".as_slice(), Some(Input::Anchors)),
        (given::ANCHORS, b"a b c\n", Some(Input::Table)),
        (given::ANCHORS, given::TABLE, None),
        (b"", b"", None),
    ] {
        let fault = World::open(&Settings::default(), anchors, table).err();
        assert_eq!(fault, input.map(Error::BadInput));
    }
}

#[test]
fn what_may_not_be_signed_isnt() {
    let world = World::open(&Settings::default(), b"", given::TABLE).expect("it is opened");
    let key = world.chain(given::CHAIN).expect("it is opened");
    let good = Order {
        iat: given::MOMENT,
        form: Form::Shaken { attest: Attest::A, origid: given::ORIGID },
        x5u: given::X5U,
        message: given::UNSIGNED,
    };
    let short = Form::Shaken { attest: Attest::A, origid: "no identifier" };
    let (bad, withheld) = (Error::BadInput(Input::Order).into(), SignError::Withheld);
    for (order, fault) in [
        (Order { form: short, ..good }, bad),
        (Order { x5u: "", ..good }, bad),
        (Order { x5u: "a b", ..good }, bad),
        (Order { iat: 253_402_300_800, ..good }, bad),
        (Order { message: b"x", ..good }, withheld(Withheld::Form)),
        (Order { form: Form::Compact, ..good }, withheld(Withheld::Form)),
    ] {
        assert_eq!(key.to_sign(&order), Err(fault), "{order:?}");
        assert_eq!(key.signed(&order, &[0; 64]), Err(fault), "{order:?}");
    }
    let diversion = Diversion { iat: 1, earlier: "x", x5u: given::X5U, message: given::GOES_ON };
    assert_eq!(key.to_divert(&diversion), Err(bad));
    let none = world.chain(b"no chain").expect("any bytes are taken");
    let fault = Err(Error::BadInput(Input::Certificate).into());
    assert_eq!(none.to_sign(&good), fault);
    let bare = World::open(&Settings::default(), b"", b"").expect("it is opened");
    let key = bare.chain(given::CHAIN).expect("it is opened");
    assert_eq!(key.to_sign(&good), Err(withheld(Withheld::Authority)));
}
