//! The proved library `libstir_c.a` as `include/stir.h` declares it. That page says of each
//! function what it owes and what its caller owes; the crate `stir` is the safe way to it.
#![no_std]
#![allow(non_camel_case_types)]

use core::ffi::c_void;
use core::ptr;

/// The version of these declarations. A library of another one isn't called.
pub const ABI: u64 = 2;

/// What `kind` of [`stir_said`] may be: no rule is broken, or what was wanted is done.
pub const PASSES: u32 = 0;
/// A rule is broken, or the message may not be signed.
pub const REFUSED: u32 = 1;
/// An input is outside its grammar or its limits.
pub const BAD_INPUT: u32 = 2;
/// Memory ran out.
pub const NO_MEMORY: u32 = 3;
/// What is to be written has `size` bytes, more than there is room for.
pub const NO_ROOM: u32 = 4;
/// A handle is closed.
pub const CLOSED: u32 = 5;
/// There is none of this number.
pub const NONE: u32 = 6;

/// How many bytes a question has: a key (65), a digest (32), r and s (64).
pub const QUESTION: usize = 161;
/// The most questions of a call; a chain has at most six.
pub const MOST_QUESTIONS: usize = 9;

/// What came of a call of the library. Fields that its kind doesn't name are 0.
#[repr(C)]
#[derive(Clone, Copy, Debug, PartialEq, Eq)]
pub struct stir_said {
    /// What came: one of the constants above.
    pub kind: u32,
    /// Which input is a bad one.
    pub input: u32,
    /// The first rule that is broken, or why nothing may be signed.
    pub rule: u32,
    /// Its response code.
    pub code: u32,
    /// The Identity header field in which it is broken, counted from 1, or 0.
    pub field: u32,
    /// The part of it.
    pub part: u32,
    /// The last second at which the call's last PASSporT is fresh, in Unix time.
    pub last: u64,
    /// How many bytes were written, or are to be.
    pub size: u64,
    /// By what the call is known again, or what is to be signed.
    pub ticket: [u8; 32],
}

/// How calls are judged.
#[repr(C)]
#[derive(Clone, Copy, Debug, PartialEq, Eq)]
pub struct stir_settings {
    /// How many seconds the moment of a call may be after the iat of a PASSporT.
    pub past: u64,
    /// How many seconds the iat may be after the moment.
    pub future: u64,
    /// The digits of the own country.
    pub country: [u8; 3],
    /// How many they are.
    pub country_size: u8,
    /// How many digits a number in it has.
    pub national: u8,
}

/// What is to be signed.
#[repr(C)]
#[derive(Clone, Copy, Debug, PartialEq, Eq)]
pub struct stir_order {
    /// When it is signed, in Unix seconds.
    pub iat: u64,
    /// In which form.
    pub form: u8,
    /// The identifier of the call, if the form is `shaken`.
    pub origid: [u8; 36],
}

macro_rules! handles {
    ($($(#[$doc:meta])* $name:ident),*) => {$(
        $(#[$doc])*
        #[repr(C)]
        #[derive(Debug)]
        pub struct $name {
            /// Whether it is open.
            pub full: bool,
            /// What the library holds.
            pub at: *mut c_void,
        }

        impl $name {
            /// A closed one.
            pub const CLOSED: $name = $name { full: false, at: ptr::null_mut() };
        }
    )*};
}

handles! {
    /// A world: settings, trust anchors and a code table.
    stir_world,
    /// A chain of certificates, judged under a world.
    stir_chain,
    /// A call, read under a world.
    stir_call
}

const _: () = {
    assert!(size_of::<stir_said>() == 72 && size_of::<stir_settings>() == 24);
    assert!(size_of::<stir_order>() == 48 && size_of::<stir_world>() == 16);
};

extern "C" {
    /// The library's version of the declarations.
    pub fn stir_abi() -> u64;

    /// Opens a world.
    pub fn stir_world_open(
        settings: *const stir_settings,
        anchors: *const u8,
        anchors_size: usize,
        table: *const u8,
        table_size: usize,
        out: *mut stir_world,
    ) -> stir_said;
    /// Another handle of the same world.
    pub fn stir_world_share(world: *mut stir_world, out: *mut stir_world) -> stir_said;
    /// Closes this handle.
    pub fn stir_world_close(world: *mut stir_world);

    /// Opens a chain under a world.
    pub fn stir_chain_open(
        world: *mut stir_world,
        chain: *const u8,
        chain_size: usize,
        out: *mut stir_chain,
    ) -> stir_said;
    /// Writes the questions of a chain's certificates.
    pub fn stir_chain_questions(
        chain: *mut stir_chain,
        room: *mut u8,
        room_size: usize,
    ) -> stir_said;
    /// Says which of them have good signatures.
    pub fn stir_chain_confirm(
        chain: *mut stir_chain,
        good: *const u8,
        good_size: usize,
    ) -> stir_said;
    /// Writes a part of a certificate.
    pub fn stir_chain_part(
        chain: *mut stir_chain,
        number: u32,
        part: u32,
        room: *mut u8,
        room_size: usize,
    ) -> stir_said;
    /// Another handle of the same chain.
    pub fn stir_chain_share(chain: *mut stir_chain, out: *mut stir_chain) -> stir_said;
    /// Closes this handle.
    pub fn stir_chain_close(chain: *mut stir_chain);

    /// Opens a call under a world, and tries the rules of the call.
    pub fn stir_call_open(
        world: *mut stir_world,
        moment: u64,
        message: *const u8,
        message_size: usize,
        out: *mut stir_call,
    ) -> stir_said;
    /// Writes the x5u of a PASSporT.
    pub fn stir_call_x5u(
        call: *mut stir_call,
        index: u32,
        room: *mut u8,
        room_size: usize,
    ) -> stir_said;
    /// Hands in the chain of a PASSporT.
    pub fn stir_call_chain(call: *mut stir_call, index: u32, chain: *mut stir_chain) -> stir_said;
    /// Writes the value of a header field.
    pub fn stir_call_header(
        call: *mut stir_call,
        name: *const u8,
        name_size: usize,
        index: u32,
        room: *mut u8,
        room_size: usize,
    ) -> stir_said;
    /// Writes what the PASSporTs say.
    pub fn stir_call_claims(call: *mut stir_call, room: *mut u8, room_size: usize) -> stir_said;
    /// Writes the questions of the PASSporTs, and says what comes if all are good.
    pub fn stir_call_questions(call: *mut stir_call, room: *mut u8, room_size: usize) -> stir_said;
    /// Judges the call.
    pub fn stir_call_judge(call: *mut stir_call, good: *const u8, good_size: usize) -> stir_said;
    /// Explains the call.
    pub fn stir_call_explain(
        call: *mut stir_call,
        number: u32,
        good: *const u8,
        good_size: usize,
        room: *mut u8,
        room_size: usize,
    ) -> stir_said;
    /// Writes all questions as lines.
    pub fn stir_call_lines(call: *mut stir_call, room: *mut u8, room_size: usize) -> stir_said;
    /// Closes this handle.
    pub fn stir_call_close(call: *mut stir_call);

    /// Writes what certificates say.
    pub fn stir_show(
        chain: *const u8,
        chain_size: usize,
        room: *mut u8,
        room_size: usize,
    ) -> stir_said;

    /// Tells what is to be signed.
    pub fn stir_to_sign(
        key: *mut stir_chain,
        order: *const stir_order,
        x5u: *const u8,
        x5u_size: usize,
        message: *const u8,
        message_size: usize,
    ) -> stir_said;
    /// Writes the signed message.
    pub fn stir_signed(
        key: *mut stir_chain,
        order: *const stir_order,
        x5u: *const u8,
        x5u_size: usize,
        message: *const u8,
        message_size: usize,
        signature: *const u8,
        signature_size: usize,
        room: *mut u8,
        room_size: usize,
    ) -> stir_said;
    /// Tells what is to be signed of a diversion.
    pub fn stir_to_divert(
        key: *mut stir_chain,
        iat: u64,
        earlier: *const u8,
        earlier_size: usize,
        x5u: *const u8,
        x5u_size: usize,
        message: *const u8,
        message_size: usize,
    ) -> stir_said;
    /// Writes the message that tells of it.
    pub fn stir_diverted(
        key: *mut stir_chain,
        iat: u64,
        earlier: *const u8,
        earlier_size: usize,
        x5u: *const u8,
        x5u_size: usize,
        message: *const u8,
        message_size: usize,
        signature: *const u8,
        signature_size: usize,
        room: *mut u8,
        room_size: usize,
    ) -> stir_said;

    /// Tells what is to be signed so that a call goes on to a target.
    pub fn stir_to_retarget(
        call: *mut stir_call,
        good: *const u8,
        good_size: usize,
        key: *mut stir_chain,
        iat: u64,
        target: *const u8,
        target_size: usize,
        x5u: *const u8,
        x5u_size: usize,
    ) -> stir_said;
    /// Writes the message that goes on.
    pub fn stir_retargeted(
        call: *mut stir_call,
        good: *const u8,
        good_size: usize,
        key: *mut stir_chain,
        iat: u64,
        target: *const u8,
        target_size: usize,
        x5u: *const u8,
        x5u_size: usize,
        signature: *const u8,
        signature_size: usize,
        room: *mut u8,
        room_size: usize,
    ) -> stir_said;
}
