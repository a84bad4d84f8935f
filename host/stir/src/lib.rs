//! Telephone calls judged, explained and signed by STIR/SHAKEN (RFC 8224, 8225, 8226, 8588, 8946
//! and 9060), by the proved library `libstir_c.a`.
//!
//! A [`World`] is what every call goes by: settings, trust anchors and a code table. A [`Chain`]
//! has the certificates to which an x5u leads, judged once under a world. A [`Call`] is an INVITE,
//! read once. What the library says of them is proved (docs/dev/PROVED.md); this crate hands it
//! bytes.
//!
//! ```
#![doc = include_str!("../tests/given/hidden.md")]
//! use stir::{Settings, Verdict, World};
//!
//! // Once, and when the files change.
//! let world = World::open(&Settings::default(), given::ANCHORS, given::TABLE)?;
//!
//! // Once a chain: `good` is a verifier of ES256.
//! let chain = world.chain(given::CHAIN)?;
//! let good: Vec<bool> = chain.questions()?.iter().map(given::good).collect();
//! let chain = chain.confirmed(&good)?;
//!
//! // Once a call.
//! let mut call = world.call(given::MOMENT, given::INVITE)?;
//! for index in 0..call.passports() {
//!     if call.x5u(index)? == given::X5U.as_bytes() {
//!         call.set_chain(index, &chain)?;
//!     }
//! }
//! match call.verify(given::good)? {
//!     Verdict::Passes(passes) => println!("let its ticket through once, up to {}", passes.last),
//!     Verdict::Refused(refused) => println!("answer {}", refused.code),
//! }
//! # Ok::<(), stir::Error>(())
//! ```
//!
//! The verifier of signatures, the key that signs, the certificates of an x5u and the memory of
//! tickets are the caller's.
//!
//! Values may go from thread to thread, and any number of threads may use a [`World`] and its
//! [`Chain`]s at once. A thread that calls needs 256 kilobytes of stack to spare. A process that
//! forks while it has more than one thread may not use them in the child.

#![warn(missing_docs)]

mod call;
mod chain;
mod error;
mod handle;
mod order;
mod question;
mod retarget;
mod room;
mod rule;
mod show;
mod signing;
mod verdict;
mod world;

pub use call::{Asked, Call, Claims, Explanation};
pub use chain::{Chain, Part};
pub use error::{Error, Held, Input, RetargetError, SignError, Withheld};
pub use order::{Attest, Diversion, Form, Order};
pub use question::Question;
pub use retarget::Retarget;
pub use rule::Rule;
pub use show::show;
pub use verdict::{Passes, Refused, Verdict};
pub use world::{Settings, World};
