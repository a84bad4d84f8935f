//! Keys that stay in an HSM: a [`Module`] of PKCS #11 has tokens, a [`Session`] on a token signs by
//! a key of it, and a [`KeyUri`] says which (RFC 7512).
//!
//! ```no_run
//! use stir_hsm::{KeyUri, Module};
//!
//! let uri: KeyUri = "pkcs11:token=stir;object=k1?pin-source=file:/etc/stird/pin".parse()?;
//! let module = Module::load(uri.module())?;
//! let session = module.session(&uri, Some(b"4321"))?;
//! let key = session.key(&uri)?;
//! let signature: [u8; 64] = session.sign(&key, &[7; 32])?;
//! # Ok::<(), Box<dyn std::error::Error>>(())
//! ```
//!
//! All `unsafe` code is in the module `calls`: each function of a PKCS #11 module that is called
//! has a safe one there. A call may take as long as the HSM does, so who can't wait calls on a
//! thread of its own.
#![deny(unsafe_code)]
#![warn(missing_docs)]

mod calls;
mod fault;
mod module;
mod session;
mod uri;

pub use fault::{HsmFault, Returned};
pub use module::Module;
pub use session::{HsmKey, Session};
pub use uri::{KeyUri, UriFault};
