//! What a judge of telephone calls has to trust beside its proved library: ES256 (RFC 7518, section
//! 3.4) by OpenSSL; private keys, in memory or in an HSM; trust anchors ([roots]) and a [chain
//! map](chain_map); and certificates that are [fetched](fetch) and [kept](cache).
//!
//! ```
//! // RFC 6979, section A.2.5: a key, the digest of "sample", and a signature over it.
//! # let digits = "0460FED4BA255A9D31C961EB74C6356D68C049B8923B61FA6CE669622E60F29FB6\
//! #     7903FE1008B8BC99A41AE9E95628BC64F2F1B20C2D7E9F5177A3C294D4462299\
//! #     AF2BDBE1AA9B6EC1E2ADE1D694F41FC71A831D0268E9891562113D8A62ADD1BF\
//! #     EFD48B2AACB6A8FD1140DD9CD45E81D69D2C877B56AAF991C34D0EA84EAF3716\
//! #     F7CB1C942D657C41D436C7A1B6E29F65F3E900DBB9AFF4064DC4AB2F843ACDA8";
//! # let byte = |at: usize| u8::from_str_radix(&digits[2 * at..][..2], 16).unwrap();
//! # let published: [u8; 161] = std::array::from_fn(byte);
//! let verifier = stir_trust::Verifier::new()?;
//! assert!(verifier.confirms(&stir::Question::new(published)));
//! assert!(!verifier.confirms(&stir::Question::new([4; 161])));
//! # Ok::<(), Box<dyn std::error::Error>>(())
//! ```
#![forbid(unsafe_code)]
#![warn(missing_docs)]

pub mod authorities;
pub mod cache;
pub mod chain_map;
pub mod claims;
mod es256;
pub mod fetch;
pub mod issuers;
mod key;
pub mod locks;
pub mod names;
pub mod revocation;
pub mod roots;
pub mod split;

pub use es256::{Unanswered, Verifier};
pub use key::{hsm_counts, HsmCounts, Key, KeyFault, SignFault};
pub use stir_hsm::{HsmFault, KeyUri, UriFault};
