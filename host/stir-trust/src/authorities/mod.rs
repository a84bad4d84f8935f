//! Whom to trust: the signed list of approved authorities, and bridges to roots outside the
//! profile of the proved library.
//!
//! ```
//! use stir_trust::authorities::{bridge, AuthorityList, ListSigner};
//! use stir_trust::roots::is_anchor;
//!
//! # fn anchors(jws: &[u8], pem: &[u8], chain: &[u8]) -> Result<(), Box<dyn std::error::Error>> {
//! let now = std::time::UNIX_EPOCH.elapsed()?.as_secs();
//! let list = AuthorityList::read(jws, &ListSigner::from_pem(pem)?, now)?;
//! let (mut anchors, mut left_out) = (Vec::new(), Vec::new());
//! for root in list.roots {
//!     let der = root.to_der()?;
//!     match is_anchor(&stir::Settings::default(), &der)? {
//!         true => anchors.extend(der),
//!         false => left_out.push(root),
//!     }
//! }
//! anchors.extend(bridge(chain, &left_out, now)?.anchor);
//! # Ok(())
//! # }
//! ```
mod bridge;
mod fault;
mod list;

pub(crate) use bridge::issuer_and_serial;
pub use bridge::{bridge, Bridge};
pub use fault::{AuthoritiesFault, BridgeFault, ListSignerFault};
pub use list::{AuthorityList, ListSigner, MOST_BYTES};
