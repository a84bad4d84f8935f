//! `stird`: a STIR/SHAKEN service over HTTP. It judges calls by the proved library of `stir`
//! (`include/stir.h`), with ES256 by OpenSSL. docs/SERVICE.md tells how to run it.
//!
//! [`settings`] has what is ordered, [`start`] the way from there to the end. [`server`] has
//! connections, [`routes`] what is answered, [`judge`] what comes of a call, [`tickets`] which
//! calls passed, and [`files`] what calls are judged by and signed for. [`fetching`] has
//! certificates that are fetched, and [`codes`] those codes of them that count. [`clients`] has who
//! may have calls signed, and [`diverting`] calls that go on. [`told`] has what is told of a call,
//! and [`record`] the lines that are kept of all. [`today`] counts the calls of two days, and
//! [`page`] shows them.
#![forbid(unsafe_code)]
#![deny(clippy::print_stderr, clippy::print_stdout)]
#![warn(missing_docs)]
#[cfg(not(panic = "unwind"))]
compile_error!("a fault in one task must end one connection, and not the service");

pub mod answers;
pub mod atis;
pub mod clients;
pub mod codes;
pub mod diverting;
pub mod explain;
pub mod fetching;
pub mod files;
pub mod health;
pub mod judge;
pub mod lines;
pub mod logs;
pub mod metrics;
pub mod page;
pub mod record;
pub mod reload;
pub mod routes;
pub mod server;
pub mod settings;
mod signing;
pub mod start;
pub mod tending;
pub mod tickets;
pub mod today;
pub mod tokens;
pub mod told;
