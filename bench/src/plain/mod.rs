//! A disc device in plain Rust, written from the pages in `docs/` and from nothing else.
//!
//! It shares no line with the proved device, so that where both answer alike the pages say what they do.
#![forbid(unsafe_code)]

pub mod cache;
pub mod description;
pub mod device;
pub mod flat;
pub mod geometry;
pub mod host;
pub mod layers;
pub mod message;
pub mod raw;
pub mod status;
pub mod store;
pub mod ticket;
pub mod trace;
pub mod transaction;
pub mod units;
