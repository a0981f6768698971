//! Traces to try devices with, and what devices leave.

pub mod case;
pub mod comparing;
pub mod edges;
pub mod generating;
pub mod messages;
pub mod random;
pub mod reading;
pub mod writing;
