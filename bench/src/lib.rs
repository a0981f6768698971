//! What the proved device is compared with, and how.

pub mod plain;
#[cfg(feature = "proved")]
pub mod proved;
pub mod timing;
pub mod trials;
