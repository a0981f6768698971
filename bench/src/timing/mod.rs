//! How long traces take.

pub mod clock;
#[cfg(feature = "proved")]
pub mod comparing;
pub mod pages;
pub mod plans;
pub mod scene;
pub mod script;
pub mod table;
