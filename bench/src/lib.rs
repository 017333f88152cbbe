//! Two ordinary Rust servers of the service, one that compares views after a batch and one that matches only what a batch touched;
//! the proved one and the independent one behind the same interface; and what is measured of the four.

pub mod cases;
pub mod incremental;
pub mod measure;
pub mod message;
pub mod plain;
#[cfg(feature = "proved")]
pub mod proved;
pub mod push;
pub mod server;
pub mod service;
pub mod wire;
pub mod zone;
