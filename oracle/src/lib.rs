//! The customer's modules, as published, for our comparisons.

pub mod guarded;
pub mod plain;
pub mod script;

include!(concat!(env!("OUT_DIR"), "/harbor.rs"));
