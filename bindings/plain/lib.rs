#![doc = include_str!("README.md")]
#![no_std]
#![forbid(unsafe_code)]
#![warn(missing_docs)]

#[cfg(feature = "alloc")]
extern crate alloc;
#[cfg(feature = "std")]
extern crate std;
#[cfg(feature = "alloc")]
pub mod kit;
#[cfg(feature = "alloc")]
pub mod yaml;

// The proved crates, each a module. Their names are libyaml's, and some items are there for contracts alone.
include!(concat!(env!("OUT_DIR"), "/crates.rs"));
