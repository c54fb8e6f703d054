//! dbn's layout module, compiled from its own files (build.rs), over stand-ins for the rest of that crate.
//! To the files this crate is `crate`: what they ask of it by that name stands here.
#![allow(dead_code, unused_imports)]

include!(concat!(env!("OUT_DIR"), "/tree.rs"));

pub mod block;
mod building;
mod outside;
pub mod slot;
pub mod v3;
pub mod v4;
pub mod words;

pub use outside::{Error, RType, Record, Result, Schema, NULL_SCHEMA};
pub use v3::RecordHeader;
