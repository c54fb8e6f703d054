//! The layout part of dbn 0.73.0 by a proved library: is a layout well formed, does firmware read it as compiled, and how does an old record become a new one?
//!
//! Every call takes any bytes and ends with an answer or one of sixteen [refusals](Refusal); a refused call leaves all that it was lent as it was. The answers are
//! proved of the library behind the calls. This crate declares the C boundary and hands slices over; its own code, and the packing of plain values, are tested.
//!
//! | Part | Calls | From plain values |
//! |---|---|---|
//! | catalogue, layouts | [`check_catalogue`], [`admit`], [`record_size`], [`window`], [`field_of`] | [`Catalogue`], [`Layout`], [`FieldDef`] |
//! | hash | [`sum`], [`layout_hash`], [`layout_hash_within`], [`boot_check`] | [`Layout::store_hashes`] |
//! | verdict, lookups | [`verdict`], [`verdict_of`], [`field_by_id`], [`field_by_name`] | |
//! | field cursor | [`FieldCursor`] over a [`Room`] | [`RecordLayout::built`] |
//! | planner | [`select`], [`plan`] | [`Plan`] |
//! | upgrade | [`apply`], [`upgrade`] | |
//! | plan text | [`check_plan`], [`write_plan`], [`read_plan`] | [`Plan::to_text`], [`Plan::from_text`] |
//!
//! # A record upgraded
//!
//! Old firmware wrote trades with a header of 16 bytes, a sequence number and a size of two bytes. The new layout has a header of 24 bytes, a size of four, and a field
//! that the old records lack. 65,535 meant "no size" and has to arrive as the new largest.
//!
//! ```
//! use tuppenceowl::*;
//!
//! let cat = Catalogue::dbn(1).to_bytes();
//! let old = RecordLayout::new(160, "trade", 32, [
//!     Field::new("sequence", 2, 16, 8, dbn::U64),
//!     Field::new("size", 3, 24, 2, dbn::U16),
//! ]);
//! let new = RecordLayout::new(160, "trade", 40, [
//!     Field::new("sequence", 2, 24, 8, dbn::U64),
//!     Field::new("size", 3, 32, 4, dbn::U32),
//!     Field::new("flags", 4, 36, 1, dbn::U8),
//! ]);
//! let (source, target) = (Layout::from(old).to_block(), Layout::from(new).to_block());
//!
//! // which record of the new layout, and what is in it before anything is carried over
//! let Some(Selected::Record(to)) = select(&cat, &source, 0, &target, None)? else {
//!     panic!("the new layout has trades");
//! };
//! let body = [0, 0, 0, 0, 0, 0, 0, 0, 255, 255, 255, 255, 7, 0, 0, 0];
//! let marks = [0, 1, 0]; // the largest size means that there is none
//! let mut slot = [0; limits::SLOT];
//! plan(&cat, &source, 0, &target, to, 24, &body, &marks, &mut slot)?.expect("both records are there");
//! assert_eq!(Plan::from_slot(&slot)?.to_text()?, "\
//! plan\t1\t160\t160\t32\t24\t40\t40\t2
//! body\t0000000000000000ffffffff07000000
//! copy\t16\t24\t8
//! int\t24\t32\t2\t4\tu\t1
//! ");
//!
//! // an old record: its header is the host's, then sequence number 258 and no size
//! let mut record = [0; 32];
//! record[16..18].copy_from_slice(&[2, 1]);
//! record[24..26].copy_from_slice(&[255, 255]);
//!
//! let mut upgraded = [0xEE; 40];
//! let said = upgrade(&slot, &[], 160, 16, 24, &record, 32, &mut upgraded)?;
//! assert_eq!(said, Upgraded { rtype: 160, size: 40 });
//! assert_eq!(upgraded[..24], [0xEE; 24]); // the header's bytes are left to the host
//! assert_eq!(upgraded[24..], [2, 1, 0, 0, 0, 0, 0, 0, 255, 255, 255, 255, 7, 0, 0, 0]);
//! # Ok::<_, Refusal>(())
//! ```
#![warn(missing_docs)]
#![deny(unsafe_op_in_unsafe_fn)]

mod admitting;
mod block;
mod building;
mod catalogue;
mod comparing;
mod ffi;
mod field;
mod hashing;
mod layout;
pub mod limits;
mod plan;
mod planning;
mod refusal;
mod texting;
mod upgrading;

pub use admitting::{admit, check_catalogue, field_of, record_size, window};
pub use building::{FieldCursor, Holder, Room};
pub use catalogue::{Catalogue, Class, Kind, dbn};
pub use comparing::{Verdict, field_by_id, field_by_name, verdict, verdict_of};
pub use field::FieldDef;
pub use hashing::{Booted, LayoutHash, boot_check, layout_hash, layout_hash_within, sum};
pub use layout::{Field, Layout, RecordLayout, StructLayout};
pub use plan::{Numbers, Plan, Step};
pub use planning::{Selected, plan, select};
pub use refusal::Refusal;
pub use texting::{check_plan, read_plan, write_plan};
pub use upgrading::{Upgraded, apply, upgrade};
