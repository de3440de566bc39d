//! A plain implementation of the rota, its tidying, its flat table, the rewriting from one to the
//! other, the service over both, the calendar and the listing.
//!
//! It is written for reading and for comparison: every rule is spelled out where it applies,
//! and nothing is shared with the code that it is compared with.
//! Numbers that a caller gives are `u32`, so that 256 is refused and never taken for 0.

#![forbid(unsafe_code)]

pub mod bytes;
pub mod calendar;
pub mod edges;
pub mod hours;
pub mod listing;
pub mod page;
pub mod policy;
pub mod rewriting;
pub mod rota;
pub mod service;
pub mod set;
pub mod table;
pub mod tidying;

/// E: the minute after the last one.
pub const END: u32 = 210_379_680;

/// The longest cycle in minutes.
pub const CYCLE_LIMIT: u16 = 40_320;

/// The number of the rule that a refused input breaks.
pub type Refusal = u32;
