//! The rota, its tidying, its table, the rewriting, the service and the calendar, made to be quick:
//! the yardstick for the speed of the proved code.
//!
//! Rotas and tables stay in their bytes: reading judges them in one pass, and a question looks
//! only at what it needs. Nothing is allocated but by the rewriting. Of the reference it takes
//! plain types, numbers in bytes and sets, and no rule.

#![forbid(unsafe_code)]

pub mod calendar;
pub mod policy;
pub mod rewriting;
pub mod rota;
pub mod service;
mod sweep;
pub mod table;
pub mod tidying;

use reference::Refusal;

/// Goes on where a rule is kept; its number where it is not.
#[inline]
fn ensure(is_kept: bool, refusal: Refusal) -> Result<(), Refusal> {
    if is_kept { Ok(()) } else { Err(refusal) }
}
