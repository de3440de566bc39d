//! The comparisons, each of one case, for the tests and for the long run. What a case reached is
//! added to a tally; a difference stops the case.

pub mod calendar;
pub mod hours;

#[cfg(feature = "rewriting")]
pub mod area;
#[cfg(feature = "rota")]
pub mod asked;
#[cfg(feature = "table")]
pub mod page;
#[cfg(feature = "rewriting")]
pub mod rewriting;
#[cfg(feature = "rota")]
pub mod rota;
#[cfg(feature = "service")]
pub mod service;
#[cfg(feature = "table")]
pub mod table;
#[cfg(feature = "rewriting")]
pub mod tidying;
