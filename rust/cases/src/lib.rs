//! Inputs for the tests: `generate` builds them from the numbers of `random`, `data` reads those
//! of the files, `joining` has those for rows that touch, `tidying` those for rows in order, `worst`
//! those that take longest, and `case` runs them so that a failing one can be repeated.

#![forbid(unsafe_code)]

pub mod case;
pub mod data;
pub mod generate;
pub mod joining;
pub mod random;
pub mod tidying;
pub mod worst;
