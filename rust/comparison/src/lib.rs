//! Compares the proved code with the reference, through its C functions.
//!
//! `ffi` calls the proved code, `expected` says what the reference gives in the same form, and
//! `compare` compares the two, case by case.

#![deny(unsafe_code)]

pub mod compare;
pub mod expected;
pub mod ffi;
