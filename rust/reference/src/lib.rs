//! A second implementation, for the differential tests to hold the proved library to.
//!
//! It is written from the specification (documents 01 and 02) alone, never from the library's code or
//! definitions, and it prefers the obvious to the fast.

pub mod frame;
pub mod framelog;
pub mod notice;
pub mod reassembly;
pub mod replay;
pub mod sfi;
pub mod sum;
pub mod ubios;
