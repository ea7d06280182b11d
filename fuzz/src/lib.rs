//! The calls for C beside the second program on any input of the fuzzer; every difference is a panic.

#![forbid(unsafe_code)]

pub mod compare;
pub mod input;
