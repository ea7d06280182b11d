//! All tests in one program, so that it is built and linked once: a module for each subject.

#![forbid(unsafe_code)]

mod changes;
mod engines;
mod explaining;
mod files;
mod findings;
mod layouts;
mod leaves;
mod merging;
mod plans;
mod readings;
mod rescuing;
mod rules;
mod shuffled;
mod table;
mod writer;
