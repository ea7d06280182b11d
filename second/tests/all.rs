//! All tests in one program, so that it is built and linked once: a module for each subject.

mod appendix_a;
mod cases;
mod comparing;
mod explaining;
mod generator;
mod layout_1_0;
mod merging;
mod panel;
mod plans;
mod program;
mod readings;
mod readings_writer;
mod rescuing;
mod two_engines;
mod vectors;
