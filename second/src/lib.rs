//! A second reader, judge, lister, viewer and writer of `.zt` files, written from documents 01 and
//! READINGS, and for the requests from 02, REQUESTS and 001, alone: it decodes the manifest to a
//! tree and then judges the tree.

#![forbid(unsafe_code)]

pub mod alike;
pub mod antt;
pub mod appendix;
pub mod cases;
pub mod cbor;
pub mod changes;
pub mod columns;
pub mod compose;
pub mod decimal;
pub mod described;
pub mod encode;
pub mod engines;
pub mod explain;
pub mod findings;
pub mod first_layout;
pub mod frame;
pub mod generate;
pub mod judge;
pub mod layout;
pub mod listing;
pub mod merge;
pub mod planned;
pub mod probes;
pub mod refusal;
pub mod repair;
pub mod rescue;
pub mod row_probes;
pub mod rows;
pub mod sweep;
pub mod types;
pub mod utf8;
pub mod vectors;
pub mod view;
pub mod writer;
