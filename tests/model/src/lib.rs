//! The ledger of document 01 in plain Rust: a second reading of the paper, to compare the proved library with, and the
//! baseline of its speed. Nothing here is taken from the crates; docs/LAYOUT.md gives the places of the lent tables.
pub mod answer;
pub mod apply;
pub mod calendar;
pub mod close_of_day;
pub mod close_out;
pub mod contract;
pub mod coverage;
pub mod damage;
#[cfg(feature = "c_engine")]
pub mod engine_c;
pub mod generate;
pub mod header;
pub mod journal;
pub mod load;
pub mod make;
pub mod proposal;
pub mod record;
pub mod submit;
pub mod tables;
pub mod text;
