//! Document 01 written a second time, in plain Rust, from the paper alone.
//!
//! It shares no line with the proved drive and was not written from its code or definitions. It is slow, allocates freely and is
//! meant to be read beside the paper: what stands in quotation marks is the paper's own sentence, and below it is what it does.
//! Where document 02 asks for something else, its sentence stands there too, with the change's number.
//!
//! Read in this order: [`digest`], [`records`] (layouts, rows 3 to 7), [`frame`] (a frame's parts), [`table`] (what an operation needs,
//! change 5), [`group`] (what a group object holds, change 6), [`drive`] (state, placing rule, rows 24 to 26), [`gate`] (rows 1 to 23 and
//! 31 to 34, and the operations), [`client`] (issuer, builder, reply check: rows 26, 28 to 30), [`ledger`] (demand 3's), [`input`] (the
//! records that the programs read), [`report`] (change 1). [`rng`] and [`traffic`] make the random calls of the tests.
//!
//! Build: `cargo build --release --offline`; or without cargo:
//! `rustc --edition 2021 -O --crate-type lib --crate-name model src/lib.rs --out-dir OUT`, then for each program
//! `rustc --edition 2021 -O src/bin/NAME.rs --extern model=OUT/libmodel.rlib --out-dir OUT`.

pub mod client;
pub mod digest;
pub mod drive;
pub mod frame;
pub mod gate;
pub mod group;
pub mod input;
pub mod ledger;
#[cfg(test)]
mod mills;
pub mod records;
pub mod report;
pub mod rng;
#[cfg(test)]
mod stacks;
pub mod table;
pub mod traffic;
