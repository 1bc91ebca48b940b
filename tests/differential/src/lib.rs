//! Compares a product with the C interface of `include/pfcp_session.h` with the second
//! implementation, call by call.
//!
//! * `product`: the calls of a product behind safe functions.
//! * `spoil`: damage to tables.
//! * `run`: the comparison.
//! * `making`: the comparison of making tables.
//! * `site`: tables that are full, of other limits, and with the largest pool.
//! * `written`: the comparison of restoration requests.
//! * `reading`: the comparison of the calls that read a table.
//! * `crowded`: messages with as many records as fit.
//! * `departed`: two tables of one product with different pasts, against each other.
//! * `linked`: the archive that the programs link.
//! * `repeats`: the comparison of requests with a store of repeated ones.
//! * `spoil_store`: damage to such stores.

pub mod crowded;
pub mod departed;
#[cfg(feature = "archive")]
pub mod linked;
mod making;
pub mod product;
mod reading;
pub mod repeats;
pub mod run;
mod site;
pub mod spoil;
mod spoil_store;
mod written;
