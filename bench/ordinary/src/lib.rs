//! An ordinary Rust version of the calls that handle requests, as one would write it without
//! proofs. It works on the table octets of `docs/layout.md`, checks them at every call, and is what
//! the proved product is measured against.
//!
//! * `layout`: the octets of the table.
//! * `check`: whether a table is sound, and the maps of taken TEIDs and addresses.
//! * `request`: from the octets of a message to a request (stages 2 and 3).
//! * `unit`: one call: all stages, grants and the change to the table.
//! * `store`: the store of repeated requests.
//! * `reply`: the octets of a reply.
//! * `export`: the C interface.

mod check;
pub mod export;
mod layout;
mod list;
mod reply;
mod request;
mod store;
mod unit;

pub use check::{Peer, Settings};
pub use layout::table_length;
pub use store::make_store;
pub use unit::{free_addresses, free_count, handle, handle_once, make_table};
