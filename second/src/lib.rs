//! An independent second implementation of the rules in document 01 ("What we are building and its
//! rules") and its readings. It shares no code with the proved product and exists to test it and
//! our reading of the rules.
//!
//! * `settings`, `session`, `element`, `ie`: the values the rules speak of.
//! * `request`: the header test, stage 2 (framing) and stage 3 (reading).
//! * `unit`: the live sessions, all stages and causes, grants, application and reply.
//! * `live`: the live set, folded from messages, outcomes and replies alone.
//! * `restoration`: the restoration request of a live session.
//! * `layout`: a table's octets, written and read as docs/layout.md says.
//! * `store`, `repeats`: the store of repeated requests, its octets, and a request with one.
//! * `list`: the list of live sessions, as the unit's operators see it.
//! * `coverage`: what a run of calls has met, and what it should meet.
//! * `generate`: seeded sequences of calls; it uses none of the readers and writers above.
//! * `selfcheck`: drives the unit over generated sequences and checks what 01 promises.
//! * `program`: the arguments and the exit status of a program that runs generated calls.

pub mod coverage;
pub mod element;
pub mod generate;
pub mod ie;
pub mod layout;
pub mod list;
pub mod live;
pub mod program;
pub mod repeats;
pub mod request;
pub mod restoration;
pub mod selfcheck;
pub mod session;
pub mod settings;
pub mod store;
pub mod unit;
