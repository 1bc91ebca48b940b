//! From the octets of a message to a request: the header test (outcomes 3 to 5), stage 2 (framing)
//! and stage 3 (reading). None of it looks at the live sessions.

pub mod fault;
pub mod framing;
pub mod header;
pub mod reading;
pub mod record;
pub mod render;

pub use fault::{Fault, FaultKind};
pub use header::Header;
pub use record::{FarChange, Pdi, Record, Request};

/// The served messages.
#[derive(Clone, Copy, PartialEq, Eq, PartialOrd, Ord, Debug)]
pub enum Kind {
    Establishment,
    Modification,
    Deletion,
    /// Document 02 (vii).
    SetDeletion,
}

impl Kind {
    /// The kind of a message type that is served.
    pub fn of(message_type: u8) -> Option<Kind> {
        match message_type {
            14 => Some(Kind::SetDeletion),
            50 => Some(Kind::Establishment),
            52 => Some(Kind::Modification),
            54 => Some(Kind::Deletion),
            _ => None,
        }
    }

    /// The message type of the reply: "replies 51, 53, 55", and "type 14, reply 15".
    pub fn reply_type(&self) -> u8 {
        match self {
            Kind::Establishment => 51,
            Kind::Modification => 53,
            Kind::Deletion => 55,
            Kind::SetDeletion => 15,
        }
    }

    /// Whether its header names the session that it is about.
    pub fn names_session(&self) -> bool {
        matches!(self, Kind::Modification | Kind::Deletion)
    }
}

/// Stages 2 and 3 on a message that has passed the header test.
pub fn read(header: &Header, message: &[u8]) -> Result<Request, Fault> {
    framing::frame(header.kind, message)?;
    reading::read(header, message)
}

/// The first fault of stages 2 and 3 as (cause, offending type). A message that fails the header
/// test has no stages, so it has no fault either.
pub fn first_fault(message: &[u8]) -> Option<(u8, u16)> {
    fault_in(message).map(|fault| (fault.cause, fault.offending))
}

/// Where that fault is in the message, from 0.
pub fn first_place(message: &[u8]) -> Option<usize> {
    fault_in(message).map(|fault| fault.octet)
}

fn fault_in(message: &[u8]) -> Option<Fault> {
    let header = header::test(message).ok()?;
    read(&header, message).err()
}
