//! The types of the elements (IEs) that documents 01 and 02 name, and the sizes of their frame.

pub const CREATE_PDR: u16 = 1;
pub const PDI: u16 = 2;
pub const CREATED_PDR: u16 = 8;
pub const UPDATE_PDR: u16 = 9;
pub const REMOVE_PDR: u16 = 15;
pub const CAUSE: u16 = 19;
pub const SOURCE_INTERFACE: u16 = 20;
pub const F_TEID: u16 = 21;
pub const PRECEDENCE: u16 = 29;
pub const OFFENDING_IE: u16 = 40;
pub const PDR_ID: u16 = 56;
pub const F_SEID: u16 = 57;
pub const NODE_ID: u16 = 60;
pub const FQ_CSID: u16 = 65;
pub const UE_IP_ADDRESS: u16 = 93;
pub const FAR_ID: u16 = 108;
pub const CREATE_ENDPOINT: u16 = 127;
pub const CREATED_ENDPOINT: u16 = 128;
pub const UPDATE_ENDPOINT: u16 = 129;
pub const REMOVE_ENDPOINT: u16 = 130;
pub const ENDPOINT_ID: u16 = 131;
pub const ESTABLISHMENT_FLAGS: u16 = 186;

/// "Types 32768 to 65535 are vendor elements."
pub const FIRST_VENDOR: u16 = 32768;

/// "Header of 16 octets", with a SEID.
pub const HEADER_OCTETS: usize = 16;

/// Document 02 (vii): "headers of 8 octets without SEID".
pub const PLAIN_HEADER_OCTETS: usize = 8;

/// A message's elements stand behind its header; bit S of its first octet says which of the two it
/// has. A message without octets has none.
pub fn header_octets(message: &[u8]) -> usize {
    match message.first() {
        Some(first) if first & 1 == 0 => PLAIN_HEADER_OCTETS,
        _ => HEADER_OCTETS,
    }
}

/// Outcome 3: "message over 2,048".
pub const LARGEST_MESSAGE: usize = 2048;

/// Outcome 2: "reply space under 1,024", and "the reply space becomes 1,280".
pub const LEAST_REPLY_SPACE: usize = 1280;
