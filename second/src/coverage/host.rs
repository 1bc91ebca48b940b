//! The host outcomes in detail: which test of the header failed, and the edges of the lengths.

use crate::ie::{HEADER_OCTETS, LARGEST_MESSAGE, LEAST_REPLY_SPACE, PLAIN_HEADER_OCTETS};

/// Why a message is outcome 4; counted where it is the only reason.
#[derive(Clone, Copy, PartialEq, Eq, PartialOrd, Ord, Debug)]
pub enum HeaderFault {
    UnderSixteenOctets,
    Version,
    Forward,
    NoSeid,
    LengthTooSmall,
    LengthTooLarge,
    // The same of a set deletion.
    SetUnderEightOctets,
    SetVersion,
    SetForward,
    SetWithSeid,
    SetLengthTooSmall,
    SetLengthTooLarge,
}

/// A length at the edge of a rule.
#[derive(Clone, Copy, PartialEq, Eq, PartialOrd, Ord, Debug)]
pub enum Edge {
    ReplySpaceJustTooSmall,
    ReplySpaceJustEnough,
    MessageJustTooLarge,
    LargestMessage,
    FifteenOctets,
    SixteenOctets,
    SetOfSevenOctets,
    SetOfEightOctets,
}

pub const ALL_HEADER_FAULTS: [HeaderFault; 12] = [
    HeaderFault::UnderSixteenOctets,
    HeaderFault::Version,
    HeaderFault::Forward,
    HeaderFault::NoSeid,
    HeaderFault::LengthTooSmall,
    HeaderFault::LengthTooLarge,
    HeaderFault::SetUnderEightOctets,
    HeaderFault::SetVersion,
    HeaderFault::SetForward,
    HeaderFault::SetWithSeid,
    HeaderFault::SetLengthTooSmall,
    HeaderFault::SetLengthTooLarge,
];

pub const ALL_EDGES: [Edge; 8] = [
    Edge::ReplySpaceJustTooSmall,
    Edge::ReplySpaceJustEnough,
    Edge::MessageJustTooLarge,
    Edge::LargestMessage,
    Edge::FifteenOctets,
    Edge::SixteenOctets,
    Edge::SetOfSevenOctets,
    Edge::SetOfEightOctets,
];

/// Whether a message is a set deletion by its type.
fn is_set(message: &[u8]) -> bool {
    message.get(1) == Some(&14)
}

pub fn header_faults(message: &[u8]) -> Vec<HeaderFault> {
    use HeaderFault::*;
    let set = is_set(message);
    let either = |of_set, other| if set { of_set } else { other };
    if message.len() < if set { PLAIN_HEADER_OCTETS } else { HEADER_OCTETS } {
        return vec![either(SetUnderEightOctets, UnderSixteenOctets)];
    }
    let length = usize::from(message[2]) * 256 + usize::from(message[3]);
    let tests = [
        (message[0] & 0xE0 != 0x20, either(SetVersion, Version)),
        (message[0] & 4 == 4, either(SetForward, Forward)),
        ((message[0] & 1 == 1) == set, either(SetWithSeid, NoSeid)),
        (length + 4 < message.len(), either(SetLengthTooSmall, LengthTooSmall)),
        (length + 4 > message.len(), either(SetLengthTooLarge, LengthTooLarge)),
    ];
    tests.into_iter().filter(|(fails, _)| *fails).map(|(_, fault)| fault).collect()
}

/// The edge that a call with this outcome stands at.
pub fn edge(message: &[u8], reply_space: usize, outcome: u8) -> Option<Edge> {
    match (outcome, reply_space, message.len()) {
        (2, space, _) if space == LEAST_REPLY_SPACE - 1 => Some(Edge::ReplySpaceJustTooSmall),
        (3, _, length) if length == LARGEST_MESSAGE + 1 => Some(Edge::MessageJustTooLarge),
        (4, _, length) if is_set(message) && length == PLAIN_HEADER_OCTETS - 1 => {
            Some(Edge::SetOfSevenOctets)
        }
        (4, _, length) if !is_set(message) && length == HEADER_OCTETS - 1 => {
            Some(Edge::FifteenOctets)
        }
        (0, _, LARGEST_MESSAGE) => Some(Edge::LargestMessage),
        (0, _, PLAIN_HEADER_OCTETS) => Some(Edge::SetOfEightOctets),
        (0, _, HEADER_OCTETS) if !is_set(message) => Some(Edge::SixteenOctets),
        (0, LEAST_REPLY_SPACE, _) => Some(Edge::ReplySpaceJustEnough),
        _ => None,
    }
}
