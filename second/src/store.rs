//! 02 (xi): "Keep the last eight replied requests, whole, with their replies, in a lent store". Its
//! octets are those of `docs/layout.md`: a count, the entries close together with the oldest first,
//! zeros to the end.

use std::fmt;

use crate::ie::{LARGEST_MESSAGE, LEAST_REPLY_SPACE};
use crate::request::header;

pub const MOST_ENTRIES: usize = 8;

/// A stored reply is at most as long as the least reply space: so it has room in any that is lent.
pub const LARGEST_REPLY: usize = LEAST_REPLY_SPACE;

/// The count, and eight of the longest entries: two lengths of two octets, message and reply.
pub const LENGTH: usize = 1 + MOST_ENTRIES * (2 + LARGEST_MESSAGE + 2 + LARGEST_REPLY);

#[derive(Clone, PartialEq, Eq, Debug)]
pub struct Entry {
    pub message: Vec<u8>,
    pub reply: Vec<u8>,
}

/// Why a store is broken: "exactly when its length is wrong, it counts more than eight, an entry's
/// message would get one of outcomes 3 to 5, an entry's reply is empty or over [the limit], two
/// entries' messages are equal, or unused room isn't zero".
#[derive(Clone, Copy, PartialEq, Eq, PartialOrd, Ord, Debug)]
pub enum Broken {
    Length,
    Count,
    /// The outcome that an entry's message would get.
    Message(u8),
    EmptyReply,
    LongReply,
    EqualMessages,
    Room,
}

pub const ALL_BROKEN: [Broken; 9] = [
    Broken::Length,
    Broken::Count,
    Broken::Message(3),
    Broken::Message(4),
    Broken::Message(5),
    Broken::EmptyReply,
    Broken::LongReply,
    Broken::EqualMessages,
    Broken::Room,
];

impl fmt::Display for Broken {
    fn fmt(&self, f: &mut fmt::Formatter) -> fmt::Result {
        match self {
            Broken::Length => write!(f, "another length than a store's"),
            Broken::Count => write!(f, "more than eight entries"),
            Broken::Message(outcome) => write!(f, "a message of outcome {outcome}"),
            Broken::EmptyReply => write!(f, "an empty reply"),
            Broken::LongReply => write!(f, "a reply that is too long"),
            Broken::EqualMessages => write!(f, "two equal messages"),
            Broken::Room => write!(f, "unused room that is not zero"),
        }
    }
}

/// The octets of a store with these entries, the oldest first. There must be room for them; they may
/// break the rules otherwise.
pub fn encode(entries: &[Entry]) -> Vec<u8> {
    let mut store = vec![entries.len() as u8];
    for part in entries.iter().flat_map(|entry| [&entry.message, &entry.reply]) {
        store.extend((part.len() as u16).to_be_bytes());
        store.extend(part);
    }
    assert!(store.len() <= LENGTH, "more entries than there is room for");
    store.resize(LENGTH, 0);
    store
}

/// The entries of a sound store, the oldest first, or the first reason why it is broken.
pub fn sound(store: &[u8]) -> Result<Vec<Entry>, Broken> {
    if store.len() != LENGTH {
        return Err(Broken::Length);
    }
    let (count, mut rest) = (usize::from(store[0]), &store[1..]);
    if count > MOST_ENTRIES {
        return Err(Broken::Count);
    }
    let mut entries = Vec::new();
    for _ in 0..count {
        let message = next_message(&mut rest)?;
        let reply = next_reply(&mut rest)?;
        entries.push(Entry { message, reply });
    }
    if rest.iter().any(|octet| *octet != 0) {
        return Err(Broken::Room);
    }
    match holds_equal_messages(&entries) {
        true => Err(Broken::EqualMessages),
        false => Ok(entries),
    }
}

/// The next part of a store after its length. A length that is allowed has room: up to eight of the
/// longest entries do.
fn next_part<'a>(
    rest: &mut &'a [u8],
    allowed: impl Fn(usize) -> Result<(), Broken>,
) -> Result<&'a [u8], Broken> {
    let (length, after) = rest.split_at(2);
    let length = usize::from(u16::from_be_bytes([length[0], length[1]]));
    allowed(length)?;
    let (part, after) = after.split_at(length);
    *rest = after;
    Ok(part)
}

fn next_message(rest: &mut &[u8]) -> Result<Vec<u8>, Broken> {
    let message = next_part(rest, |length| match length > LARGEST_MESSAGE {
        true => Err(Broken::Message(3)),
        false => Ok(()),
    })?;
    header::test(message).map_err(Broken::Message)?;
    Ok(message.to_vec())
}

fn next_reply(rest: &mut &[u8]) -> Result<Vec<u8>, Broken> {
    let reply = next_part(rest, |length| match length {
        0 => Err(Broken::EmptyReply),
        1..=LARGEST_REPLY => Ok(()),
        _ => Err(Broken::LongReply),
    })?;
    Ok(reply.to_vec())
}

fn holds_equal_messages(entries: &[Entry]) -> bool {
    let mut messages: Vec<&[u8]> = entries.iter().map(|entry| &entry.message[..]).collect();
    messages.sort();
    messages.windows(2).any(|pair| pair[0] == pair[1])
}
