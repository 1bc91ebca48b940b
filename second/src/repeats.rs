//! 02 (xi): "Repeated requests get the old reply." A request with a store before the unit, with 02
//! (xiv) "the named peer's store".
//!
//! A broken table or store (outcome 1) has no counterpart here: a unit and a list of entries stand
//! for sound ones. Whoever has octets asks `layout::sound` and `store::sound` first.

use crate::ie::LEAST_REPLY_SPACE;
use crate::request::header;
use crate::settings::named_peer;
use crate::store::{Entry, MOST_ENTRIES};
use crate::unit::{Outcome, Unit};

/// What became of a request.
#[derive(Clone, Copy, PartialEq, Eq, PartialOrd, Ord, Debug)]
pub enum Way {
    /// Outcome 7, for any number but a peer's: neither table nor store is looked at.
    NoPeer,
    /// Outcomes 2 to 5.
    Unread,
    /// "Equal octets get the stored reply".
    Repeat,
    /// Outcome 6: "the rest is dropped".
    Dropped,
    /// "newer goes to the engine"
    Engine,
}

/// The outcome of a request whose number is not newer.
pub const OLD_NUMBER: u8 = 6;

/// "a number is newer when its wrapping 24-bit difference from the last one is 1 to 8,388,607"
pub fn is_newer(number: u32, last: u32) -> bool {
    let difference = (number + (1 << 24) - last) % (1 << 24);
    (1..=8_388_607).contains(&difference)
}

/// What becomes of a message of a peer, without doing it. Entries are those of the peer's store, the
/// oldest first.
pub fn way_of(peer: u32, entries: &[Entry], message: &[u8], reply_space: usize) -> Way {
    if named_peer(peer).is_none() {
        return Way::NoPeer;
    }
    let Ok(header) = header::test(message) else { return Way::Unread };
    if reply_space < LEAST_REPLY_SPACE {
        return Way::Unread;
    }
    if entries.iter().any(|entry| entry.message == message) {
        return Way::Repeat;
    }
    // "The last one" is the entry stored last. "An empty store takes any number."
    let last = entries.last().map(|entry| number_of(&entry.message));
    match last.is_none_or(|last| is_newer(header.sequence, last)) {
        true => Way::Engine,
        false => Way::Dropped,
    }
}

/// The number of a message that passes the header test; a set deletion's stands in its own header.
fn number_of(message: &[u8]) -> u32 {
    header::test(message).expect("an entry's message gets none of outcomes 3 to 5").sequence
}

/// One request of a peer, with its store: what became of it, and the outcome. The reply is written as
/// `Unit::request` does.
pub fn request_once(
    unit: &mut Unit,
    peer: u32,
    entries: &mut Vec<Entry>,
    message: &[u8],
    reply_space: &mut [u8],
) -> (Way, Outcome) {
    let way = way_of(peer, entries, message, reply_space.len());
    let outcome = match way {
        Way::NoPeer | Way::Unread => unit.request(peer, message, reply_space),
        Way::Repeat => repeat(entries, message, reply_space),
        Way::Dropped => Outcome { number: OLD_NUMBER, reply_length: 0, place: 0 },
        Way::Engine => {
            let outcome = unit.request(peer, message, reply_space);
            let reply = reply_space[..outcome.reply_length].to_vec();
            keep(entries, Entry { message: message.to_vec(), reply });
            outcome
        }
    };
    (way, outcome)
}

/// "Equal octets get the stored reply, with place 0 under (iv), and change nothing."
fn repeat(entries: &[Entry], message: &[u8], reply_space: &mut [u8]) -> Outcome {
    let stored = entries.iter().find(|entry| entry.message == message).expect("a stored message");
    reply_space[..stored.reply.len()].copy_from_slice(&stored.reply);
    Outcome { number: 0, reply_length: stored.reply.len(), place: 0 }
}

/// "the last eight replied requests": the oldest goes.
fn keep(entries: &mut Vec<Entry>, entry: Entry) {
    entries.push(entry);
    if entries.len() > MOST_ENTRIES {
        entries.remove(0);
    }
}
