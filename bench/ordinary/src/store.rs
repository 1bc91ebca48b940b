//! The store of repeated requests, as `docs/layout.md` gives it: the last eight requests that got a
//! reply, with their replies, close together and the oldest first.

use std::ops::Range;

use crate::check::is_zero;
use crate::layout::{put, u16_at};
use crate::list::List;
use crate::request::{self, LARGEST_MESSAGE};
use crate::unit::LEAST_REPLY_SPACE;

const MOST_ENTRIES: usize = 8;
const LARGEST_REPLY: usize = LEAST_REPLY_SPACE;

pub const LENGTH: usize = 1 + MOST_ENTRIES * (2 + LARGEST_MESSAGE + 2 + LARGEST_REPLY);

/// Where an entry's message and reply stand.
#[derive(Clone, Copy)]
struct Entry {
    message: usize,
    message_end: usize,
    reply: usize,
    end: usize,
}

impl Entry {
    fn message(self) -> Range<usize> {
        self.message..self.message_end
    }

    fn reply(self) -> Range<usize> {
        self.reply..self.end
    }
}

/// The entries of a sound store.
pub struct Entries {
    list: List<Entry, MOST_ENTRIES>,
    /// The number of the request stored last.
    last: Option<u32>,
}

/// Empties a store; whether its length is right. A refusal writes nothing.
pub fn make_store(store: &mut [u8]) -> bool {
    let right = store.len() == LENGTH;
    if right {
        store.fill(0);
    }
    right
}

/// The entries of a sound store, or nothing for a broken one.
pub fn check(store: &[u8]) -> Option<Entries> {
    if store.len() != LENGTH || usize::from(store[0]) > MOST_ENTRIES {
        return None;
    }
    let mut entries = Entries { list: List::new(), last: None };
    let mut at = 1;
    for _ in 0..store[0] {
        // Lengths that are allowed have room, eight times the longest.
        let message = at + 2;
        let message_end = message + Some(length_at(store, at)).filter(|n| *n <= LARGEST_MESSAGE)?;
        let reply = message_end + 2;
        let allowed = 1..=LARGEST_REPLY;
        let end = reply + Some(length_at(store, message_end)).filter(|n| allowed.contains(n))?;
        let entry = Entry { message, message_end, reply, end };
        let octets = &store[entry.message()];
        let (header, _) = request::header(octets).ok()?;
        if entries.find(store, octets).is_some() {
            return None;
        }
        entries.last = Some(number(header.sequence));
        entries.list.push(entry);
        at = end;
    }
    is_zero(&store[at..]).then_some(entries)
}

fn length_at(store: &[u8], at: usize) -> usize {
    usize::from(u16_at(store, at))
}

fn number([high, middle, low]: [u8; 3]) -> u32 {
    u32::from_be_bytes([0, high, middle, low])
}

impl Entries {
    fn find(&self, store: &[u8], message: &[u8]) -> Option<Entry> {
        self.list.iter().copied().find(|entry| store[entry.message()] == *message)
    }

    /// The stored reply to a message.
    pub fn reply_to<'a>(&self, store: &'a [u8], message: &[u8]) -> Option<&'a [u8]> {
        self.find(store, message).map(|entry| &store[entry.reply()])
    }

    /// Whether a number is newer than the last one; an empty store takes any.
    pub fn take(&self, sequence: [u8; 3]) -> bool {
        let past = |last: u32| number(sequence).wrapping_sub(last) & 0xFF_FFFF;
        self.last.is_none_or(|last| (1..=0x7F_FFFF).contains(&past(last)))
    }

    /// Keeps a request with its reply; the oldest of eight goes.
    pub fn keep(&self, store: &mut [u8], message: &[u8], reply: &[u8]) {
        let used = self.list.last().map_or(1, |entry| entry.end);
        let mut at = used;
        match self.list.len() == MOST_ENTRIES {
            true => {
                let gone = self.list[0].end;
                store.copy_within(gone..used, 1);
                at = 1 + used - gone;
            }
            false => store[0] += 1,
        }
        let message_end = put_part(store, at, message);
        let end = put_part(store, message_end, reply);
        if end < used {
            store[end..used].fill(0);
        }
    }
}

/// Writes a length and these octets; where they end.
fn put_part(store: &mut [u8], at: usize, octets: &[u8]) -> usize {
    put(store, at, &(octets.len() as u16).to_be_bytes());
    put(store, at + 2, octets);
    at + 2 + octets.len()
}
