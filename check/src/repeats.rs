//! The unit's store of repeated requests of a peer, as requests and replies tell it (02 (xi)).

use second::repeats::is_newer;
use second::request::header;
use second::store::{Entry, MOST_ENTRIES};

#[derive(Clone, Debug, Default)]
pub struct Repeats {
    /// The oldest first.
    entries: Vec<Entry>,
}

impl Repeats {
    pub fn from(entries: &[Entry]) -> Repeats {
        Repeats { entries: entries.to_vec() }
    }

    /// The reply that a repeat of this message gets.
    pub fn reply_to(&self, message: &[u8]) -> Option<&[u8]> {
        self.entries.iter().find(|entry| entry.message == message).map(|entry| &entry.reply[..])
    }

    /// Whether some message got this reply.
    pub fn has_reply(&self, reply: &[u8]) -> bool {
        self.entries.iter().any(|entry| entry.reply == reply)
    }

    /// Whether a message that is not stored is dropped for its number (outcome 6).
    pub fn drops(&self, number: u32) -> bool {
        self.entries.last().is_some_and(|last| !is_newer(number, number_of(&last.message)))
    }

    /// Keeps what the engine has answered.
    pub fn keep(&mut self, message: &[u8], reply: &[u8]) {
        self.entries.retain(|entry| entry.message != message);
        self.entries.push(Entry { message: message.to_vec(), reply: reply.to_vec() });
        if self.entries.len() > MOST_ENTRIES {
            self.entries.remove(0);
        }
    }
}

/// The number of a message that the header test lets pass; a store holds no other.
pub fn number_of(message: &[u8]) -> u32 {
    header::test(message).map_or(0, |header| header.sequence)
}
