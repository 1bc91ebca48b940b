//! The unit: its settings and live sessions, and one call for a request.

pub mod apply;
pub mod decision;
pub mod grants;
pub mod limits;
pub mod reply;
pub mod rules;

use crate::ie::LEAST_REPLY_SPACE;
use crate::request::{self, Kind, Request};
use crate::session::{count_of, distinct_teids, holdings, taken_addresses};
use crate::session::{Key, Session, Sessions};
use crate::settings::{named_peer, Settings, LARGEST_POOL, MOST_ADDRESSES};
pub use decision::{Decision, Reason, Refused};
pub use grants::{Grant, Owner};

/// What a call gives back: the host outcome, the reply's length (0 unless the outcome is 0), and the
/// place of a fault of stages 2 and 3 in the message, 0 where the reply has no such fault.
/// Outcome 1 (a broken table) has no counterpart here: this unit keeps no octets of a table.
#[derive(Clone, Copy, PartialEq, Eq, Debug)]
pub struct Outcome {
    pub number: u8,
    pub reply_length: usize,
    pub place: usize,
}

/// The outcome for "any other number" than a peer's, "tested first".
pub const NO_PEER: u8 = 7;

/// What a request meets at entry: the settings, the live sessions, and the peer that the host names.
#[derive(Clone, Copy)]
pub struct AtEntry<'a> {
    pub settings: &'a Settings,
    pub sessions: &'a Sessions,
    pub peer: u8,
}

impl<'a> AtEntry<'a> {
    /// A session of this peer.
    pub fn session(&self, seid: u64) -> Option<&'a Session> {
        self.sessions.get(&Key { peer: self.peer, seid })
    }

    /// The session that a request changes; an establishment starts from none.
    pub fn own(&self, request: &Request) -> Option<&'a Session> {
        match request.header.kind {
            Kind::Establishment => None,
            _ => self.session(request.header.seid),
        }
    }
}

/// The words of the maps: as many as the largest pools need.
pub const TEID_WORDS: usize = LARGEST_POOL as usize / WORD;
pub const ADDRESS_WORDS: usize = MOST_ADDRESSES as usize / WORD;
const WORD: usize = 64;

/// A map with these places taken: bit i of word k (bit 0 the lowest) is place 64 k + i.
fn map_of<const WORDS: usize>(places: impl Iterator<Item = u32>) -> [u64; WORDS] {
    let mut words = [0; WORDS];
    for place in places {
        words[place as usize / WORD] |= 1 << (place as usize % WORD);
    }
    words
}

#[derive(Clone, PartialEq, Eq, Debug)]
pub struct Unit {
    settings: Settings,
    sessions: Sessions,
}

impl Unit {
    /// An empty unit; refused for settings that are not allowed.
    pub fn new(settings: Settings) -> Option<Unit> {
        settings.are_allowed().then(|| Unit { settings, sessions: Sessions::new() })
    }

    pub fn settings(&self) -> &Settings {
        &self.settings
    }

    pub fn sessions(&self) -> &Sessions {
        &self.sessions
    }

    /// "pool size minus the number of different TEIDs in the records"
    pub fn free_count(&self) -> u32 {
        self.settings.size - distinct_teids(&self.sessions).len() as u32
    }

    /// How many sessions a peer has, and its holdings of TEIDs; nothing where there is no such peer.
    pub fn peer_count(&self, peer: u32) -> Option<(u32, u32)> {
        let peer = named_peer(peer)?;
        let sessions = count_of(&self.sessions, peer);
        Some((sessions as u32, holdings(&self.sessions, peer) as u32))
    }

    /// "The map of taken TEIDs", which "grows to 1,024 words": word k, bit i is the TEID first + 64 k
    /// + i; bits at or past the pool size are 0.
    pub fn taken_map(&self) -> [u64; TEID_WORDS] {
        let taken = distinct_teids(&self.sessions);
        map_of(taken.into_iter().map(|teid| teid - self.settings.first))
    }

    /// How many addresses of the pool no record holds.
    pub fn free_addresses(&self) -> u32 {
        self.settings.addresses - taken_addresses(&self.settings, &self.sessions).len() as u32
    }

    /// The taken addresses, as the TEIDs': word k, bit i is the address first + 64 k + i.
    pub fn address_map(&self) -> [u64; ADDRESS_WORDS] {
        let taken = taken_addresses(&self.settings, &self.sessions);
        map_of(taken.into_iter().filter_map(|address| self.settings.address_place(address)))
    }

    /// What the rules say about a message of a peer, without doing it.
    pub fn decide(&self, peer: u32, message: &[u8], reply_space: usize) -> Decision {
        let Some(peer) = named_peer(peer) else { return Decision::Outcome(NO_PEER) };
        let entry = AtEntry { settings: &self.settings, sessions: &self.sessions, peer };
        if reply_space < LEAST_REPLY_SPACE {
            return Decision::Outcome(2);
        }
        let header = match request::header::test(message) {
            Ok(header) => header,
            Err(outcome) => return Decision::Outcome(outcome),
        };
        let refused = |reasons| Decision::Refused(Refused { peer, header, reasons });
        // Stage 1: "no such session (52, 54)".
        let mut reasons = Vec::new();
        if header.kind.names_session() && entry.session(header.seid).is_none() {
            reasons.push(Reason::NoSession);
        }
        // Stages 2 and 3.
        let read = request::read(&header, message);
        reasons.extend(read.as_ref().err().copied().map(Reason::Fault));
        let request = match read {
            Ok(request) if reasons.is_empty() => request,
            _ => return refused(reasons),
        };
        // Stages 4 and 5, in the order of the causes table.
        reasons.extend(rules::broken(entry, &request));
        reasons.extend(limits::passed(entry, &request));
        // "tested after 75"
        reasons.extend(limits::no_address(entry, &request));
        if !reasons.is_empty() {
            return refused(reasons);
        }
        let grants = grants::allot(&self.settings, &self.sessions, &request);
        Decision::Accepted { peer, request, grants }
    }

    /// One request of a peer: the reply is written at the front of the space, and the space after it
    /// stays. "Any cause but 1 leaves the table unchanged."
    pub fn request(&mut self, peer: u32, message: &[u8], reply_space: &mut [u8]) -> Outcome {
        let (reply, place) = match self.decide(peer, message, reply_space.len()) {
            Decision::Outcome(number) => return Outcome { number, reply_length: 0, place: 0 },
            Decision::Refused(refused) => {
                (reply::refusal(&self.settings, &refused), refused.place())
            }
            Decision::Accepted { peer, request, grants } => {
                apply::apply(&mut self.sessions, peer, &request, &grants);
                (reply::acceptance(&self.settings, peer, &request, &grants), 0)
            }
        };
        reply_space[..reply.len()].copy_from_slice(&reply);
        Outcome { number: 0, reply_length: reply.len(), place }
    }
}
