//! A product, or one that is made to break 02 (xiii) in one way: the comparison must find each.

use second::ie;
use second::layout::{self, COUNT};
use second::session::{Key, Pdr, Session, Sessions};
use second::settings::named_peer;

use crate::product::Product;

/// What the answers are made to depend on, or to do, against the claim.
#[derive(Clone, Copy, PartialEq, Eq, Debug)]
pub enum Plant {
    /// A request for a session with an odd precedence gets outcome 3.
    Outcome,
    /// A reply's header ends in another octet where the number of FAR IDs is odd.
    Reply,
    /// The place of a fault is one further on where the first PDR of all has precedence 0.
    Place,
    /// One TEID less is free where the sum of the precedences is odd.
    Teids,
    /// One address less is free where an odd number of sessions has gone from the table.
    Past,
    /// A peer holds one TEID more where an odd number of the other's sessions has gone.
    Peers,
    /// A TEID is not found where the first PDR of its session has a FAR ID.
    Finder,
    /// The last octet of a table is set where the sum of the precedences is odd.
    Table,
    /// A reply's header ends in the octet that the reply space began with.
    Space,
    /// The octet after a reply is set.
    Behind,
}

impl Plant {
    pub const ALL: [(&'static str, Plant); 10] = [
        ("outcome", Plant::Outcome),
        ("reply", Plant::Reply),
        ("place", Plant::Place),
        ("teids", Plant::Teids),
        ("past", Plant::Past),
        ("peers", Plant::Peers),
        ("finder", Plant::Finder),
        ("table", Plant::Table),
        ("space", Plant::Space),
        ("behind", Plant::Behind),
    ];

    pub fn named(name: &str) -> Option<Plant> {
        Plant::ALL.iter().find(|(known, _)| *known == name).map(|(_, plant)| *plant)
    }
}

/// The calls on one table.
#[derive(Clone)]
pub(crate) struct Engine<'a> {
    pub(crate) product: &'a Product,
    plant: Option<Plant>,
    /// The plant shows from the point on at which the live sets are alike; before, it remembers.
    shows: bool,
    /// How many sessions of each peer have gone from the table.
    departed: [usize; 2],
}

type Answered = (u32, usize, usize);

impl<'a> Engine<'a> {
    pub(crate) fn new(product: &'a Product, plant: Option<Plant>) -> Engine<'a> {
        Engine { product, plant, shows: false, departed: [0; 2] }
    }

    pub(crate) fn departed(&self) -> [usize; 2] {
        self.departed
    }

    pub(crate) fn show(&mut self, shows: bool) {
        self.shows = shows;
    }

    fn shows(&self, plant: Plant) -> bool {
        self.shows && self.plant == Some(plant)
    }

    /// The outcome, the length of the reply, and the place of a fault.
    pub(crate) fn request(
        &mut self,
        table: &mut [u8],
        peer: u32,
        message: &[u8],
        space: &mut [u8],
    ) -> Answered {
        let (before, old) = (count(table), space.first().copied());
        let sessions = self.seen(table);
        if self.shows(Plant::Outcome) && named(peer, message, &sessions).is_some_and(is_odd) {
            return (3, 0, 0);
        }
        let length = table.len();
        let mut answered = self.product.request(table, peer, message, space);
        if let Some(place) = place_of_peer(peer) {
            self.departed[place] += before.saturating_sub(count(table));
        }
        if let (true, Some(plant), (0, used, place)) = (self.shows, self.plant, &mut answered) {
            match plant {
                Plant::Reply if odd_far_ids(&sessions) => space[last_of_header(space)] ^= 1,
                Plant::Place => *place += usize::from(starts_with_zero(&sessions)),
                Plant::Table if odd_sum(&sessions) => table[length - 1] = 1,
                Plant::Space => space[last_of_header(space)] = old.unwrap_or(0),
                Plant::Behind => space[*used] = 1,
                _ => {}
            }
        }
        answered
    }

    pub(crate) fn free_teids(&self, table: &[u8]) -> (u32, u32) {
        let (outcome, count) = self.product.free_count(table);
        let odd = self.shows(Plant::Teids) && odd_sum(&self.seen(table));
        (outcome, count.wrapping_sub(u32::from(odd)))
    }

    pub(crate) fn free_addresses(&self, table: &[u8]) -> (u32, u32) {
        let (outcome, count) = self.product.free_addresses(table);
        let odd = self.shows(Plant::Past) && self.departed.iter().sum::<usize>() % 2 == 1;
        (outcome, count.wrapping_sub(u32::from(odd)))
    }

    /// The outcome and the number of sessions; nothing where the product has no such call.
    pub(crate) fn session_count(&self, table: &[u8]) -> Option<(u32, u32)> {
        let (outcome, count) = self.product.reading?.session_count(table);
        Some((outcome, count as u32))
    }

    /// The outcome, and how many sessions and TEIDs a peer has.
    pub(crate) fn peer_count(&self, table: &[u8], peer: u32) -> Option<(u32, u32, u32)> {
        let (outcome, sessions, teids) = self.product.reading?.peer_count(table, peer);
        let others = place_of_peer(peer).map_or(0, |place| self.departed[1 - place]);
        let odd = self.shows(Plant::Peers) && others % 2 == 1;
        Some((outcome, sessions, teids.wrapping_add(u32::from(odd))))
    }

    pub(crate) fn find_session(&self, table: &[u8], peer: u32, seid: u64) -> Option<(u32, usize)> {
        self.product.reading.map(|reading| reading.find_session(table, peer, seid))
    }

    pub(crate) fn find_teid(&self, table: &[u8], teid: u32) -> Option<(u32, usize)> {
        let found = self.product.reading?.find_teid(table, teid);
        let hides = self.shows(Plant::Finder)
            && self.seen(table).values().nth(found.1).is_some_and(|session| {
                session.pdrs.values().next().is_some_and(|pdr| pdr.far_id.is_some())
            });
        Some(if hides && found.0 == 0 { (2, 0) } else { found })
    }

    /// The sessions of a table, for a plant only.
    fn seen(&self, table: &[u8]) -> Sessions {
        match self.plant.filter(|_| self.shows) {
            Some(_) => layout::decode(table).map_or(Sessions::new(), |read| read.1),
            None => Sessions::new(),
        }
    }
}

/// Where the counts by peer have this peer's.
fn place_of_peer(peer: u32) -> Option<usize> {
    named_peer(peer).map(|peer| usize::from(peer) - 1)
}

fn count(table: &[u8]) -> usize {
    usize::from(u16::from_be_bytes([table[COUNT], table[COUNT + 1]]))
}

/// The peer's session that the header of a modification or deletion names.
fn named<'s>(peer: u32, message: &[u8], sessions: &'s Sessions) -> Option<&'s Session> {
    let served = matches!(message.get(1), Some(52 | 54));
    let seid = message.get(4..12).filter(|_| served)?;
    let seid = u64::from_be_bytes(seid.try_into().ok()?);
    sessions.get(&Key { peer: named_peer(peer)?, seid })
}

fn is_odd(session: &Session) -> bool {
    session.pdrs.values().any(|pdr| pdr.precedence % 2 == 1)
}

fn pdrs(sessions: &Sessions) -> impl Iterator<Item = &Pdr> {
    sessions.values().flat_map(|session| session.pdrs.values())
}

fn odd_sum(sessions: &Sessions) -> bool {
    pdrs(sessions).filter(|pdr| pdr.precedence % 2 == 1).count() % 2 == 1
}

fn odd_far_ids(sessions: &Sessions) -> bool {
    pdrs(sessions).filter(|pdr| pdr.far_id.is_some()).count() % 2 == 1
}

fn last_of_header(reply: &[u8]) -> usize {
    ie::header_octets(reply) - 1
}

fn starts_with_zero(sessions: &Sessions) -> bool {
    pdrs(sessions).next().is_some_and(|pdr| pdr.precedence == 0)
}
