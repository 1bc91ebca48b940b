//! The requests of both peers in a capture, each with its reply.
//!
//! A request goes to a signalling address of the unit, and that address says whose it is. Its reply comes back
//! from there, with the same sequence number and the type that answers it; either may be captured first.

use std::collections::{BTreeMap, BTreeSet, VecDeque};
use std::net::{IpAddr, SocketAddr};

use second::element::f_seid;
use second::ie;
use second::request::framing::{elements, Part};
use second::request::{header, Header, Kind};
use second::session::Key;

use crate::capture::{Packet, Time};
use crate::datagram::{Content, Datagram, Datagrams};
use crate::repeats::Repeats;

/// A request that a unit would read: none of outcomes 3 to 5.
#[derive(Clone, PartialEq, Eq, Debug)]
pub struct Request {
    /// The packet that had it, and when.
    pub number: u64,
    pub time: Option<Time>,
    pub peer: u8,
    pub header: Header,
    pub octets: Vec<u8>,
}

impl Request {
    /// The session that it is about: the F-SEID's of an establishment, the header's of the others; none of a
    /// set deletion, or where it cannot be read.
    pub fn seid(&self) -> Option<u64> {
        match self.header.kind {
            Kind::Establishment => elements(Part::body(&self.octets))
                .find(|element| element.ie_type == ie::F_SEID)
                .and_then(|element| f_seid::read(element.value).ok())
                .map(|f_seid| f_seid.seid),
            Kind::Modification | Kind::Deletion => Some(self.header.seid),
            Kind::SetDeletion => None,
        }
    }

    pub fn key(&self) -> Option<Key> {
        self.seid().map(|seid| Key { peer: self.peer, seid })
    }
}

#[derive(Clone, PartialEq, Eq, Debug)]
pub struct Reply {
    pub number: u64,
    pub time: Option<Time>,
    pub peer: u8,
    /// The kind of request that it answers.
    pub kind: Kind,
    /// 0 where its header has none.
    pub seid: u64,
    pub sequence: u32,
    pub cause: Option<u8>,
    pub octets: Vec<u8>,
}

/// The cause of a reply.
pub fn cause_of(reply: &[u8]) -> Option<u8> {
    elements(Part::body(reply))
        .find(|element| element.ie_type == ie::CAUSE)
        .and_then(|element| element.value.first().copied())
}

impl Reply {
    /// A reply of a served kind whose header is as the unit writes it.
    fn read(packet: &Packet, peer: u8, kind: Kind, octets: &[u8]) -> Option<Reply> {
        let plain = kind == Kind::SetDeletion;
        let header = if plain { ie::PLAIN_HEADER_OCTETS } else { ie::HEADER_OCTETS };
        let first = *octets.first()?;
        let length = usize::from(u16::from_be_bytes([*octets.get(2)?, *octets.get(3)?]));
        if first >> 5 != 1 || first & 5 != u8::from(!plain) || octets.len() < header {
            return None;
        }
        if length != octets.len() - 4 {
            return None;
        }
        let number = |part: &[u8]| part.iter().fold(0, |sum, octet| sum << 8 | u64::from(*octet));
        let seid = if plain { 0 } else { number(&octets[4..12]) };
        let sequence = number(&octets[header - 4..header - 1]) as u32;
        let (number, time, cause) = (packet.number, packet.time, cause_of(octets));
        Some(Reply { number, time, peer, kind, seid, sequence, cause, octets: octets.to_vec() })
    }

    pub fn is_accepted(&self) -> bool {
        self.cause == Some(1)
    }

    /// Whether it can answer a request of its kind and number, by its SEID: the session's, or 0 for cause 65 and
    /// refused establishments.
    fn fits(&self, request: &Request) -> bool {
        let none = match self.kind {
            Kind::SetDeletion => true,
            Kind::Establishment => !self.is_accepted(),
            Kind::Modification | Kind::Deletion => self.cause == Some(65),
        };
        match none {
            true => self.seid == 0,
            false => request.seid() == Some(self.seid),
        }
    }
}

/// A request and its reply. It counts from the reply on.
#[derive(Clone, PartialEq, Eq, Debug)]
pub struct Exchange {
    pub request: Request,
    pub reply: Reply,
}

/// Where the unit listens.
#[derive(Clone, Debug)]
pub struct Unit {
    pub port: u16,
    /// The signalling addresses of peer 1 and peer 2. Nothing: the unit has one control plane, and listens where
    /// the requests go.
    pub addresses: Option<[Vec<IpAddr>; 2]>,
}

impl Unit {
    fn peer_of(&self, address: IpAddr) -> Option<u8> {
        match &self.addresses {
            None => Some(1),
            Some([first, _]) if first.contains(&address) => Some(1),
            Some([_, second]) if second.contains(&address) => Some(2),
            Some(_) => None,
        }
    }

    /// Whether a datagram between these may be one of the unit's.
    fn is_between(&self, from: SocketAddr, to: SocketAddr) -> bool {
        let own = |one: SocketAddr| one.port() == self.port && self.peer_of(one.ip()).is_some();
        own(from) || own(to)
    }
}

/// What the capture does not show, and from which packet on something may be otherwise for it.
#[derive(Clone, PartialEq, Eq, Debug)]
pub struct Doubt {
    pub packet: u64,
    pub scope: Scope,
    pub text: String,
}

/// Which sessions a doubt is about.
#[derive(Clone, Copy, PartialEq, Eq, Debug)]
pub enum Scope {
    All,
    Peer(u8),
    Session(Key),
}

impl Scope {
    pub fn covers(&self, key: Key) -> bool {
        match self {
            Scope::All => true,
            Scope::Peer(peer) => *peer == key.peer,
            Scope::Session(own) => *own == key,
        }
    }
}

/// What a capture shows of the unit's traffic.
#[derive(Default, Debug)]
pub struct Traffic {
    /// In the order of the replies, in which the unit served them.
    pub exchanges: Vec<Exchange>,
    /// Requests without a reply, and not copies of ones that have one.
    pub open: Vec<Request>,
    /// Replies without a request.
    pub orphans: Vec<Reply>,
    pub doubts: Vec<Doubt>,
    /// The addresses that requests went to.
    pub destinations: BTreeSet<IpAddr>,
    /// Whether nobody said which addresses are the unit's.
    pub is_guessed: bool,
    pub counts: Counts,
}

#[derive(Default, Debug)]
pub struct Counts {
    pub packets: u64,
    pub first: Option<Time>,
    pub last: Option<Time>,
    /// Copies of a request that has a reply: repeats whose own reply is not in the capture.
    pub copies: usize,
    /// Messages of the types 14, 50, 52 and 54 that no unit reads: outcomes 3 to 5.
    pub unread: usize,
    /// Repeats with an old number that got their old reply again, as the unit gives where it is owed.
    pub owed: usize,
    /// Replies without a request to which one with an old number could belong.
    pub old_answered: usize,
    /// PFCP messages of other types.
    pub others: usize,
    /// Packets whose check sums or lengths are wrong.
    pub damaged: usize,
    pub put_together: usize,
}

/// A reply that was captured before its request was so by moments: 10 milliseconds.
const MOMENT: u128 = 10_000_000;

/// What a reply is matched with its request by: who asked, where, the number, the kind.
type Match = (SocketAddr, SocketAddr, u32, Kind);

#[derive(Default)]
struct Matching {
    asked: VecDeque<Request>,
    /// Requests whose number was not newer when they came: a unit with a store drops them.
    old: VecDeque<Request>,
    replied: VecDeque<Reply>,
    /// Requests and replies that have each other.
    used: Vec<(Vec<u8>, Vec<u8>)>,
}

impl Matching {
    /// Takes out the request that a reply answers: a repeat of one that got the same, else the oldest. Where
    /// others could be meant, which have the same number, says so.
    fn asked_by(&mut self, reply: &Reply) -> Option<(Request, bool)> {
        let used = &self.used;
        let is_repeat = |request: &Request| {
            used.iter().any(|(asked, got)| *asked == request.octets && *got == reply.octets)
        };
        if let Some(place) = self.asked.iter().position(is_repeat) {
            return self.asked.remove(place).map(|request| (request, true));
        }
        let place = self.asked.iter().position(|request| reply.fits(request))?;
        let request = self.asked.remove(place)?;
        let is_other = |one: &Request| reply.fits(one) && one.octets != request.octets;
        let is_sure = !self.asked.iter().any(is_other);
        Some((request, is_sure))
    }

    /// Takes out a repeat with an old number whose request got just this reply before.
    fn owed_by(&mut self, reply: &Reply) -> Option<Request> {
        let had = |request: &Request| {
            self.used.iter().any(|(asked, got)| *asked == request.octets && *got == reply.octets)
        };
        let place = self.old.iter().position(had)?;
        self.old.remove(place)
    }
}

/// Takes packets in the order of the capture.
pub struct Listener {
    unit: Unit,
    datagrams: Datagrams,
    matching: BTreeMap<Match, Matching>,
    /// The unit keeps no store of repeats.
    no_repeats: bool,
    /// The store of each peer, as far as the capture tells it.
    stores: [Repeats; 2],
    unknown_links: BTreeSet<u32>,
    traffic: Traffic,
}

impl Listener {
    pub fn new(unit: Unit, no_repeats: bool) -> Listener {
        Listener {
            unit,
            datagrams: Datagrams::default(),
            matching: BTreeMap::new(),
            no_repeats,
            stores: Default::default(),
            unknown_links: BTreeSet::new(),
            traffic: Traffic::default(),
        }
    }

    pub fn doubt(&mut self, packet: u64, scope: Scope, text: String) {
        self.traffic.doubts.push(Doubt { packet, scope, text });
    }

    pub fn hear(&mut self, packet: &Packet) {
        let counts = &mut self.traffic.counts;
        counts.packets = packet.number;
        counts.first = counts.first.or(packet.time);
        counts.last = packet.time.or(counts.last);
        match self.datagrams.read(packet) {
            Content::Datagram(datagram) => self.take(packet, &datagram),
            Content::Other | Content::Fragment => {}
            Content::Damaged => self.traffic.counts.damaged += 1,
            Content::Cut(Some((from, to))) if !self.unit.is_between(from, to) => {}
            Content::Cut(_) => {
                let text = format!("packet {} was cut by the snap length", packet.number);
                self.doubt(packet.number, Scope::All, text);
            }
            Content::UnknownLink => {
                if self.unknown_links.insert(packet.link) {
                    let (number, link) = (packet.number, packet.link);
                    let text = format!(
                        "packets of link type {link}, from packet {number} on, are not read"
                    );
                    self.doubt(number, Scope::All, text);
                }
            }
        }
    }

    fn take(&mut self, packet: &Packet, datagram: &Datagram) {
        let Datagram { from, to, octets } = datagram;
        let message_type = octets.get(1).copied().unwrap_or(0);
        if to.port() == self.unit.port {
            if let (Some(peer), Some(_)) = (self.unit.peer_of(to.ip()), Kind::of(message_type)) {
                return self.ask(packet, peer, datagram);
            }
        }
        if from.port() == self.unit.port {
            let answered = message_type.checked_sub(1).and_then(Kind::of);
            if let (Some(peer), Some(kind)) = (self.unit.peer_of(from.ip()), answered) {
                return self.answer(packet, peer, kind, datagram);
            }
        }
        if self.unit.is_between(*from, *to) {
            self.traffic.counts.others += 1;
        }
    }

    fn ask(&mut self, packet: &Packet, peer: u8, datagram: &Datagram) {
        let octets = datagram.octets.clone();
        let Ok(header) = header::test(&octets) else {
            self.traffic.counts.unread += 1;
            return;
        };
        self.traffic.destinations.insert(datagram.to.ip());
        let request = Request { number: packet.number, time: packet.time, peer, header, octets };
        let by = (datagram.from, datagram.to, header.sequence, header.kind);
        let matching = self.matching.entry(by).or_default();
        let is_near = |reply: &Reply| match (reply.time, request.time) {
            (Some(before), Some(after)) => before.distance(after) <= MOMENT,
            _ => true,
        };
        let waits = |reply: &Reply| reply.fits(&request) && is_near(reply);
        if let Some(place) = matching.replied.iter().position(waits) {
            if let Some(reply) = matching.replied.remove(place) {
                return self.pair(by, request, reply);
            }
        }
        let store = &self.stores[usize::from(peer) - 1];
        let is_repeat = store.reply_to(&request.octets).is_some();
        match !self.no_repeats && !is_repeat && store.drops(header.sequence) {
            true => matching.old.push_back(request),
            false => matching.asked.push_back(request),
        }
    }

    fn pair(&mut self, by: Match, request: Request, reply: Reply) {
        let store = &mut self.stores[usize::from(request.peer) - 1];
        if store.reply_to(&request.octets) != Some(&reply.octets) {
            store.keep(&request.octets, &reply.octets);
        }
        let matching = self.matching.entry(by).or_default();
        matching.used.push((request.octets.clone(), reply.octets.clone()));
        self.traffic.exchanges.push(Exchange { request, reply });
    }

    fn answer(&mut self, packet: &Packet, peer: u8, kind: Kind, datagram: &Datagram) {
        let Some(reply) = Reply::read(packet, peer, kind, &datagram.octets) else {
            let text = format!("packet {} is a reply that cannot be read", packet.number);
            return self.doubt(packet.number, Scope::Peer(peer), text);
        };
        let by = (datagram.to, datagram.from, reply.sequence, kind);
        let matching = self.matching.entry(by).or_default();
        match matching.asked_by(&reply) {
            Some((request, is_sure)) => {
                if !is_sure {
                    let (number, own) = (reply.number, request.number);
                    let text = format!(
                        "packet {number} answers packet {own} or another one with its number"
                    );
                    self.doubt(number, Scope::Peer(peer), text);
                }
                self.pair(by, request, reply);
            }
            // A copy of a reply, as where packets are captured on two interfaces, or that to a repeat.
            None if self.stores[usize::from(peer) - 1].has_reply(&reply.octets) => {}
            None if matching.owed_by(&reply).is_some() => self.traffic.counts.owed += 1,
            None => matching.replied.push_back(reply),
        }
    }

    /// All that was heard. Copies of a request that has its reply change nothing, unless the unit keeps no store.
    pub fn end(mut self) -> Traffic {
        let no_repeats = self.no_repeats;
        let mut traffic = self.traffic;
        traffic.counts.put_together = self.datagrams.put_together;
        for one in self.datagrams.incomplete() {
            let (from, to) = one.ports.unwrap_or((self.unit.port, self.unit.port));
            if self.unit.is_between(SocketAddr::new(one.from, from), SocketAddr::new(one.to, to)) {
                let text =
                    format!("of the fragments from packet {} on some are not here", one.number);
                traffic.doubts.push(Doubt { packet: one.number, scope: Scope::All, text });
            }
        }
        let answered: BTreeSet<(u8, Vec<u8>)> = traffic
            .exchanges
            .iter()
            .map(|exchange| (exchange.request.peer, exchange.request.octets.clone()))
            .collect();
        for matching in std::mem::take(&mut self.matching).into_values() {
            if !matching.replied.is_empty() && !matching.old.is_empty() {
                traffic.counts.old_answered += 1;
            }
            traffic.orphans.extend(matching.replied);
            for request in matching.asked.into_iter().chain(matching.old) {
                match !no_repeats && answered.contains(&(request.peer, request.octets.clone())) {
                    true => traffic.counts.copies += 1,
                    false => traffic.open.push(request),
                }
            }
        }
        traffic.exchanges.sort_by_key(|exchange| exchange.reply.number);
        traffic.open.sort_by_key(|request| request.number);
        traffic.orphans.sort_by_key(|reply| reply.number);
        traffic
    }
}
