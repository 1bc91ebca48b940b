//! The live set of 01, "What lives", followed through a capture by the second implementation, and what the
//! capture leaves open of it.

use std::collections::{BTreeMap, BTreeSet};

use second::live::LiveSet;
use second::request::Kind;
use second::session::{Key, Sessions};
use second::store::Entry;

use crate::exchange::{Doubt, Exchange, Reply, Request, Scope, Traffic};
use crate::repeats::Repeats;
use crate::words;

/// What lived when the capture began.
#[derive(Clone, Debug)]
pub enum Start {
    /// Nobody says. Sessions that no accepted request names are taken to have been there, as the table has them.
    Unknown,
    Empty,
    Table(Sessions, Option<[Vec<Entry>; 2]>),
}

/// What happens in the order of the capture.
#[derive(Clone, Copy)]
pub enum Step<'a> {
    Answered(&'a Exchange),
    Orphan(&'a Reply),
    /// A request without a reply in the capture, with one that would accept it.
    Assumed(&'a Request, &'a [u8]),
}

impl Step<'_> {
    pub fn position(&self) -> u64 {
        match self {
            Step::Answered(exchange) => exchange.reply.number,
            Step::Orphan(reply) => reply.number,
            Step::Assumed(request, _) => request.number,
        }
    }
}

/// What a capture was followed with.
pub struct Setting<'a> {
    pub start: &'a Start,
    /// What the live set is compared with.
    pub table: &'a Sessions,
    /// The unit keeps no store of repeats.
    pub no_repeats: bool,
}

/// What has come of it.
pub struct History {
    pub live: Sessions,
    /// Sessions that live, of which the capture does not show what they have.
    pub unknown: BTreeSet<Key>,
    /// From which packet on all is known of a session again: it was established, or has gone.
    pub known_since: BTreeMap<Key, u64>,
    pub doubts: Vec<Doubt>,
    pub accepted: usize,
    pub refused: usize,
    pub repeats: usize,
    /// Exchanges from before the start's table, by their numbers.
    pub before: usize,
}

/// The steps of a capture, with some requests assumed to have been accepted.
pub fn steps<'a>(traffic: &'a Traffic, assumed: &[(&'a Request, &'a [u8])]) -> Vec<Step<'a>> {
    let mut steps: Vec<Step> = traffic.exchanges.iter().map(Step::Answered).collect();
    steps.extend(traffic.orphans.iter().map(Step::Orphan));
    steps.extend(assumed.iter().map(|(request, reply)| Step::Assumed(request, reply)));
    steps.sort_by_key(Step::position);
    steps
}

/// How a request came by its reply.
#[derive(Clone, Copy, PartialEq, Eq)]
enum Reach {
    /// From the store.
    Stored,
    /// From the engine, in the order of the capture.
    InOrder,
    /// From the engine, but when is not known: what it says of a session may be older than what others say.
    OutOfOrder,
}

struct Follower<'a> {
    setting: &'a Setting<'a>,
    live: LiveSet,
    stores: [Repeats; 2],
    /// Whether a peer's store is still the start's.
    from_start: [bool; 2],
    history: History,
}

/// Follows the steps. After each that may have changed sessions, these are shown to the watcher.
pub fn follow(
    setting: &Setting,
    steps: &[Step],
    watch: &mut dyn FnMut(&Step, &[Key], &Sessions),
) -> History {
    let sessions = initial(setting, steps);
    let stores = match setting.start {
        Start::Table(_, stores) => stores.clone(),
        Start::Empty | Start::Unknown => None,
    };
    let from_start = [stores.is_some(); 2];
    let history = History {
        live: Sessions::new(),
        unknown: BTreeSet::new(),
        known_since: BTreeMap::new(),
        doubts: Vec::new(),
        accepted: 0,
        refused: 0,
        repeats: 0,
        before: 0,
    };
    let mut follower = Follower {
        setting,
        live: LiveSet { sessions },
        stores: stores
            .map_or_else(Default::default, |stores| stores.map(|one| Repeats::from(&one))),
        from_start,
        history,
    };
    for step in steps {
        let changed = follower.step(step);
        if !changed.is_empty() {
            watch(step, &changed, &follower.live.sessions);
        }
    }
    follower.history.live = follower.live.sessions;
    follower.history
}

/// What lives before the first step.
pub fn initial(setting: &Setting, steps: &[Step]) -> Sessions {
    match setting.start {
        Start::Empty => Sessions::new(),
        Start::Table(sessions, _) => sessions.clone(),
        Start::Unknown => unnamed(setting.table, steps),
    }
}

/// The sessions that no accepted request of the capture names.
fn unnamed(table: &Sessions, steps: &[Step]) -> Sessions {
    let named: BTreeSet<Key> = steps
        .iter()
        .filter_map(|step| match step {
            Step::Answered(exchange) if exchange.reply.is_accepted() => exchange.request.key(),
            Step::Orphan(reply) if reply.is_accepted() => {
                Some(Key { peer: reply.peer, seid: reply.seid })
            }
            _ => None,
        })
        .collect();
    let unnamed = table.iter().filter(|(key, _)| !named.contains(key));
    unnamed.map(|(key, session)| (*key, session.clone())).collect()
}

impl Follower<'_> {
    fn doubt(&mut self, packet: u64, scope: Scope, text: String) {
        self.history.doubts.push(Doubt { packet, scope, text });
    }

    /// Takes a step; gives the sessions that it may have changed.
    fn step(&mut self, step: &Step) -> Vec<Key> {
        let position = step.position();
        match step {
            Step::Answered(exchange) => {
                let Exchange { request, reply } = exchange;
                let reach = self.reach(request, reply);
                if reach == Reach::Stored {
                    return Vec::new();
                }
                match reply.is_accepted() {
                    true => {
                        self.history.accepted += 1;
                        self.accepted(request, &reply.octets, position, reach)
                    }
                    false => {
                        self.history.refused += 1;
                        self.refused(request, reply.cause, position);
                        Vec::new()
                    }
                }
            }
            Step::Orphan(reply) => {
                self.orphan(reply);
                Vec::new()
            }
            // The establishment of a session that lives is refused.
            Step::Assumed(request, _)
                if request.header.kind == Kind::Establishment
                    && request.key().is_none_or(|key| self.lives(key)) =>
            {
                Vec::new()
            }
            Step::Assumed(request, reply) => {
                self.accepted(request, reply, position, Reach::InOrder)
            }
        }
    }

    /// Whether a request got its reply from the engine or from the store, as 02 (xi) has it.
    fn reach(&mut self, request: &Request, reply: &Reply) -> Reach {
        let mut reach = Reach::InOrder;
        let place = usize::from(request.peer) - 1;
        let scope = request.key().map_or(Scope::Peer(request.peer), Scope::Session);
        if !self.setting.no_repeats {
            let store = &self.stores[place];
            match store.reply_to(&request.octets) {
                Some(stored) if stored == reply.octets => {
                    self.history.repeats += 1;
                    return Reach::Stored;
                }
                Some(_) => {
                    let text = format!(
                        "{}: a repeat that got another reply than before; a unit with --no-repeats gives such, and is checked with --no-repeats",
                        words::request(request)
                    );
                    self.doubt(reply.number, scope, text);
                }
                None if store.drops(request.header.sequence) => {
                    if self.from_start[place] {
                        self.history.before += 1;
                        return Reach::Stored;
                    }
                    let text = format!(
                        "{}: answered, although its number is not newer than that of the request before it: their order is not known, or the unit ran with --no-repeats, and is checked with it",
                        words::request(request)
                    );
                    self.doubt(reply.number, scope, text);
                    reach = Reach::OutOfOrder;
                }
                None => {}
            }
        }
        self.from_start[place] = false;
        self.stores[place].keep(&request.octets, &reply.octets);
        reach
    }

    fn is_unknown(&self) -> bool {
        matches!(self.setting.start, Start::Unknown)
    }

    fn lives(&self, key: Key) -> bool {
        self.live.sessions.contains_key(&key)
    }

    /// All is known of a session again, unless the request that says so may be older than others.
    fn is_known(&mut self, key: Key, position: u64, reach: Reach) {
        if reach == Reach::OutOfOrder {
            return;
        }
        self.history.unknown.remove(&key);
        self.history.known_since.insert(key, position);
    }

    fn accepted(
        &mut self,
        request: &Request,
        reply: &[u8],
        position: u64,
        reach: Reach,
    ) -> Vec<Key> {
        let Some(key) = request.key() else {
            return self.set_deleted(request, reply, position, reach);
        };
        let kind = request.header.kind;
        let late = kind != Kind::Establishment && self.is_unknown() && !self.lives(key);
        if late || self.history.unknown.contains(&key) && kind != Kind::Establishment {
            // It was established before the capture began.
            match kind {
                Kind::Deletion => self.is_known(key, position, reach),
                _ => {
                    self.history.unknown.insert(key);
                }
            }
            return Vec::new();
        }
        match self.live.follow(request.peer.into(), &request.octets, 0, reply) {
            Ok(()) => {
                if kind != Kind::Modification {
                    self.is_known(key, position, reach);
                }
                vec![key]
            }
            Err(fault) => {
                let text = format!("{}: it cannot be followed ({fault})", words::request(request));
                self.doubt(position, Scope::Session(key), text);
                Vec::new()
            }
        }
    }

    fn set_deleted(
        &mut self,
        request: &Request,
        reply: &[u8],
        position: u64,
        reach: Reach,
    ) -> Vec<Key> {
        let before: Vec<Key> = self.live.sessions.keys().copied().collect();
        match self.live.follow(request.peer.into(), &request.octets, 0, reply) {
            Ok(()) => {
                let gone: Vec<Key> = before.into_iter().filter(|key| !self.lives(*key)).collect();
                for key in &gone {
                    self.is_known(*key, position, reach);
                }
                gone
            }
            Err(fault) => {
                let text = format!("{}: it cannot be followed ({fault})", words::request(request));
                self.doubt(position, Scope::Peer(request.peer), text);
                Vec::new()
            }
        }
    }

    /// A refusal changes nothing. One that says another thing of a session's life than the wire is a sign that
    /// something is not in the capture, or that the unit has lost it.
    fn refused(&mut self, request: &Request, cause: Option<u8>, position: u64) {
        let Some(key) = request.key() else { return };
        let lives = self.lives(key) || self.history.unknown.contains(&key);
        match (request.header.kind, cause) {
            (Kind::Establishment, Some(64)) if !lives && self.is_unknown() => {
                self.history.unknown.insert(key);
            }
            (Kind::Establishment, Some(64)) if !lives => {
                let text = format!(
                    "{}: refused with cause 64, as if it lived, which it does not by the wire",
                    words::request(request)
                );
                self.doubt(position, Scope::Session(key), text);
            }
            (Kind::Modification | Kind::Deletion, Some(65)) if lives => {
                let text = format!(
                    "{}: refused with cause 65, as if it did not live, which it does by the wire",
                    words::request(request)
                );
                self.doubt(position, Scope::Session(key), text);
            }
            _ => {}
        }
    }

    fn orphan(&mut self, reply: &Reply) {
        if !reply.is_accepted() {
            return;
        }
        // A reply that the store gave before.
        let stored = &self.stores[usize::from(reply.peer) - 1];
        if !self.setting.no_repeats && stored.has_reply(&reply.octets) {
            return;
        }
        let scope = match reply.kind {
            Kind::SetDeletion => Scope::Peer(reply.peer),
            _ => Scope::Session(Key { peer: reply.peer, seid: reply.seid }),
        };
        let text = format!(
            "packet {}: the reply that accepts a {} of peer {} (sequence {}); the request is not in the capture",
            reply.number,
            words::kind(reply.kind),
            reply.peer,
            reply.sequence
        );
        self.doubt(reply.number, scope, text);
    }
}
