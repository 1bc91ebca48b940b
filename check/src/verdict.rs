//! The wire against the table: the same, different, or not to be known.

use std::collections::{BTreeMap, BTreeSet};

use second::element::f_teid::FTeid;
use second::element::ue_ip::UeIp;
use second::ie;
use second::repeats::is_newer;
use second::request::{self, Record as Asked};
use second::session::{Key, Local, Session, Sessions};
use second::store::Entry;

use crate::compare::{self, Item};
use crate::exchange::{cause_of, Doubt, Exchange, Request, Scope, Traffic};
use crate::history::{self, History, Setting, Start, Step};
use crate::repeats::{number_of, Repeats};
use crate::sha256;
use crate::stored::Owed;
use crate::words;

/// What the live set is compared with.
pub struct Compared {
    /// "table" or "list".
    pub what: &'static str,
    pub sessions: Sessions,
    /// What is wrong with it by itself.
    pub faults: Vec<String>,
    pub stores: Option<[Vec<Entry>; 2]>,
    /// The replies that are owed.
    pub owed: Vec<Owed>,
}

pub struct Difference {
    pub item: Item,
    /// The request after which it began, if it began in the capture.
    pub since: Option<String>,
    /// Whether something that the capture does not show may explain it.
    pub is_doubted: bool,
}

#[derive(Clone, Copy, PartialEq, Eq, Debug)]
pub enum Result {
    Same,
    Different,
    NotKnown,
}

pub struct Verdict {
    pub result: Result,
    pub history: History,
    pub differences: Vec<Difference>,
    pub faults: Vec<String>,
    /// What could not be known, in the order of the capture.
    pub not_known: Vec<String>,
    /// What is worth saying and decides nothing.
    pub notes: Vec<String>,
}

/// So many requests without replies are tried one by one; of more it is only said that they are there.
const MOST_TRIED: usize = 64;

pub fn judge(traffic: &Traffic, start: &Start, no_repeats: bool, compared: &Compared) -> Verdict {
    let setting = Setting { start, table: &compared.sessions, no_repeats };
    let history = history::follow(&setting, &history::steps(traffic, &[]), &mut |_, _, _| {});
    let of_stores = stores(traffic, start, compared);
    let mut open = Open::find(traffic, &setting, &history, compared);
    let items: Vec<Item> = compare::differing(&history.live, &compared.sessions)
        .into_iter()
        .filter(|item| !history.unknown.contains(&item.0))
        .collect();
    open.try_out(traffic, &setting, &items);

    let mut doubts = [traffic.doubts.clone(), history.doubts.clone(), of_stores.doubts].concat();
    doubts.extend(nothing_heard(traffic));
    let of_open = open.doubts(compared);
    let began = since(traffic, &setting, &items);
    let differences: Vec<Difference> = items
        .iter()
        .map(|item| {
            // A request without a reply explains just what it would have done.
            let explained = if open.left.contains(item) { &[][..] } else { &of_open };
            let all = doubts.iter().chain(explained);
            let is_doubted = all.into_iter().any(|doubt| doubt.covers(&history, item.0));
            Difference { item: *item, since: began.get(item).cloned(), is_doubted }
        })
        .collect();
    doubts.extend(of_open);
    doubts.retain(|doubt| doubt.stands(&history));
    doubts.sort_by_key(|doubt| doubt.packet);
    let mut not_known: Vec<String> = doubts.into_iter().map(|doubt| doubt.text).collect();
    not_known.extend(late(&history, &setting, compared));
    let notes = [of_stores.notes, open.notes, answered_old(traffic)].concat();
    let faults = compared.faults.clone();
    let result = result(&faults, &differences, &not_known);
    Verdict { result, history, differences, faults, not_known, notes }
}

fn result(faults: &[String], differences: &[Difference], not_known: &[String]) -> Result {
    match (faults, differences) {
        ([], []) if not_known.is_empty() => Result::Same,
        ([], _) if differences.iter().all(|difference| difference.is_doubted) => Result::NotKnown,
        _ => Result::Different,
    }
}

fn nothing_heard(traffic: &Traffic) -> Option<Doubt> {
    let text = "the capture has no session request with a reply, on this port (--port) of these addresses (--peer1, --peer2)";
    let doubt = || Doubt { packet: u64::MAX, scope: Scope::All, text: text.to_string() };
    traffic.exchanges.is_empty().then(doubt)
}

fn answered_old(traffic: &Traffic) -> Vec<String> {
    let text = "requests seem to be answered whose number is not newer: if the unit ran with --no-repeats, check with --no-repeats";
    (traffic.counts.old_answered > 0).then(|| text.to_string()).into_iter().collect()
}

impl Doubt {
    /// Whether it still stands for a session that it is about: nothing since has told all of it.
    fn covers(&self, history: &History, key: Key) -> bool {
        let known = history.known_since.get(&key);
        self.scope.covers(key) && known.is_none_or(|known| self.packet > *known)
    }

    /// Whether it still stands at all.
    fn stands(&self, history: &History) -> bool {
        match self.scope {
            Scope::Session(key) => self.covers(history, key),
            Scope::All | Scope::Peer(_) => true,
        }
    }
}

/// Sessions that are older than the capture, where nobody says what lived then.
fn late(history: &History, setting: &Setting, compared: &Compared) -> Vec<String> {
    let mut lines = Vec::new();
    let names = |keys: Vec<Key>| {
        let few: Vec<String> = keys.iter().take(8).map(|key| words::session(*key)).collect();
        let more = if keys.len() > few.len() { ", .." } else { "" };
        format!("{} ({}{more})", words::count(keys.len(), "session"), few.join(", "))
    };
    if !history.unknown.is_empty() {
        let keys = names(history.unknown.iter().copied().collect());
        lines.push(format!(
            "{keys} set up before the capture began and changed in it: what the wire says of them is not whole (--from TABLE0)"
        ));
    }
    if !matches!(setting.start, Start::Unknown) {
        return lines;
    }
    let unnamed = |key: &&Key| !history.known_since.contains_key(key);
    let live = compared.sessions.keys().filter(|key| history.live.contains_key(key));
    let old: Vec<Key> = live.filter(unnamed).copied().collect();
    if !old.is_empty() {
        lines.push(format!(
            "{} of the {} that no request of the capture names: set up before it began, or never (--from TABLE0, or --empty)",
            names(old),
            compared.what
        ));
    }
    lines
}

/// For each item the request after which it differs: the one that parted wire and table, or else the last one
/// that changed it on the wire.
fn since(traffic: &Traffic, setting: &Setting, items: &[Item]) -> BTreeMap<Item, String> {
    struct Track {
        value: Option<String>,
        parted: Option<String>,
        changed: Option<String>,
    }
    let steps = history::steps(traffic, &[]);
    let start = history::initial(setting, &steps);
    let mut tracks: BTreeMap<Item, Track> = items
        .iter()
        .map(|item| {
            (*item, Track { value: compare::value(&start, *item), parted: None, changed: None })
        })
        .collect();
    history::follow(setting, &steps, &mut |step, keys, live| {
        let Step::Answered(exchange) = step else { return };
        for key in keys {
            for (item, track) in
                tracks.range_mut((*key, None)..).take_while(|(item, _)| item.0 == *key)
            {
                let (now, wanted) =
                    (compare::value(live, *item), compare::value(setting.table, *item));
                if now == track.value {
                    continue;
                }
                let request = words::request(&exchange.request);
                if now == wanted {
                    track.parted = None;
                } else if track.value == wanted {
                    track.parted = Some(request.clone());
                }
                track.changed = Some(request);
                track.value = now;
            }
        }
    });
    tracks
        .into_iter()
        .filter_map(|(item, track)| Some((item, track.parted.or(track.changed)?)))
        .collect()
}

/// What the table's own stores of repeats say of the capture.
#[derive(Default)]
struct OfStores {
    doubts: Vec<Doubt>,
    notes: Vec<String>,
}

fn stores(traffic: &Traffic, start: &Start, compared: &Compared) -> OfStores {
    let mut said = OfStores::default();
    let Some(stores) = &compared.stores else { return said };
    for (peer, entries) in (1_u8..).zip(stores) {
        let own: Vec<&Exchange> =
            traffic.exchanges.iter().filter(|exchange| exchange.request.peer == peer).collect();
        let before = Before::of(start, peer, &own);
        for entry in entries {
            let is_open = |one: &Request| one.peer == peer && one.octets == entry.message;
            if before.has(entry) || traffic.open.iter().any(is_open) {
                continue;
            }
            let scope = key_of(peer, &entry.message).map_or(Scope::Peer(peer), Scope::Session);
            said.doubts.extend(missing(peer, entry, &own).map(|text| Doubt {
                packet: u64::MAX,
                scope,
                text,
            }));
        }
    }
    said.notes.extend(age(traffic, stores));
    said
}

/// Which numbers of a peer are from before the capture: those that are not newer than this one. Nothing: all of
/// them, or none.
struct Before {
    number: Option<u32>,
    otherwise: bool,
}

impl Before {
    fn of(start: &Start, peer: u8, own: &[&Exchange]) -> Before {
        let number = match start {
            Start::Table(_, Some(stores)) => {
                stores[usize::from(peer) - 1].last().map(|entry| number_of(&entry.message))
            }
            Start::Empty => None,
            _ => own.first().map(|exchange| exchange.request.header.sequence),
        };
        Before { number, otherwise: matches!(start, Start::Unknown | Start::Table(_, None)) }
    }

    fn has(&self, entry: &Entry) -> bool {
        let number = number_of(&entry.message);
        self.number.map_or(self.otherwise, |first| !is_newer(number, first))
    }
}

/// What an entry of a store tells of that the capture does not have so.
fn missing(peer: u8, entry: &Entry, own: &[&Exchange]) -> Option<String> {
    let mut same = own.iter().filter(|exchange| exchange.request.octets == entry.message);
    let described = described(peer, entry);
    if same.clone().any(|exchange| exchange.reply.octets == entry.reply) {
        return None;
    }
    if same.next().is_some() {
        return Some(format!(
            "the store of repeats has another reply to {described} than the capture"
        ));
    }
    (cause_of(&entry.reply) == Some(1)).then(|| {
        format!(
            "the store of repeats has {described}, which is not in the capture: it ends before the table, or lacks packets"
        )
    })
}

/// Where the table is older than the end of the capture: it is of one moment, after the last request that one of its
/// stores has.
fn age(traffic: &Traffic, stores: &[Vec<Entry>; 2]) -> Option<String> {
    let store = |exchange: &Exchange| &stores[usize::from(exchange.request.peer) - 1];
    let is = |entry: &Entry, exchange: &Exchange| entry.message == exchange.request.octets;
    // Later ones are repeats of it.
    let first = |entries: &Vec<Entry>| {
        let last = entries.last()?;
        let is_last = |exchange: &&Exchange| {
            std::ptr::eq(store(exchange), entries)
                && is(last, exchange)
                && last.reply == exchange.reply.octets
        };
        Some(traffic.exchanges.iter().find(is_last)?.reply.number)
    };
    let packet = stores.iter().filter_map(first).max()?;
    let is_new = |exchange: &&Exchange| {
        exchange.reply.number > packet && !store(exchange).iter().any(|entry| is(entry, exchange))
    };
    let later = traffic.exchanges.iter().filter(is_new).count();
    (later > 0).then(|| {
        format!(
            "the table is as old as packet {packet}: its stores of repeats do not have the {} after it. If it was copied then, compare with --until {packet}",
            words::count(later, "answered request")
        )
    })
}

fn described(peer: u8, entry: &Entry) -> String {
    let Ok(header) = request::header::test(&entry.message) else {
        return format!("a message of peer {peer}");
    };
    let seid =
        key_of(peer, &entry.message).map_or(String::new(), |key| format!(", SEID {}", key.seid));
    format!("a {} of peer {peer}{seid}, sequence {}", words::kind(header.kind), header.sequence)
}

fn key_of(peer: u8, message: &[u8]) -> Option<Key> {
    let header = request::header::test(message).ok()?;
    Request { number: 0, time: None, peer, header, octets: message.to_vec() }.key()
}

/// The requests without a reply that would change the end if they had been accepted.
struct Open<'a> {
    /// Each with a reply that accepts it.
    requests: Vec<(&'a Request, Vec<u8>)>,
    /// The places of those that the table seems to have accepted.
    assumed: Vec<usize>,
    /// What differs even so.
    left: BTreeSet<Item>,
    notes: Vec<String>,
}

impl<'a> Open<'a> {
    fn find(
        traffic: &'a Traffic,
        setting: &Setting,
        history: &History,
        compared: &Compared,
    ) -> Open<'a> {
        let old = if setting.no_repeats { BTreeSet::new() } else { old(traffic, setting.start) };
        let newer = traffic.open.iter().filter(|request| !old.contains(&request.number));
        let mut requests: Vec<(&Request, Vec<u8>)> = newer
            .filter_map(|request| Some((request, assumed_reply(request, compared)?)))
            .collect();
        if requests.len() <= MOST_TRIED {
            requests.retain(|(request, reply)| {
                let steps = history::steps(traffic, &[(request, reply)]);
                let with = history::follow(setting, &steps, &mut |_, _, _| {});
                with.live != history.live || with.unknown != history.unknown
            });
        }
        let harmless = traffic.open.len() - old.len() - requests.len();
        let mut notes = Vec::new();
        for (number, why) in [
            (old.len(), "not newer by number, so dropped by the unit"),
            (harmless, "accepted or not, the same would live now"),
        ] {
            if number > 0 {
                notes.push(format!("{} without a reply: {why}", words::count(number, "request")));
            }
        }
        Open { requests, assumed: Vec::new(), left: BTreeSet::new(), notes }
    }

    /// Finds out which of them the table seems to have accepted: one after the other, as long as less differs with it.
    fn try_out(&mut self, traffic: &Traffic, setting: &Setting, items: &[Item]) {
        if self.requests.len() > MOST_TRIED {
            return;
        }
        self.left = items.iter().copied().collect();
        let mut least = weight(&self.left, setting);
        for place in 0..self.requests.len() {
            let tried: Vec<usize> = self.assumed.iter().copied().chain([place]).collect();
            let left = self.left_with(traffic, setting, &tried);
            let weight = weight(&left, setting);
            if weight < least {
                (self.assumed, self.left, least) = (tried, left, weight);
            }
        }
    }

    /// What differs with some of them accepted.
    fn left_with(&self, traffic: &Traffic, setting: &Setting, tried: &[usize]) -> BTreeSet<Item> {
        let requests = tried.iter().map(|place| &self.requests[*place]);
        let assumed: Vec<(&Request, &[u8])> =
            requests.map(|(request, reply)| (*request, &reply[..])).collect();
        let steps = history::steps(traffic, &assumed);
        let with = history::follow(setting, &steps, &mut |_, _, _| {});
        let differing = compare::differing(&with.live, setting.table).into_iter();
        differing.filter(|item| !with.unknown.contains(&item.0)).collect()
    }

    fn doubts(&self, compared: &Compared) -> Vec<Doubt> {
        let doubt = |(place, (request, _)): (usize, &(&Request, Vec<u8>))| {
            let scope = request.key().map_or(Scope::Peer(request.peer), Scope::Session);
            let text = unanswered(request, self.assumed.contains(&place), compared);
            Doubt { packet: request.number, scope, text }
        };
        self.requests.iter().enumerate().map(doubt).collect()
    }
}

/// What is said of a request without a reply.
fn unanswered(request: &Request, is_assumed: bool, compared: &Compared) -> String {
    let stored = compared.stores.as_ref().and_then(|stores| {
        let store = &stores[usize::from(request.peer) - 1];
        store.iter().find(|entry| entry.message == request.octets)
    });
    let stored = stored.map(|entry| ("its store of repeats has the reply", &entry.reply));
    let stored = stored.or_else(|| {
        let digest = sha256::digest(&request.octets);
        let is_own = |owed: &&Owed| owed.peer == request.peer && owed.request == digest;
        Some(("the reply is owed in its file", &compared.owed.iter().find(is_own)?.reply))
    });
    let stored = stored.and_then(|(has, reply)| Some((has, cause_of(reply)?)));
    let stored = stored.map_or(String::new(), |(has, cause)| format!(" and {has}, cause {cause}"));
    let has = if is_assumed { "had" } else { "had not" };
    format!(
        "{}: no reply in the capture, so from there on the wire may be otherwise; the {} is as if it {has} been accepted{stored}",
        words::request(request),
        compared.what
    )
}

/// How much differs: records, and those of sessions that only the table has.
fn weight(items: &BTreeSet<Item>, setting: &Setting) -> usize {
    let records = |item: &Item| match item.1 {
        Some(_) => 0,
        None => setting.table.get(&item.0).map_or(0, |one| compare::records(one).count()),
    };
    items.iter().map(|item| 1 + records(item)).sum()
}

/// The packets of the requests without a reply that a unit with a store drops: their number is not newer than that
/// of the last one answered before them (outcome 6).
fn old(traffic: &Traffic, start: &Start) -> BTreeSet<u64> {
    let mut stores = match start {
        Start::Table(_, Some(stores)) => [Repeats::from(&stores[0]), Repeats::from(&stores[1])],
        _ => Default::default(),
    };
    let mut answered = traffic.exchanges.iter().peekable();
    let mut old = BTreeSet::new();
    for request in &traffic.open {
        while let Some(exchange) =
            answered.next_if(|exchange| exchange.reply.number < request.number)
        {
            let store = &mut stores[usize::from(exchange.request.peer) - 1];
            if store.reply_to(&exchange.request.octets) != Some(&exchange.reply.octets) {
                store.keep(&exchange.request.octets, &exchange.reply.octets);
            }
        }
        if stores[usize::from(request.peer) - 1].drops(request.header.sequence) {
            old.insert(request.number);
        }
    }
    old
}

/// A reply that accepts a request, with what the table has in the places of what it chooses; nothing where the
/// rules refuse it whatever lives.
fn assumed_reply(request: &Request, compared: &Compared) -> Option<Vec<u8>> {
    let read = request::read(&request.header, &request.octets).ok()?;
    let none = Session::default();
    let session = request.key().and_then(|key| compared.sessions.get(&key)).unwrap_or(&none);
    let element = |ie_type: u16, value: &[u8]| {
        let mut octets = ie_type.to_be_bytes().to_vec();
        octets.extend((value.len() as u16).to_be_bytes());
        octets.extend(value);
        octets
    };
    let f_teid = |teid: u32| {
        let mut value = vec![1];
        value.extend(teid.to_be_bytes());
        value.extend([0; 4]);
        element(ie::F_TEID, &value)
    };
    let ue_ip = |address: Option<std::net::Ipv4Addr>| {
        let mut value = vec![2];
        value.extend(address.map_or([0; 4], |address| address.octets()));
        element(ie::UE_IP_ADDRESS, &value)
    };
    let mut body = element(ie::CAUSE, &[1]);
    for record in &read.records {
        match record {
            Asked::CreatePdr { id, pdi, .. } => {
                let has = session.pdrs.get(id);
                let mut group = element(ie::PDR_ID, &id.to_be_bytes());
                if let Some(FTeid::Choose { .. }) = pdi.f_teid {
                    let teid = match has.map(|pdr| pdr.local) {
                        Some(Local::Tunnel(tunnel)) => tunnel.teid,
                        _ => 0,
                    };
                    group.extend(f_teid(teid));
                }
                if let Some(UeIp::Choose) = pdi.ue_ip {
                    group.extend(ue_ip(has.and_then(|pdr| pdr.address)));
                }
                body.extend(element(ie::CREATED_PDR, &group));
            }
            Asked::CreateEndpoint { id, f_teid: asked, ue_ip: address } => {
                let has = session.endpoints.get(id);
                let mut group = element(ie::ENDPOINT_ID, &[*id]);
                if let FTeid::Choose { .. } = asked {
                    group.extend(f_teid(has.map_or(0, |endpoint| endpoint.tunnel.teid)));
                }
                if let Some(UeIp::Choose) = address {
                    group.extend(ue_ip(has.and_then(|endpoint| endpoint.address)));
                }
                body.extend(element(ie::CREATED_ENDPOINT, &group));
            }
            _ => {}
        }
    }
    let mut reply = vec![0x21, request.header.kind.reply_type()];
    reply.extend(((body.len() + 12) as u16).to_be_bytes());
    reply.extend([0; 12]);
    reply.extend(body);
    Some(reply)
}
