//! Sound tables drawn at random, as settings and sessions. They are built from the rules for records
//! alone, so they hold what no sequence of a few hundred calls is likely to bring about: numbers at
//! their edges, every kind of record in every place, tables that are full.

use std::collections::BTreeSet;
use std::net::Ipv4Addr;

use super::random::Random;
use super::{largest, peers};
use crate::element::fq_csid::{NodeId, LARGEST_COUNTRY_AND_NETWORK, LAST_NODE_TYPE};
use crate::session::{
    records_hold, Endpoint, Families, HeldCsid, Key, Local, Pdr, Session, Sessions, Tunnel,
    MOST_ENDPOINTS, MOST_PDRS,
};
use crate::settings::{Peer, Settings, LARGEST_POOL, MOST_ADDRESSES, PEERS};

/// How many sessions and records a table has.
#[derive(Clone, Copy, PartialEq, Eq, Debug)]
pub enum Filling {
    /// Any number of each.
    Some,
    /// As many of each as there is room for.
    Full,
}

/// Settings with room for everything: the pool has as many TEIDs as a table can hold, or more, and each
/// peer may have its half of them.
pub fn settings(random: &mut Random, ipv6: bool, session_limit: u16) -> Settings {
    let needed = largest::TEIDS * u32::from(session_limit);
    let size = random.pick(&[needed, needed + 1, LARGEST_POOL]);
    let first = random.pick(&[1, 4096, u32::MAX - (size - 1)]);
    let ipv4 = std::array::from_fn(|_| random.octet());
    let ipv6 = ipv6.then(|| std::array::from_fn(|_| random.octet()));
    let addresses = random.pick(&[1, 64, 65, MOST_ADDRESSES - 1, MOST_ADDRESSES]);
    let first_address = random.pick(&[0, 0x0A2D_0000, u32::MAX - (addresses - 1)]).into();
    let peers = dues(random, ipv4, size, session_limit);
    Settings { ipv4, ipv6, first, size, first_address, addresses, session_limit, peers }
}

/// Guarantees of up to half of the pool, and limits from what a peer's sessions can hold.
fn dues(random: &mut Random, ipv4: [u8; 4], size: u32, session_limit: u16) -> [Peer; 2] {
    let most = largest::TEIDS * u32::from(session_limit / 2);
    peers::addresses(random, ipv4).map(|address| {
        let guarantee = random.pick(&[0, 1, most, size / 2]);
        let limit = random.pick(&[most.max(guarantee), size]);
        Peer { address, guarantee, limit }
    })
}

/// What of the pools no session of the table holds yet.
struct Free {
    teids: Vec<u32>,
    addresses: Vec<Ipv4Addr>,
}

impl Free {
    fn all(random: &mut Random, settings: &Settings) -> Free {
        let mut teids: Vec<u32> = settings.pool().collect();
        random.shuffle(&mut teids);
        let mut addresses: Vec<Ipv4Addr> = settings.address_pool().collect();
        random.shuffle(&mut addresses);
        Free { teids, addresses }
    }

    /// A record's address: none, one of the pool that only this session holds, or one outside it.
    fn address(
        &mut self,
        random: &mut Random,
        settings: &Settings,
        session: &Session,
    ) -> Option<Ipv4Addr> {
        let own: Vec<Ipv4Addr> = session.pool_addresses(settings).into_iter().collect();
        match random.below(10) {
            0..=3 => None,
            4..=5 => self.addresses.pop(),
            6..=7 if !own.is_empty() => Some(random.pick(&own)),
            _ => {
                let first = u32::from(settings.first_address);
                let last = first + (settings.addresses - 1);
                let any = random.number() as u32;
                let edges = [first.wrapping_sub(1), last.wrapping_add(1), any, 0, u32::MAX];
                let address = Ipv4Addr::from(random.pick(&edges));
                settings.address_place(address).is_none().then_some(address)
            }
        }
    }
}

/// Sessions that a table with these settings can hold.
pub fn sessions(random: &mut Random, settings: &Settings, filling: Filling) -> Sessions {
    let mut free = Free::all(random, settings);
    let mut sessions = Sessions::new();
    for peer in PEERS {
        let before = sessions.len();
        let many = match filling {
            // Of both peers, or of one alone.
            Filling::Some => random.between(usize::from(before == 0 && peer == 2), settings.half()),
            Filling::Full => settings.half(),
        };
        while sessions.len() < before + many {
            let seid = any_of(random, u64::MAX).max(1);
            let session = session(random, settings, filling, &mut free);
            sessions.entry(Key { peer, seid }).or_insert(session);
        }
    }
    assert_eq!(records_hold(settings, &sessions), Ok(()));
    sessions
}

fn session(random: &mut Random, settings: &Settings, filling: Filling, free: &mut Free) -> Session {
    let mut session = Session::default();
    let node_types = usize::from(LAST_NODE_TYPE) + 1;
    let mut many = |most| match filling {
        Filling::Some => random.between(0, most),
        Filling::Full => most,
    };
    let (pdrs, endpoints, fq_csids) = (many(MOST_PDRS), many(MOST_ENDPOINTS), many(node_types));
    while session.endpoints.len() < endpoints {
        let id = random.octet();
        if !session.endpoints.contains_key(&id) {
            let tunnel = tunnel(random, settings, free);
            let address = free.address(random, settings, &session);
            session.endpoints.insert(id, Endpoint { tunnel, address });
        }
    }
    for id in ids(random, pdrs) {
        let mut pdr = pdr(random, settings, &session, free);
        pdr.address = free.address(random, settings, &session);
        session.pdrs.insert(id, pdr);
    }
    while session.fq_csids.len() < fq_csids {
        let csid = any_of(random, u64::from(u16::MAX)) as u16;
        let held = HeldCsid { node: node(random), csid };
        session.fq_csids.insert(random.below(node_types) as u8, held);
    }
    session
}

fn ids(random: &mut Random, many: usize) -> BTreeSet<u16> {
    let mut ids = BTreeSet::new();
    while ids.len() < many {
        ids.insert(any_of(random, u64::from(u16::MAX)) as u16);
    }
    ids
}

/// A tunnel with a TEID that nobody holds.
fn tunnel(random: &mut Random, settings: &Settings, free: &mut Free) -> Tunnel {
    let teid = free.teids.pop().expect("the pool has a TEID for each record");
    let (v4, v6) = match settings.ipv6 {
        Some(_) => random.pick(&[(true, false), (false, true), (true, true)]),
        None => (true, false),
    };
    Tunnel { teid, families: Families { v4, v6 } }
}

/// A PDR without an address.
fn pdr(random: &mut Random, settings: &Settings, session: &Session, free: &mut Free) -> Pdr {
    let precedence = any_of(random, u64::from(u32::MAX)) as u32;
    let far_id = random.percent(60).then(|| any_of(random, u64::from(u32::MAX)) as u32);
    let source_interface = random.below(16) as u8;
    let endpoints: Vec<u8> = session.endpoints.keys().copied().collect();
    let tunnels: Vec<Pdr> = session
        .pdrs
        .values()
        .filter(|pdr| matches!(pdr.local, Local::Tunnel(_)))
        .cloned()
        .collect();
    match random.below(10) {
        0..=1 => Pdr { precedence, far_id, source_interface, local: Local::Neither, address: None },
        2..=4 if !endpoints.is_empty() => {
            let local = Local::Endpoint(random.pick(&endpoints));
            Pdr { precedence, far_id, source_interface, local, address: None }
        }
        // PDRs of one session may share a TEID, with the same families and source interface.
        5..=6 if !tunnels.is_empty() => Pdr { precedence, far_id, ..random.pick(&tunnels) },
        _ => {
            let local = Local::Tunnel(tunnel(random, settings, free));
            Pdr { precedence, far_id, source_interface, local, address: None }
        }
    }
}

fn node(random: &mut Random) -> NodeId {
    match random.below(3) {
        0 => NodeId::Ipv4(std::array::from_fn(|_| random.octet())),
        1 => NodeId::Ipv6(std::array::from_fn(|_| {
            let octet = random.octet();
            random.pick(&[0, octet])
        })),
        _ => {
            let largest = u64::from(LARGEST_COUNTRY_AND_NETWORK);
            let country_and_network = any_of(random, largest) as u32;
            NodeId::Operator { country_and_network, number: any_of(random, 0xFFF) as u16 }
        }
    }
}

/// A number up to the largest: an edge, a small one or any.
fn any_of(random: &mut Random, largest: u64) -> u64 {
    match random.below(5) {
        0 => random.pick(&[0, 1, largest - 1, largest]),
        1 => random.below(10) as u64,
        2 => random.number() % (largest / 2 + 1),
        _ => match largest {
            u64::MAX => random.number(),
            _ => random.number() % (largest + 1),
        },
    }
}
