//! Damage to the octets of a table. Some of it leaves a sound table, which is meant.

use std::net::Ipv4Addr;

use second::element::fq_csid::{NodeId, LAST_NODE_TYPE};
use second::generate::random::Random;
use second::session::{
    holdings, Families, Key, Local, Session, Sessions, Tunnel, MOST_ENDPOINTS, MOST_PDRS,
};
use second::settings::{Settings, LARGEST_LIMIT, LARGEST_POOL};

use second::layout::*;

/// One piece of damage. The length may change; a table without a slot is left alone.
pub fn spoil(table: &mut Vec<u8>, random: &mut Random) {
    if table.len() < SLOTS + SLOT {
        return;
    }
    match random.below(20) {
        0 => change_limit(table, random),
        1..=7 => change_an_octet(table, random),
        8 => swap_records(table, random),
        9 => copy_a_record(table, random),
        _ => change_a_record(table, random),
    }
}

/// The limit's octets, the length, or both. Where both change by one slot the table may stay sound.
fn change_limit(table: &mut Vec<u8>, random: &mut Random) {
    let (limit, length) = (slots(table) as u16, table.len());
    let lengths = [0, 1, LIMIT, COUNT, SLOTS - 1, SLOTS, length - 1, length + 1];
    let limits = [0, 1, limit - 1, limit + 1, limit << 8, LARGEST_LIMIT, LARGEST_LIMIT + 1];
    match random.below(6) {
        0 => table.resize(random.pick(&lengths), 0),
        1 => table.resize(random.pick(&[length - SLOT, length + SLOT]), 0),
        2 => write_limit(table, random.pick(&limits)),
        3 => {
            table.resize(length - SLOT, 0);
            write_limit(table, limit - 1);
        }
        more => {
            table.resize(length + SLOT, 0);
            write_limit(table, limit + 1);
            // Also with an octet in the new slot.
            table[length + random.below(SLOT)] = u8::from(more == 4);
        }
    }
}

/// Writes a session limit into the settings.
pub fn write_limit(table: &mut [u8], limit: u16) {
    table[LIMIT..PEERS].copy_from_slice(&limit.to_be_bytes());
}

/// How many slots there are.
fn slots(table: &[u8]) -> usize {
    (table.len() - SLOTS) / SLOT
}

/// How many sessions it says there are, as far as there are slots.
fn count(table: &[u8]) -> usize {
    usize::from(u16::from_be_bytes([table[COUNT], table[COUNT + 1]])).min(slots(table))
}

fn change_an_octet(table: &mut [u8], random: &mut Random) {
    let at = an_offset(table, random);
    table[at] = match random.below(4) {
        0 => table[at] ^ 1 << random.below(8),
        1 => table[at].wrapping_add(1),
        2 => table[at].wrapping_sub(1),
        _ => random.octet(),
    };
}

/// A random offset, more often where records stand than in unused room.
pub fn an_offset(table: &[u8], random: &mut Random) -> usize {
    let count = count(table);
    match random.below(10) {
        0 => random.below(SLOTS),
        1 => random.below(table.len()),
        _ if count == 0 => random.below(SLOTS + SLOT),
        chance => {
            let slot = SLOTS + SLOT * random.below(count);
            let counts = &table[slot + COUNTS..slot + PDRS];
            let (pdrs, endpoints, fq_csids) = (counts[0], counts[1], counts[2]);
            slot + match chance {
                2 => random.below(PDRS),
                3..=5 => PDRS + PDR * some(pdrs, 15, random) + random.below(PDR),
                6 | 7 => ENDPOINTS + ENDPOINT * some(endpoints, 7, random) + random.below(ENDPOINT),
                8 => FQ_CSIDS + FQ_CSID * some(fq_csids, 5, random) + random.below(FQ_CSID),
                _ => random.below(SLOT),
            }
        }
    }
}

/// The index of a record in use, or of the one after the last.
fn some(count: u8, last: usize, random: &mut Random) -> usize {
    random.between(0, usize::from(count).min(last))
}

/// The offset, size and count of an area of records: the sessions, or one of a session's.
fn an_area(table: &[u8], random: &mut Random) -> (usize, usize, usize) {
    let count = count(table);
    let slot = SLOTS + SLOT * random.below(count.max(1));
    // Earlier damage may count more than there is room for.
    let said = |at: usize, most: usize| usize::from(table[slot + COUNTS + at]).min(most);
    match random.below(4) {
        0 => (SLOTS, SLOT, count),
        1 => (slot + PDRS, PDR, said(0, MOST_PDRS)),
        2 => (slot + ENDPOINTS, ENDPOINT, said(1, MOST_ENDPOINTS)),
        _ => (slot + FQ_CSIDS, FQ_CSID, said(2, usize::from(LAST_NODE_TYPE) + 1)),
    }
}

/// Two neighbours change places, so the order is lost.
fn swap_records(table: &mut [u8], random: &mut Random) {
    let (start, size, count) = an_area(table, random);
    if count >= 2 {
        let first = start + size * random.below(count - 1);
        table[first..first + 2 * size].rotate_left(size);
    }
}

/// A record stands twice.
fn copy_a_record(table: &mut [u8], random: &mut Random) {
    let (start, size, count) = an_area(table, random);
    if count >= 2 {
        let first = start + size * random.below(count - 1);
        table.copy_within(first..first + size, first + size);
    }
}

/// A record or a setting is changed and the table written anew, so that its octets are right and
/// only the rules for records can tell.
fn change_a_record(table: &mut Vec<u8>, random: &mut Random) {
    let Some((mut settings, mut sessions)) = decode(table) else { return };
    let teids: Vec<u32> = sessions.values().flat_map(|session| session.teids()).collect();
    let addresses: Vec<Ipv4Addr> = sessions.values().flat_map(|s| s.addresses()).collect();
    let keys: Vec<Key> = sessions.keys().copied().collect();
    if keys.is_empty() || random.percent(10) {
        change_settings(&mut settings, random);
    } else if random.percent(15) {
        change_dues(&mut settings, &sessions, random);
    } else {
        let key = random.pick(&keys);
        if random.percent(12) {
            let session = sessions.remove(&key).expect("a key of the table");
            sessions.insert(another_key(key, random), session);
        } else {
            let session = sessions.get_mut(&key).expect("a key of the table");
            match random.percent(25) {
                true => change_address(session, &settings, &addresses, random),
                false => change_session(session, &settings, &teids, random),
            }
        }
    }
    *table = encode(&settings, &sessions);
}

/// A session becomes the other peer's, no peer's, or one with SEID 0.
fn another_key(key: Key, random: &mut Random) -> Key {
    match random.below(4) {
        0 => Key { seid: 0, ..key },
        1 => Key { peer: random.pick(&[0, 3, 255]), ..key },
        _ => Key { peer: 3 - key.peer.clamp(1, 2), ..key },
    }
}

/// A peer's address, guarantee or limit becomes another: at the edges of what it holds, of the pool and
/// of what the other has.
fn change_dues(settings: &mut Settings, sessions: &Sessions, random: &mut Random) {
    let at = random.below(2);
    let held = holdings(sessions, at as u8 + 1) as u32;
    let by_other = holdings(sessions, 2 - at as u8) as u32;
    let (size, other) = (settings.size, settings.peers[1 - at]);
    let peer = &mut settings.peers[at];
    match random.below(6) {
        0 => peer.address = random.pick(&[other.address, [0; 4], settings.ipv4]),
        1 => {
            let edges = [0, peer.limit, peer.limit.wrapping_add(1), u32::MAX];
            peer.guarantee = random.pick(&edges);
        }
        2 => {
            let most = size.wrapping_sub(other.guarantee.max(by_other));
            peer.guarantee = random.pick(&[most, most.wrapping_add(1)]);
            peer.limit = peer.limit.max(peer.guarantee);
        }
        3 => {
            let most = size.wrapping_sub(other.guarantee);
            peer.guarantee = random.pick(&[most, most.wrapping_add(1)]);
            peer.limit = size;
        }
        4 => peer.limit = random.pick(&[peer.guarantee, size, size.wrapping_add(1), u32::MAX]),
        _ => {
            peer.limit = random.pick(&[held, held.wrapping_sub(1), peer.guarantee.wrapping_sub(1)]);
            peer.guarantee = peer.guarantee.min(peer.limit);
        }
    }
}

fn change_settings(settings: &mut Settings, random: &mut Random) {
    match random.below(9) {
        6 => settings.first_address = random.pick(&[0, 1, u32::MAX]).into(),
        7 => settings.addresses = random.pick(&[0, 1, 1024, 1025, u32::MAX]),
        8 => settings.addresses = settings.addresses.wrapping_sub(1),
        0 => settings.ipv6 = None,
        1 => settings.first = random.pick(&[0, 1, u32::MAX]),
        2 => settings.first = settings.first.wrapping_add(1),
        3 => settings.size = random.pick(&[0, 1, LARGEST_POOL, LARGEST_POOL + 1, u32::MAX]),
        4 => settings.size = settings.size.wrapping_sub(1),
        _ => settings.ipv4 = [0; 4],
    }
}

/// A record's address becomes none, another record's, or one at an edge of the pool.
fn change_address(
    session: &mut Session,
    settings: &Settings,
    addresses: &[Ipv4Addr],
    random: &mut Random,
) {
    let first = u32::from(settings.first_address);
    let edges = [first, first.wrapping_add(settings.addresses), first.wrapping_sub(1), 0];
    let edge = Ipv4Addr::from(random.pick(&edges));
    let address = match random.below(5) {
        0 => None,
        1 => Some(edge),
        _ if addresses.is_empty() => Some(edge),
        _ => Some(random.pick(addresses)),
    };
    let of_pdrs = session.pdrs.values_mut().map(|pdr| &mut pdr.address);
    let of_endpoints = session.endpoints.values_mut().map(|endpoint| &mut endpoint.address);
    let mut all: Vec<&mut Option<Ipv4Addr>> = of_pdrs.chain(of_endpoints).collect();
    if !all.is_empty() {
        let index = random.below(all.len());
        *all[index] = address;
    }
}

fn change_session(session: &mut Session, settings: &Settings, teids: &[u32], random: &mut Random) {
    let mut teid = || match random.below(6) {
        0 => settings.first.wrapping_sub(1),
        1 => settings.first.wrapping_add(settings.size),
        2 => settings.first,
        _ if teids.is_empty() => 0,
        _ => random.pick(teids),
    };
    let teid = teid();
    let families = Families { v4: random.percent(50), v6: random.percent(50) };
    let pdrs: Vec<u16> = session.pdrs.keys().copied().collect();
    let endpoints: Vec<u8> = session.endpoints.keys().copied().collect();
    let node_types: Vec<u8> = session.fq_csids.keys().copied().collect();
    match random.below(10) {
        0..=4 if !pdrs.is_empty() => {
            let pdr = session.pdrs.get_mut(&random.pick(&pdrs)).expect("an ID of the session");
            match (random.below(6), &mut pdr.local) {
                (0, _) => pdr.source_interface = random.pick(&[0, 1, 15, 16, 255]),
                (1, local) => *local = Local::Endpoint(random.octet() % 6),
                (2, Local::Tunnel(tunnel)) => tunnel.families = families,
                (_, Local::Tunnel(tunnel)) => tunnel.teid = teid,
                (_, local) => *local = Local::Tunnel(Tunnel { teid, families }),
            }
        }
        5..=7 if !endpoints.is_empty() => {
            let id = random.pick(&endpoints);
            let tunnel = &mut session.endpoints.get_mut(&id).expect("an ID of the session").tunnel;
            match random.below(4) {
                0 => tunnel.families = families,
                1 => drop(session.endpoints.remove(&id)),
                _ => tunnel.teid = teid,
            }
        }
        _ if !node_types.is_empty() => {
            let node_type = random.pick(&node_types);
            let mut held = session.fq_csids.remove(&node_type).expect("a key of the session");
            let country_and_network = random.pick(&[0, 999_999, 1_000_000, 0xF_FFFF]);
            match random.percent(50) {
                true => held.node = NodeId::Operator { country_and_network, number: 0xFFF },
                false => held.csid = 0,
            }
            let node_type = if random.percent(40) { random.pick(&[5, 6, 15]) } else { node_type };
            session.fq_csids.insert(node_type, held);
        }
        _ => {}
    }
}

/// The parts of `layout::sound`'s reasons by which a run of damage is counted.
pub const REASONS: [&str; 21] = [
    "a length under that of its settings",
    "a session limit that is not allowed",
    "another length than its session limit's",
    "more sessions than its session limit",
    "an octet without a meaning",
    "settings that are not allowed",
    "octets that its records do not encode to",
    "a peer that is neither 1 nor 2",
    "more sessions than its half",
    "more TEIDs than its limit",
    "holdings and guarantees that together pass the pool",
    "SEID 0",
    "an endpoint's F-TEID breaks a rule",
    "two endpoints share a TEID",
    "a source interface of more than four bits",
    "a PDR names an endpoint that does not exist",
    "a PDR's F-TEID breaks a rule",
    "PDRs share a TEID against the rule",
    "an FQ-CSID breaks its rules",
    "an endpoint and a PDR share TEID",
    "an address of the pool is another session's too",
];
