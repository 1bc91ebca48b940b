//! The calls: stages 1 and 4 to 6, grants and the change to the table.

use crate::check::{check, Checked, Settings, Taken};
use crate::layout::*;
use crate::reply;
use crate::request::{self, Address, FqCsidChange, Header, Kind, Refusal, Request, Teid, Tunnel};
use crate::store;

pub const LEAST_REPLY_SPACE: usize = 1280;

/// Makes an empty table; whether it was made. A refusal writes nothing.
pub fn make_table(table: &mut [u8], settings: &Settings) -> bool {
    if !settings.are_allowed() || Some(table.len()) != table_length(settings.limit) {
        return false;
    }
    table.fill(0);
    put(table, 0, &settings.ipv4);
    if let Some(ipv6) = &settings.ipv6 {
        table[4] = 1;
        put(table, 5, ipv6);
    }
    put(table, 21, &settings.first.to_be_bytes());
    put(table, 25, &settings.size.to_be_bytes());
    put(table, 29, &settings.first_address.to_be_bytes());
    put(table, 33, &settings.addresses.to_be_bytes());
    put(table, LIMIT, &(settings.limit as u16).to_be_bytes());
    for (index, peer) in settings.peers.iter().enumerate() {
        let at = PEERS + PEER * index;
        put(table, at, &peer.address);
        put(table, at + 4, &peer.guarantee.to_be_bytes());
        put(table, at + 8, &peer.limit.to_be_bytes());
    }
    true
}

/// A peer, or the host outcome for any other number.
fn named(peer: u32) -> Result<u8, u32> {
    match peer {
        1 | 2 => Ok(peer as u8),
        _ => Err(7),
    }
}

/// The number of free TEIDs, or nothing for a broken table.
pub fn free_count(table: &[u8]) -> Option<u32> {
    let mut taken = Taken::nothing();
    let checked = check(table, &mut taken)?;
    Some(checked.settings.size - checked.shares.iter().map(|share| share.teids).sum::<u32>())
}

/// The number of free addresses, or nothing for a broken table.
pub fn free_addresses(table: &[u8]) -> Option<u32> {
    let mut taken = Taken::nothing();
    let checked = check(table, &mut taken)?;
    Some(checked.settings.addresses - checked.taken.addresses.count())
}

/// One request of a peer: the length of the reply and the place of a fault of stages 2 and 3 (0 without
/// one), or the host outcome 1 to 5 or 7.
pub fn handle(
    table: &mut [u8],
    peer: u32,
    message: &[u8],
    space: &mut [u8],
) -> Result<(usize, usize), u32> {
    let peer = named(peer)?;
    let mut taken = Taken::nothing();
    let checked = check(table, &mut taken).ok_or(1_u32)?;
    if space.len() < LEAST_REPLY_SPACE {
        return Err(2);
    }
    let (header, body) = request::header(message)?;
    Ok(answer(table, &checked, peer, (&header, body), space))
}

/// One request of a peer with its store: a repeat gets the stored reply, and an older number is host
/// outcome 6.
pub fn handle_once(
    table: &mut [u8],
    peer: u32,
    store: &mut [u8],
    message: &[u8],
    space: &mut [u8],
) -> Result<(usize, usize), u32> {
    let peer = named(peer)?;
    let mut taken = Taken::nothing();
    let checked = check(table, &mut taken).ok_or(1_u32)?;
    let entries = store::check(store).ok_or(1_u32)?;
    if space.len() < LEAST_REPLY_SPACE {
        return Err(2);
    }
    let (header, body) = request::header(message)?;
    if let Some(reply) = entries.reply_to(store, message) {
        put(space, 0, reply);
        return Ok((reply.len(), 0));
    }
    if !entries.take(header.sequence) {
        return Err(6);
    }
    let (used, place) = answer(table, &checked, peer, (&header, body), space);
    entries.keep(store, message, &space[..used]);
    Ok((used, place))
}

/// What a peer's request with this header and body does, on a table that was checked: the length of the
/// reply and the place of a fault.
fn answer(
    table: &mut [u8],
    checked: &Checked,
    peer: u8,
    (header, body): (&Header, &[u8]),
    space: &mut [u8],
) -> (usize, usize) {
    let mut request = Request::new(peer, header.seid);
    match decide(table, checked, header, body, &mut request) {
        Ok((at, got)) => {
            match header.kind {
                Kind::SetDeletion => remove_listed(table, checked.sessions, &request),
                _ => change(table, checked.sessions, header, &request, at, &got),
            }
            (reply::accepted(space, &checked.settings, header, &request, &got), 0)
        }
        Err(refusal) => {
            let home = &checked.settings.peer(peer).address;
            let used = reply::refused(space, home, header, &refusal);
            (used, refusal.place.unwrap_or(0))
        }
    }
}

fn cause(cause: u8) -> Refusal {
    Refusal { cause, offending: None, place: None }
}

/// The TEIDs of the created records in request order, and the address that is chosen for them.
pub struct Got {
    pub pdrs: [u32; MOST_PDRS],
    pub endpoints: [u32; MOST_ENDPOINTS],
    pub address: u32,
}

impl Got {
    /// The address of a record that asks for this.
    fn address_of(&self, asked: Option<Address>) -> Option<u32> {
        match asked? {
            Address::Given(address) => Some(address),
            Address::Choose => Some(self.address),
            Address::NotServed => None,
        }
    }
}

/// All stages; reads the body into the request. An accepted one gives its session's index in the
/// table (where it stands or is to stand) and what its new records get.
fn decide<'a>(
    table: &[u8],
    checked: &Checked,
    header: &Header,
    body: &'a [u8],
    request: &mut Request<'a>,
) -> Result<(usize, Got), Refusal> {
    let used = &slots(table)[..checked.sessions];
    let establishment = header.kind == Kind::Establishment;
    let names_session = matches!(header.kind, Kind::Modification | Kind::Deletion);
    let peer = request.peer;
    let mut found = used.binary_search_by_key(&(peer, header.seid), key);
    if names_session && found.is_err() {
        return Err(cause(65));
    }
    request::frame(header.kind, 0, header.octets, body)?;
    request::read(header, body, request)?;
    let request = &*request;
    if establishment {
        found = used.binary_search_by_key(&(peer, request.seid), key);
        if found.is_ok() {
            return Err(cause(64));
        }
    }
    let tunnels = || {
        let of_pdrs = request.new_pdrs.iter().filter_map(|pdr| pdr.tunnel.as_ref());
        of_pdrs.chain(request.new_endpoints.iter().map(|endpoint| &endpoint.tunnel))
    };
    if tunnels().any(|tunnel| matches!(tunnel.teid, Teid::Given(_)) != request.restoration) {
        return Err(cause(71));
    }
    if request.unsupported || request.addresses().any(|a| a == Address::NotServed) {
        return Err(cause(76));
    }
    let (own, at) = match found {
        Ok(at) => (records(&used[at]), at),
        Err(at) => (Records { pdrs: &[], endpoints: &[], fq_csids: &[] }, at),
    };
    if verbs_conflict(&own, request)
        || names_conflict(&own, request)
        || tunnels().any(|tunnel| !checked.settings.has(tunnel.families))
        || sharing_conflicts(request)
        || (request.restoration && tunnels().any(|tunnel| !may_be_restored(checked, tunnel)))
        || !request.addresses().all(|address| may_be_asked(checked, request.restoration, address))
    {
        return Err(cause(73));
    }
    // Removed IDs are live and different by now; a PDR that is named and goes along counts once.
    let pdrs = own.pdrs.iter().filter(|pdr| !goes(request, pdr)).count() + request.new_pdrs.len();
    let endpoints =
        own.endpoints.len() - request.removed_endpoints.len() + request.new_endpoints.len();
    if (establishment && checked.share(peer).sessions == checked.settings.half())
        || pdrs > MOST_PDRS
        || endpoints > MOST_ENDPOINTS
        || needed(request) > checked.room(peer)
    {
        return Err(cause(75));
    }
    let mut got = allot(checked, request).ok_or(cause(75))?;
    if request.addresses().any(|address| address == Address::Choose) {
        got.address = lowest_address(checked).ok_or(cause(79))?;
    }
    Ok((at, got))
}

/// An address as a request may ask for it: outside the pool, or restored and free, or to be chosen.
fn may_be_asked(checked: &Checked, restoration: bool, address: Address) -> bool {
    match address {
        Address::Given(address) => match checked.settings.address_place(address) {
            Some(place) => restoration && !checked.taken.addresses.is_taken(place),
            None => true,
        },
        Address::Choose => !restoration,
        Address::NotServed => true,
    }
}

fn lowest_address(checked: &Checked) -> Option<u32> {
    let place = checked.taken.addresses.free_places().next()? as u32;
    (place < checked.settings.addresses).then(|| checked.settings.first_address + place)
}

fn has_repeat<T: PartialEq>(ids: impl Iterator<Item = T> + Clone) -> bool {
    let mut rest = ids;
    while let Some(id) = rest.next() {
        if rest.clone().any(|other| other == id) {
            return true;
        }
    }
    false
}

/// Whether a PDR goes: named by Remove PDR, or with its endpoint.
fn goes(request: &Request, pdr: &PdrSlot) -> bool {
    request.removed_pdrs.contains(&pdr_id(pdr))
        || (pdr[12] == ENDPOINT && request.removed_endpoints.contains(&pdr[18]))
}

/// What is removed, created and updated, against what is live at entry.
fn verbs_conflict(own: &Records, request: &Request) -> bool {
    let new_pdrs = request.new_pdrs.iter().map(|pdr| pdr_id(&pdr.slot));
    let new_endpoints = request.new_endpoints.iter().map(|endpoint| endpoint.slot[0]);
    let updated = request.updates.iter().map(|update| update.id);
    let pdr_lives = |id: u16| own.pdrs.binary_search_by_key(&id, pdr_id).is_ok();
    let pdr_stays = |id: u16| match own.pdrs.binary_search_by_key(&id, pdr_id) {
        Ok(at) => !goes(request, &own.pdrs[at]),
        Err(_) => false,
    };
    let endpoint_lives = |id: u8| own.endpoints.iter().any(|endpoint| endpoint[0] == id);
    new_pdrs.clone().any(pdr_lives)
        || new_endpoints.clone().any(endpoint_lives)
        || !request.removed_pdrs.iter().all(|id| pdr_lives(*id))
        || !request.removed_endpoints.iter().all(|id| endpoint_lives(*id))
        || !updated.clone().all(pdr_stays)
        || has_repeat(new_pdrs)
        || has_repeat(new_endpoints)
        || has_repeat(updated)
        || has_repeat(request.removed_pdrs.iter())
        || has_repeat(request.removed_endpoints.iter())
}

/// The endpoints that created PDRs name.
fn names_conflict(own: &Records, request: &Request) -> bool {
    let removed = |id: u8| request.removed_endpoints.contains(&id);
    let there = |id: u8| {
        request.new_endpoints.iter().any(|endpoint| endpoint.slot[0] == id)
            || (own.endpoints.iter().any(|endpoint| endpoint[0] == id) && !removed(id))
    };
    request.new_pdrs.iter().any(|pdr| match pdr.endpoint {
        Some(id) => pdr.tunnel.is_some() || !there(id),
        None => false,
    })
}

/// TEIDs and CHOOSE IDs that created records share against the rules.
fn sharing_conflicts(request: &Request) -> bool {
    let pdrs = &request.new_pdrs;
    let of_pdrs = pdrs.iter().enumerate().any(|(index, pdr)| {
        let Some(tunnel) = &pdr.tunnel else { return false };
        tunnel.teid != Teid::Choose
            && pdrs[..index].iter().any(|other| {
                other.tunnel.as_ref().is_some_and(|shared| shared.teid == tunnel.teid)
                    && (other.slot[11], other.slot[17]) != (pdr.slot[11], pdr.slot[17])
            })
    });
    let given = |tunnel: &Tunnel| match tunnel.teid {
        Teid::Given(teid) => Some(teid),
        _ => None,
    };
    let of_endpoints = request.new_endpoints.iter().filter_map(|e| given(&e.tunnel));
    let by_both = |teid| pdrs.iter().any(|p| p.tunnel.as_ref().and_then(given) == Some(teid));
    of_pdrs || has_repeat(of_endpoints.clone()) || of_endpoints.clone().any(by_both)
}

/// A given F-TEID: in the pool, held by no session, with the unit's addresses.
fn may_be_restored(checked: &Checked, tunnel: &Tunnel) -> bool {
    let Teid::Given(teid) = tunnel.teid else { return false };
    let Some(place) = checked.settings.place(teid) else { return false };
    let (ipv4, ipv6) = tunnel.addresses.split_at(if tunnel.families & V4 != 0 { 4 } else { 0 });
    !checked.taken.teids.is_taken(place)
        && (ipv4.is_empty() || ipv4 == checked.settings.ipv4)
        && (ipv6.is_empty() || checked.settings.ipv6.is_some_and(|own| ipv6 == own))
}

/// How many different TEIDs a request takes, by CHOOSE or restored. By now what is shared is shared by
/// PDRs alone.
fn needed(request: &Request) -> u32 {
    let of_pdrs = request.new_pdrs.iter().enumerate().filter(|(index, pdr)| {
        let same = |other: &request::NewPdr, teid| {
            other.tunnel.as_ref().is_some_and(|shared| shared.teid == teid)
        };
        pdr.tunnel.as_ref().is_some_and(|tunnel| {
            tunnel.teid == Teid::Choose
                || !request.new_pdrs[..*index].iter().any(|other| same(other, tunnel.teid))
        })
    });
    (request.new_endpoints.len() + of_pdrs.count()) as u32
}

/// TEIDs for what is created, the lowest free ones for CHOOSE: to endpoints first, then to PDRs at
/// the first use of a CHOOSE ID. Nothing if there are too few.
fn allot(checked: &Checked, request: &Request) -> Option<Got> {
    let settings = &checked.settings;
    let mut free = checked.taken.teids.free_places();
    let mut next = || {
        let place = free.next()?;
        (place < settings.size as usize).then(|| settings.first + place as u32)
    };
    let mut teids = Got { pdrs: [0; MOST_PDRS], endpoints: [0; MOST_ENDPOINTS], address: 0 };
    for (index, endpoint) in request.new_endpoints.iter().enumerate() {
        teids.endpoints[index] = match endpoint.tunnel.teid {
            Teid::Given(teid) => teid,
            _ => next()?,
        };
    }
    for (index, pdr) in request.new_pdrs.iter().enumerate() {
        let Some(tunnel) = &pdr.tunnel else { continue };
        let same = |other: &request::NewPdr| {
            other.tunnel.as_ref().is_some_and(|shared| shared.teid == tunnel.teid)
        };
        teids.pdrs[index] = match tunnel.teid {
            Teid::Given(teid) => teid,
            Teid::Choose => next()?,
            Teid::ChooseShared(_) => match request.new_pdrs[..index].iter().position(same) {
                Some(first) => teids.pdrs[first],
                None => next()?,
            },
        };
    }
    Some(teids)
}

/// Makes the change of an accepted request.
fn change(
    table: &mut [u8],
    sessions: usize,
    header: &Header,
    request: &Request,
    at: usize,
    got: &Got,
) {
    let slots = slots_mut(table);
    match header.kind {
        Kind::Establishment => {
            slots.copy_within(at..sessions, at + 1);
            slots[at].fill(0);
            slots[at][0] = request.peer;
            put(&mut slots[at], SEID, &request.seid.to_be_bytes());
            change_session(&mut slots[at], request, got);
            put(table, COUNT, &(sessions as u16 + 1).to_be_bytes());
        }
        Kind::Modification => change_session(&mut slots[at], request, got),
        _ => {
            slots.copy_within(at + 1..sessions, at);
            slots[sessions - 1].fill(0);
            put(table, COUNT, &(sessions as u16 - 1).to_be_bytes());
        }
    }
}

/// Takes out every session of the peer that holds a listed FQ-CSID, and clears the room after the
/// others.
fn remove_listed(table: &mut [u8], sessions: usize, request: &Request) {
    let slots = slots_mut(table);
    let goes = |slot: &Slot| {
        let held = records(slot).fq_csids;
        slot[0] == request.peer && held.iter().any(|held| request::is_listed(held, &request.listed))
    };
    let mut kept = 0;
    for index in 0..sessions {
        if !goes(&slots[index]) {
            slots[kept] = slots[index];
            kept += 1;
        }
    }
    slots[kept..sessions].as_flattened_mut().fill(0);
    put(table, COUNT, &(kept as u16).to_be_bytes());
}

fn change_session(slot: &mut Slot, request: &Request, got: &Got) {
    let (mut pdrs, mut endpoints, mut fq_csids) = areas_mut(slot);
    if !request.removed_pdrs.is_empty() || !request.removed_endpoints.is_empty() {
        pdrs.retain(|pdr| !goes(request, pdr));
    }
    if !request.removed_endpoints.is_empty() {
        endpoints.retain(|endpoint| !request.removed_endpoints.contains(&endpoint[0]));
    }
    for (endpoint, teid) in request.new_endpoints.iter().zip(got.endpoints) {
        let mut record = endpoint.slot;
        put(&mut record, 1, &teid.to_be_bytes());
        if let Some(address) = got.address_of(endpoint.address) {
            put_address(&mut record, ENDPOINT_ADDRESS, address);
        }
        endpoints.insert(record, endpoint_id);
    }
    for (pdr, teid) in request.new_pdrs.iter().zip(got.pdrs) {
        let mut record = pdr.slot;
        put(&mut record, 13, &teid.to_be_bytes());
        if let Some(address) = got.address_of(pdr.address) {
            put_address(&mut record, PDR_ADDRESS, address);
        }
        pdrs.insert(record, pdr_id);
    }
    for update in request.updates.iter() {
        let Some(pdr) = pdrs.used().iter_mut().find(|pdr| pdr_id(pdr) == update.id) else {
            continue;
        };
        if let Some(precedence) = update.precedence {
            put(pdr, 2, &precedence.to_be_bytes());
        }
        if let Some(far) = update.far {
            pdr[6] = u8::from(far.is_some());
            put(pdr, 7, &far.unwrap_or(0).to_be_bytes());
        }
    }
    if request.removes_all_fq_csids {
        fq_csids.retain(|_| false);
    }
    for change in request.fq_csids.iter() {
        match change {
            FqCsidChange::Set(record) => fq_csids.insert(*record, node_type),
            FqCsidChange::Remove(gone) => fq_csids.retain(|held| node_type(held) != *gone),
        }
    }
}
