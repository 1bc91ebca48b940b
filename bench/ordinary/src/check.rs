//! Whether a table is sound, the maps of the TEIDs and addresses that its records hold, and what each
//! peer has of it.

use crate::layout::*;
use crate::list::List;

/// What a peer has of the unit.
#[derive(Clone, Copy)]
pub struct Peer {
    pub address: [u8; 4],
    pub guarantee: u32,
    pub limit: u32,
}

#[derive(Clone, Copy)]
pub struct Settings {
    pub ipv4: [u8; 4],
    pub ipv6: Option<[u8; 16]>,
    pub first: u32,
    pub size: u32,
    pub first_address: u32,
    pub addresses: u32,
    /// The most sessions that the table has room for.
    pub limit: usize,
    pub peers: [Peer; 2],
}

impl Settings {
    pub fn are_allowed(&self) -> bool {
        let ends = |first: u32, size: u32| u64::from(first) + u64::from(size) <= 1 << 32;
        self.first >= 1
            && (1..=MOST_TEIDS).contains(&(self.size as usize))
            && ends(self.first, self.size)
            && (1..=MOST_ADDRESSES).contains(&(self.addresses as usize))
            && ends(self.first_address, self.addresses)
            && self.peers_are_allowed()
    }

    fn peers_are_allowed(&self) -> bool {
        let [one, two] = &self.peers;
        let holds = |peer: &Peer| peer.guarantee <= peer.limit && peer.limit <= self.size;
        // Neither guarantee passes the pool by then, so their sum does not wrap around.
        one.address != two.address
            && holds(one)
            && holds(two)
            && one.guarantee + two.guarantee <= self.size
    }

    pub fn peer(&self, peer: u8) -> &Peer {
        &self.peers[usize::from(peer) - 1]
    }

    /// The most sessions that a peer may have.
    pub fn half(&self) -> usize {
        self.limit / 2
    }

    /// The place of a TEID in the pool.
    pub fn place(&self, teid: u32) -> Option<usize> {
        let place = teid.checked_sub(self.first)?;
        (place < self.size).then_some(place as usize)
    }

    /// The place of an address in the pool of addresses.
    pub fn address_place(&self, address: u32) -> Option<usize> {
        let place = address.checked_sub(self.first_address)?;
        (place < self.addresses).then_some(place as usize)
    }

    pub fn has(&self, families: u8) -> bool {
        families & V6 == 0 || self.ipv6.is_some()
    }
}

/// Bit i of word k is the number first + 64 k + i of a pool.
pub struct Map<const N: usize> {
    words: [u64; N],
}

impl<const N: usize> Map<N> {
    fn new() -> Self {
        Map { words: [0; N] }
    }

    /// Takes a number; whether it was free.
    fn take(&mut self, place: usize) -> bool {
        let (word, bit) = (&mut self.words[place / 64], 1 << (place % 64));
        let free = *word & bit == 0;
        *word |= bit;
        free
    }

    pub fn is_taken(&self, place: usize) -> bool {
        self.words[place / 64] >> (place % 64) & 1 == 1
    }

    pub fn count(&self) -> u32 {
        self.words.iter().map(|word| word.count_ones()).sum()
    }

    /// The places that are free, lowest first, also those past the pool.
    pub fn free_places(&self) -> impl Iterator<Item = usize> + '_ {
        self.words.iter().enumerate().flat_map(|(index, word)| {
            let mut left = !word;
            std::iter::from_fn(move || {
                let bit = (left != 0).then(|| left.trailing_zeros() as usize)?;
                left &= left - 1;
                Some(64 * index + bit)
            })
        })
    }
}

type TeidMap = Map<{ MOST_TEIDS / 64 }>;
type AddressMap = Map<{ MOST_ADDRESSES / 64 }>;

/// What the records of a table hold of the two pools.
pub struct Taken {
    pub teids: TeidMap,
    pub addresses: AddressMap,
}

impl Taken {
    pub fn nothing() -> Self {
        Taken { teids: Map::new(), addresses: Map::new() }
    }
}

/// How many sessions and TEIDs a peer has.
#[derive(Clone, Copy, Default)]
pub struct Share {
    pub sessions: usize,
    pub teids: u32,
}

pub struct Checked<'a> {
    pub settings: Settings,
    pub sessions: usize,
    pub shares: [Share; 2],
    pub taken: &'a Taken,
}

impl Checked<'_> {
    pub fn share(&self, peer: u8) -> &Share {
        &self.shares[usize::from(peer) - 1]
    }

    /// How many TEIDs a peer may still take: up to its limit, and to what the other holds or is
    /// guaranteed.
    pub fn room(&self, peer: u8) -> u32 {
        let (own, other) = (self.share(peer).teids, 3 - peer);
        let kept = self.share(other).teids.max(self.settings.peer(other).guarantee);
        (self.settings.peer(peer).limit - own).min(self.settings.size - own - kept)
    }
}

/// What a sound table says of itself, or nothing for a broken one. The maps, 8 KiB, are the
/// caller's, so that they are never copied.
pub fn check<'a>(table: &[u8], taken: &'a mut Taken) -> Option<Checked<'a>> {
    let (head, slots) = table.split_first_chunk::<SLOTS>()?;
    let settings = settings(head)?;
    let sessions = usize::from(u16_at(head, COUNT));
    if Some(table.len()) != table_length(settings.limit) || sessions > settings.limit {
        return None;
    }
    let (used, room) = slots.as_chunks().0.split_at(sessions);
    let mut shares = [Share::default(); 2];
    let mut last = (0, 0);
    for slot in used {
        let (peer, seid) = key(slot);
        if (peer, seid) <= last || seid == 0 {
            return None;
        }
        let share = shares.get_mut(usize::from(peer.checked_sub(1)?))?;
        share.sessions += 1;
        share.teids += session_teids(&settings, slot, taken)?;
        last = (peer, seid);
    }
    let sound = shares_hold(&settings, &shares) && is_zero(room.as_flattened());
    sound.then_some(Checked { settings, sessions, shares, taken })
}

fn shares_hold(settings: &Settings, shares: &[Share; 2]) -> bool {
    let due = |share: &Share, peer: &Peer| share.teids.max(peer.guarantee);
    let pairs = || shares.iter().zip(&settings.peers);
    pairs().all(|(share, peer)| share.sessions <= settings.half() && share.teids <= peer.limit)
        && pairs().map(|(share, peer)| due(share, peer)).sum::<u32>() <= settings.size
}

fn settings(head: &[u8; SLOTS]) -> Option<Settings> {
    let mut ipv6 = [0; 16];
    ipv6.copy_from_slice(&head[5..21]);
    let ipv6 = match head[4] {
        0 if is_zero(&ipv6) => None,
        1 => Some(ipv6),
        _ => return None,
    };
    let ipv4 = [head[0], head[1], head[2], head[3]];
    let settings = Settings {
        ipv4,
        ipv6,
        first: u32_at(head, 21),
        size: u32_at(head, 25),
        first_address: u32_at(head, 29),
        addresses: u32_at(head, 33),
        limit: usize::from(u16_at(head, LIMIT)),
        peers: [peer_at(head, PEERS), peer_at(head, PEERS + PEER)],
    };
    settings.are_allowed().then_some(settings)
}

fn peer_at(head: &[u8; SLOTS], at: usize) -> Peer {
    Peer {
        address: [head[at], head[at + 1], head[at + 2], head[at + 3]],
        guarantee: u32_at(head, at + 4),
        limit: u32_at(head, at + 8),
    }
}

/// How many different TEIDs a session holds, or nothing if it breaks a rule.
fn session_teids(settings: &Settings, slot: &Slot, taken: &mut Taken) -> Option<u32> {
    let count = |at: usize| usize::from(slot[COUNTS + at]);
    let counts = (count(0), count(1), count(2));
    if counts.0 > MOST_PDRS || counts.1 > MOST_ENDPOINTS || counts.2 > MOST_FQ_CSIDS {
        return None;
    }
    let whole = areas(slot);
    let (pdrs, no_pdrs) = whole.pdrs.split_at(counts.0);
    let (endpoints, no_endpoints) = whole.endpoints.split_at(counts.1);
    let (fq_csids, no_fq_csids) = whole.fq_csids.split_at(counts.2);
    let holds = ascend(pdrs, pdr_id)
        && ascend(endpoints, endpoint_id)
        && ascend(fq_csids, node_type)
        && endpoints.iter().all(|endpoint| {
            // A TEID of an endpoint is held by nothing else.
            tunnel_place(settings, u32_at(endpoint, 1), endpoint[5])
                .is_some_and(|place| taken.teids.take(place))
        });
    if !holds {
        return None;
    }
    let mut teids = endpoints.len() as u32;
    for index in 0..pdrs.len() {
        teids += pdr_teids(settings, pdrs, index, endpoints, &mut taken.teids)?;
    }
    let holds = addresses_hold(settings, pdrs, endpoints, &mut taken.addresses)
        && fq_csids.iter().all(fq_csid_holds)
        && is_zero(no_pdrs.as_flattened())
        && is_zero(no_endpoints.as_flattened())
        && is_zero(no_fq_csids.as_flattened());
    holds.then_some(teids)
}

/// How many TEIDs a PDR holds that none before it does, 1 or 0, or nothing if it breaks a rule.
fn pdr_teids(
    settings: &Settings,
    pdrs: &[PdrSlot],
    index: usize,
    endpoints: &[EndpointSlot],
    taken: &mut TeidMap,
) -> Option<u32> {
    let pdr = &pdrs[index];
    let (far_id, source_interface) = (u32_at(pdr, 7), pdr[11]);
    let (place, teid, families, endpoint) = (pdr[12], u32_at(pdr, 13), pdr[17], pdr[18]);
    if pdr[6] > 1 || (pdr[6] == 0 && far_id != 0) || source_interface > 15 {
        return None;
    }
    let holds = match place {
        NEITHER => teid == 0 && families == 0 && endpoint == 0,
        ENDPOINT => {
            teid == 0 && families == 0 && endpoints.iter().any(|other| other[0] == endpoint)
        }
        TUNNEL if endpoint == 0 => {
            if taken.take(tunnel_place(settings, teid, families)?) {
                return Some(1);
            }
            // Held already: by a PDR of this session with the same use, most likely one just
            // before, or against the rules.
            pdrs[..index]
                .iter()
                .rfind(|other| other[12] == TUNNEL && u32_at(*other, 13) == teid)
                .is_some_and(|other| other[17] == families && other[11] == source_interface)
        }
        _ => false,
    };
    holds.then_some(0)
}

/// An address of the pool is held by records of one session only.
fn addresses_hold(
    settings: &Settings,
    pdrs: &[PdrSlot],
    endpoints: &[EndpointSlot],
    taken: &mut AddressMap,
) -> bool {
    let mut own = List::<u32, { MOST_PDRS + MOST_ENDPOINTS }>::new();
    let mut holds = |(there, address)| match there {
        0 => address == 0,
        1 => match settings.address_place(address) {
            None => true,
            Some(place) if taken.take(place) => {
                own.push(address);
                true
            }
            // Mostly the first one; `contains` would look at four at a time.
            Some(_) => own.iter().any(|held| *held == address),
        },
        _ => false,
    };
    endpoints.iter().all(|endpoint| holds(address_at(endpoint, ENDPOINT_ADDRESS)))
        && pdrs.iter().all(|pdr| holds(address_at(pdr, PDR_ADDRESS)))
}

fn tunnel_place(settings: &Settings, teid: u32, families: u8) -> Option<usize> {
    match (1..=3).contains(&families) && settings.has(families) {
        true => settings.place(teid),
        false => None,
    }
}

fn fq_csid_holds(slot: &FqCsidSlot) -> bool {
    let long = slot[1] == 1;
    slot[0] <= 5
        && slot[1] <= 2
        && (long || is_zero(&slot[6..18]))
        && (slot[1] != 2 || u32_at(slot, 2) >> 12 <= 999_999)
}

fn ascend<T, K: Ord>(records: &[T], key: impl Fn(&T) -> K) -> bool {
    records.windows(2).all(|pair| key(&pair[0]) < key(&pair[1]))
}

pub fn is_zero(octets: &[u8]) -> bool {
    octets.iter().fold(0, |all, octet| all | octet) == 0
}
