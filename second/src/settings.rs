//! "Settings: the unit's IPv4 address, an optional IPv6 address, the first TEID (at least 1) and
//! the pool size ([..] the last TEID at most 4,294,967,295)"; from 02 (v) "a pool of 1 to 1,024
//! addresses [..] (first, size; last at most 255.255.255.255)"; from 02 (vi) "65,536 TEIDs. The
//! session limit [..] becomes a setting"; from 02 (xiv) what each of the two peers has, and "the
//! session limit (now 2 to 256)".

use std::net::Ipv4Addr;

use crate::session::Families;

pub const LARGEST_POOL: u32 = 65_536;
pub const MOST_ADDRESSES: u32 = 1024;
pub const LEAST_LIMIT: u16 = 2;
pub const LARGEST_LIMIT: u16 = 256;

/// "The host names each request's peer, 1 or 2".
pub const PEERS: [u8; 2] = [1, 2];

/// The peer that the host names, unless it is "any other number".
pub fn named_peer(number: u32) -> Option<u8> {
    PEERS.into_iter().find(|peer| u32::from(*peer) == number)
}

/// The peer that shares the unit with this one.
pub fn other_peer(peer: u8) -> u8 {
    3 - peer
}

/// What a peer has of the unit: "its own signalling IPv4 address", "a guaranteed number of TEIDs and a
/// limit".
#[derive(Clone, Copy, PartialEq, Eq, Debug)]
pub struct Peer {
    pub address: [u8; 4],
    pub guarantee: u32,
    pub limit: u32,
}

#[derive(Clone, PartialEq, Eq, Debug)]
pub struct Settings {
    pub ipv4: [u8; 4],
    pub ipv6: Option<[u8; 16]>,
    /// The first TEID of the pool.
    pub first: u32,
    /// The number of TEIDs in the pool.
    pub size: u32,
    /// The first address of the pool of addresses.
    pub first_address: Ipv4Addr,
    /// The number of addresses in it.
    pub addresses: u32,
    /// How many sessions there may be, of both peers together.
    pub session_limit: u16,
    /// Peer 1 and peer 2.
    pub peers: [Peer; 2],
}

/// A session limit, unless it is not allowed.
pub fn allowed_limit(limit: u32) -> Option<u16> {
    u16::try_from(limit).ok().filter(|limit| (LEAST_LIMIT..=LARGEST_LIMIT).contains(limit))
}

impl Settings {
    /// Settings from plain values, or nothing for "other settings". An empty slice says that the
    /// unit has no IPv6 address, 16 octets give one, and any other length is refused. Addresses of
    /// zeros are allowed. TEIDs and addresses are given as the first and the number of them.
    pub fn make(
        ipv4: [u8; 4],
        ipv6: &[u8],
        (first, size): (u32, u32),
        (first_address, addresses): (Ipv4Addr, u32),
        session_limit: u32,
        peers: [Peer; 2],
    ) -> Option<Settings> {
        let ipv6 = if ipv6.is_empty() { None } else { Some(<[u8; 16]>::try_from(ipv6).ok()?) };
        let session_limit = allowed_limit(session_limit)?;
        let settings =
            Settings { ipv4, ipv6, first, size, first_address, addresses, session_limit, peers };
        settings.are_allowed().then_some(settings)
    }

    pub fn are_allowed(&self) -> bool {
        let fits = |first: u32, size: u32, most: u32| {
            (1..=most).contains(&size) && first.checked_add(size - 1).is_some()
        };
        self.first >= 1
            && fits(self.first, self.size, LARGEST_POOL)
            && fits(self.first_address.into(), self.addresses, MOST_ADDRESSES)
            && allowed_limit(self.session_limit.into()).is_some()
            && self.peers_are_allowed()
    }

    /// "Each peer has a guaranteed number of TEIDs and a limit from that to the pool size; the two
    /// guarantees together don't exceed the pool"; of the addresses "the two differ".
    fn peers_are_allowed(&self) -> bool {
        let guaranteed: u64 = self.peers.iter().map(|peer| u64::from(peer.guarantee)).sum();
        self.peers[0].address != self.peers[1].address
            && self.peers.iter().all(|peer| (peer.guarantee..=self.size).contains(&peer.limit))
            && guaranteed <= u64::from(self.size)
    }

    /// What a peer has. It is 1 or 2.
    pub fn peer(&self, peer: u8) -> &Peer {
        &self.peers[usize::from(peer) - 1]
    }

    /// "half the session limit [..] each, rounded down"
    pub fn half(&self) -> usize {
        usize::from(self.session_limit) / 2
    }

    /// Whether so many sessions of a peer are as many as it may have.
    pub fn is_full(&self, sessions: usize) -> bool {
        sessions >= self.half()
    }

    /// Whether a TEID lies in the pool.
    pub fn holds(&self, teid: u32) -> bool {
        teid >= self.first && teid - self.first < self.size
    }

    /// The place of an address in the pool of addresses.
    pub fn address_place(&self, address: Ipv4Addr) -> Option<u32> {
        let place = u32::from(address).checked_sub(self.first_address.into())?;
        (place < self.addresses).then_some(place)
    }

    /// The TEIDs of the pool, lowest first.
    pub fn pool(&self) -> impl Iterator<Item = u32> {
        self.first..=self.first + (self.size - 1)
    }

    /// The addresses of the pool, lowest first.
    pub fn address_pool(&self) -> impl Iterator<Item = Ipv4Addr> {
        let first = u32::from(self.first_address);
        (first..=first + (self.addresses - 1)).map(Ipv4Addr::from)
    }

    /// Whether the unit has every one of these families. It always has IPv4.
    pub fn has(&self, families: Families) -> bool {
        !families.v6 || self.ipv6.is_some()
    }
}
