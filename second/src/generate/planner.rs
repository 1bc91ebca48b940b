//! The IDs and values that plans are made of, fitting the settings and the live sessions.

use std::collections::{BTreeMap, BTreeSet};
use std::net::Ipv4Addr;

use super::plan::*;
use super::random::Random;
use super::Flavour;
use crate::element::fq_csid::NodeId;
use crate::session::{
    distinct_teids, holdings, of_peer, taken_addresses, HeldCsid, Key, Session, Sessions,
};
use crate::settings::{other_peer, Settings};

/// How many TEIDs of the pool are looked at for a restoration: more than a session holds.
const MOST_LISTED: u32 = 100;

pub struct Planner<'a> {
    pub random: &'a mut Random,
    pub settings: &'a Settings,
    pub live: &'a Sessions,
    pub flavour: Flavour,
    /// The peer whose request is planned.
    pub peer: u8,
}

/// The Node-ID type and the address octets.
pub fn node_octets(node: &NodeId) -> (u8, Vec<u8>) {
    match node {
        NodeId::Ipv4(octets) => (0, octets.to_vec()),
        NodeId::Ipv6(octets) => (1, octets.to_vec()),
        NodeId::Operator { country_and_network, number } => {
            (2, (country_and_network << 12 | u32::from(*number)).to_be_bytes().to_vec())
        }
    }
}

/// The families and source interface that go with a CHOOSE ID within one request.
pub type Uses = BTreeMap<u8, (bool, bool, u8)>;

impl Planner<'_> {
    // IDs: small spaces, so that they meet again.

    fn pdr_id_space(&self) -> Vec<u16> {
        match self.flavour {
            Flavour::Full => (0..=19).collect(),
            _ => (0..=6).chain([65535]).collect(),
        }
    }

    fn endpoint_id_space(&self) -> Vec<u8> {
        match self.flavour {
            Flavour::Full => (0..=10).collect(),
            _ => (0..=4).chain([255]).collect(),
        }
    }

    pub fn unused_pdr_id(&mut self, plan: &Plan, own: Option<&Session>) -> u16 {
        let mut used: BTreeSet<u16> = plan.pdr_ids().into_iter().collect();
        used.extend(own.iter().flat_map(|session| session.pdrs.keys()));
        let mut rest = self.pdr_id_space();
        rest.retain(|id| !used.contains(id));
        loop {
            let id = match rest.is_empty() {
                true => self.random.number() as u16,
                false => self.random.pick(&rest),
            };
            if !used.contains(&id) {
                return id;
            }
        }
    }

    pub fn unused_endpoint_id(&mut self, plan: &Plan, own: Option<&Session>) -> u8 {
        let mut used: BTreeSet<u8> = plan.endpoint_ids().into_iter().collect();
        used.extend(own.iter().flat_map(|session| session.endpoints.keys()));
        let mut rest = self.endpoint_id_space();
        rest.retain(|id| !used.contains(id));
        loop {
            let id = match rest.is_empty() {
                true => self.random.octet(),
                false => self.random.pick(&rest),
            };
            if !used.contains(&id) {
                return id;
            }
        }
    }

    pub fn unused_seid(&mut self) -> u64 {
        let last = match self.flavour {
            // More than there is room for.
            Flavour::Crowd | Flavour::Site => u64::from(self.settings.session_limit) + 26,
            Flavour::Full => 4,
            _ => 10,
        };
        let mut rest: Vec<u64> = (1..=last).chain([u64::MAX, 1 << 63]).collect();
        rest.retain(|seid| self.live_session(*seid).is_none());
        match rest.is_empty() {
            true => self.random.number() | 1 << 40,
            false => self.random.pick(&rest),
        }
    }

    /// The peer's session with this SEID.
    pub fn live_session(&self, seid: u64) -> Option<&Session> {
        self.live.get(&Key { peer: self.peer, seid })
    }

    /// A SEID that lives with the peer.
    pub fn live_seid(&mut self) -> Option<u64> {
        let seids: Vec<u64> = of_peer(self.live, self.peer).map(|(key, _)| key.seid).collect();
        (!seids.is_empty()).then(|| self.random.pick(&seids))
    }

    /// How many TEIDs the peer may still have: up to its limit, and to what is kept for the other.
    pub fn teids_left(&self) -> usize {
        let other = other_peer(self.peer);
        let (held, of_other) = (holdings(self.live, self.peer), holdings(self.live, other));
        let kept = of_other.max(self.settings.peer(other).guarantee as usize);
        let by_limit = self.settings.peer(self.peer).limit as usize - held;
        by_limit.min(self.settings.size as usize - held - kept)
    }

    // Values.

    pub fn number32(&mut self) -> u32 {
        match self.random.below(4) {
            0 => self.random.below(3) as u32,
            1 => u32::MAX,
            _ => self.random.number() as u32,
        }
    }

    pub fn far_id(&mut self) -> Option<u32> {
        self.random.percent(60).then(|| self.number32())
    }

    pub fn source_interface(&mut self) -> u8 {
        self.random.pick(&[0, 0, 0, 1, 1, 2, 3, 15])
    }

    pub fn families(&mut self) -> (bool, bool) {
        match self.settings.ipv6 {
            None => (true, false),
            Some(_) => self.random.pick(&[(true, false), (false, true), (true, true)]),
        }
    }

    pub fn given(&self, teid: u32, (v4, v6): (bool, bool)) -> Ask {
        let ipv6 = self.settings.ipv6.unwrap_or([0; 16]);
        Ask::Given { teid, ipv4: v4.then_some(self.settings.ipv4), ipv6: v6.then_some(ipv6) }
    }

    pub fn choose(&mut self) -> Ask {
        let (v4, v6) = self.families();
        Ask::Choose { v4, v6, id: None }
    }

    /// A PDR without a tunnel or endpoint.
    pub fn plain_pdr(&mut self, id: u16) -> NewPdr {
        NewPdr {
            id,
            precedence: self.number32(),
            far_id: self.far_id(),
            source_interface: self.source_interface(),
            ask: None,
            endpoint: None,
            address: None,
        }
    }

    /// An address as a request outside a restoration may ask for it, or none.
    pub fn address(&mut self) -> Option<AddressAsk> {
        let choose = if self.free_addresses().is_empty() { 3 } else { 25 };
        match self.random.below(100) {
            chance if chance < choose => Some(AddressAsk::Choose),
            25..=39 => Some(AddressAsk::Given(self.outside_address())),
            _ => None,
        }
    }

    /// An address outside the pool: mostly at an edge, so that sessions share it.
    pub fn outside_address(&mut self) -> Ipv4Addr {
        let first = u32::from(self.settings.first_address);
        let last = first + (self.settings.addresses - 1);
        let any = self.random.number() as u32;
        loop {
            let edges = [first.wrapping_sub(1), last.wrapping_add(1), 0, u32::MAX, 0x0A090909, any];
            let address = Ipv4Addr::from(self.random.pick(&edges));
            if self.settings.address_place(address).is_none() {
                return address;
            }
        }
    }

    /// An address inside the pool: the first, the last or any.
    pub fn inside_address(&mut self) -> Ipv4Addr {
        let last = self.settings.addresses - 1;
        let any = self.random.below(self.settings.addresses as usize) as u32;
        Ipv4Addr::from(u32::from(self.settings.first_address) + self.random.pick(&[0, last, any]))
    }

    /// Addresses of the pool that no live session holds, in some order.
    pub fn free_addresses(&mut self) -> Vec<Ipv4Addr> {
        let taken = taken_addresses(self.settings, self.live);
        let mut free: Vec<Ipv4Addr> =
            self.settings.address_pool().filter(|address| !taken.contains(address)).collect();
        self.random.shuffle(&mut free);
        free
    }

    pub fn pdr(&mut self, id: u16, endpoints: &[u8], uses: &mut Uses) -> NewPdr {
        let mut pdr = self.plain_pdr(id);
        pdr.address = self.address();
        match self.random.below(20) {
            0..=4 => {}
            5..=9 => pdr.ask = Some(self.choose()),
            10..=15 => {
                let choose_id = self.random.pick(&[0, 1, 7, 255]);
                let (v4, v6) = self.families();
                let (v4, v6, source) =
                    *uses.entry(choose_id).or_insert((v4, v6, pdr.source_interface));
                pdr.source_interface = source;
                pdr.ask = Some(Ask::Choose { v4, v6, id: Some(choose_id) });
            }
            _ if endpoints.is_empty() => {}
            _ => pdr.endpoint = Some(self.random.pick(endpoints)),
        }
        pdr
    }

    /// FQ-CSID octets with so many CSIDs. The ignored half of the last octet is sometimes set.
    pub fn fq_csid(&mut self, node_type: u8, m: usize) -> Vec<u8> {
        let node_id_type = self.random.below(3) as u8;
        self.fq_csid_of(node_id_type, node_type, m)
    }

    pub fn fq_csid_of(&mut self, node_id_type: u8, node_type: u8, m: usize) -> Vec<u8> {
        let address = self.node_address(node_id_type);
        let csids: Vec<u16> = (0..m).map(|_| self.csid()).collect();
        self.fq_csid_octets(node_id_type, &address, &csids, node_type)
    }

    pub fn fq_csid_octets(
        &mut self,
        node_id_type: u8,
        address: &[u8],
        csids: &[u16],
        node_type: u8,
    ) -> Vec<u8> {
        let mut value = vec![node_id_type << 4 | csids.len() as u8];
        value.extend(address);
        value.extend(csids.iter().flat_map(|csid| csid.to_be_bytes()));
        let high = if self.random.percent(10) { 0xA0 } else { 0 };
        value.push(high | node_type);
        value
    }

    /// Mostly one of two cards, so that sessions share them. Their addresses of all three types
    /// begin with the same octets, and an IPv6 address has zeros behind them.
    fn node_address(&mut self, node_id_type: u8) -> Vec<u8> {
        let octets = if node_id_type == 1 { 16 } else { 4 };
        match (self.random.percent(75), node_id_type) {
            (true, _) => {
                let mut address = vec![0; octets];
                address[..4].copy_from_slice(&[192, 0, 2, self.random.pick(&[10, 11])]);
                address
            }
            (false, 2) => {
                let top = self.random.pick(&[262_001, 999_999, 0, 123_045]);
                (top << 12 | self.random.below(4096) as u32).to_be_bytes().to_vec()
            }
            (false, _) => self.random.octets(octets),
        }
    }

    /// Mostly one of a few.
    fn csid(&mut self) -> u16 {
        let any = self.random.number() as u16;
        self.random.pick(&[1, 2, 3, 0xFFFF, any])
    }

    /// An FQ-CSID that a live session holds, as a set deletion lists it: the held CSID among
    /// others.
    pub fn held_fq_csid(&mut self, node_type: u8, held: &HeldCsid) -> Vec<u8> {
        let (node_id_type, address) = node_octets(&held.node);
        let csids = self.csids_with(held.csid);
        self.fq_csid_octets(node_id_type, &address, &csids, node_type)
    }

    /// The same, but the node type, the Node-ID type, the address or the CSID is another.
    pub fn near_miss(&mut self, node_type: u8, held: &HeldCsid) -> Vec<u8> {
        let (mut node_id_type, mut address) = node_octets(&held.node);
        let (mut node_type, mut csid) = (node_type, held.csid);
        match self.random.below(4) {
            0 => node_type = (node_type + 1 + self.random.below(5) as u8) % 6,
            1 => {
                // The same first four octets.
                node_id_type = (node_id_type + self.random.pick(&[1, 2])) % 3;
                address.resize(if node_id_type == 1 { 16 } else { 4 }, 0);
            }
            2 => {
                // An operator's number may be any, so its last octet may be too.
                let last = address.len() - 1;
                address[last] ^= 1 << self.random.below(8);
            }
            _ => csid ^= 1 << self.random.below(16),
        }
        let csids = self.csids_with(csid);
        self.fq_csid_octets(node_id_type, &address, &csids, node_type)
    }

    /// A CSID among others, at any place.
    fn csids_with(&mut self, csid: u16) -> Vec<u16> {
        let m = self.random.pick(&[1, 1, 2, 3, 15]);
        let mut csids: Vec<u16> = (0..m).map(|_| self.random.number() as u16).collect();
        csids[self.random.below(m)] = csid;
        csids
    }

    pub fn fq_csid_removal(&mut self, node_type: u8) -> Vec<u8> {
        vec![0, 0, 0, 0, 0, node_type]
    }

    pub fn node_types(&mut self) -> Vec<u8> {
        let mut types = vec![0, 1, 2, 3, 4, 5];
        self.random.shuffle(&mut types);
        types
    }

    /// TEIDs of the pool that no live session holds, in some order, now and then the last one last; of
    /// a large pool a choice from all over it, with its edges.
    pub fn free_teids(&mut self) -> Vec<u32> {
        let Settings { first, size, .. } = *self.settings;
        let mut places: BTreeSet<u32> = match size <= MOST_LISTED {
            true => (0..size).collect(),
            false => [0, 63, 64, size - 65, size - 64, size - 1].into(),
        };
        while places.len() < MOST_LISTED.min(size) as usize {
            places.insert(self.random.below(size as usize) as u32);
        }
        let taken = distinct_teids(self.live);
        let mut free: Vec<u32> = places.into_iter().map(|place| first + place).collect();
        free.retain(|teid| !taken.contains(teid));
        if self.random.percent(85) {
            self.random.shuffle(&mut free);
        }
        free
    }
}
