//! Whole plans that fit the live sessions: establishments, restorations, modifications, deletions.

use std::collections::BTreeSet;
use std::net::Ipv4Addr;

use super::plan::*;
use super::planner::{node_octets, Planner, Uses};
use super::Flavour;
use crate::session::{Endpoint, Families, HeldCsid, Local, Pdr, Session, Tunnel};

impl Planner<'_> {
    pub fn establishment(&mut self) -> Plan {
        let seid = self.unused_seid();
        let mut plan =
            Plan { message_type: ESTABLISHMENT, seid, restoration: false, items: vec![] };
        if self.flavour == Flavour::Full && self.random.percent(25) {
            self.fill_whole(&mut plan);
            return plan;
        }
        let endpoints = if self.random.percent(45) { self.random.between(1, 3) } else { 0 };
        for _ in 0..endpoints {
            let id = self.unused_endpoint_id(&plan, None);
            let (ask, address) = (self.choose(), self.address());
            plan.items.push(Item::CreateEndpoint { id, ask, address });
        }
        let most = if self.flavour.is_crowd() { 2 } else { 5 };
        self.add_pdrs(&mut plan, None, 1, most);
        let count = self.random.pick(&[0, 0, 1, 1, 2, 6]);
        for node_type in self.node_types().into_iter().take(count) {
            let value = self.fq_csid(node_type, 1);
            plan.items.push(Item::FqCsid(value));
        }
        self.order(&mut plan);
        plan
    }

    /// The largest session: everything there is room for.
    fn fill_whole(&mut self, plan: &mut Plan) {
        let both = (true, self.settings.ipv6.is_some());
        let address = match self.free_addresses().is_empty() {
            true => AddressAsk::Given(self.outside_address()),
            false => AddressAsk::Choose,
        };
        for id in 0..8 {
            plan.items.push(Item::CreateEndpoint {
                id,
                ask: Ask::Choose { v4: both.0, v6: both.1, id: None },
                address: Some(address.clone()),
            });
        }
        for id in 0..16 {
            let mut pdr = self.plain_pdr(id);
            pdr.far_id = Some(self.number32());
            pdr.ask = Some(Ask::Choose { v4: both.0, v6: both.1, id: None });
            pdr.address = Some(address.clone());
            plan.items.push(Item::CreatePdr(pdr));
        }
        for node_type in 0..6 {
            let value = self.fq_csid_of(1, node_type, 1);
            plan.items.push(Item::FqCsid(value));
        }
        self.order(plan);
    }

    fn add_pdrs(&mut self, plan: &mut Plan, own: Option<&Session>, least: usize, most: usize) {
        let mut endpoints: Vec<u8> = own.map_or(vec![], |s| s.endpoints.keys().copied().collect());
        for item in &plan.items {
            match item {
                Item::CreateEndpoint { id, .. } => endpoints.push(*id),
                Item::RemoveEndpoint(id) => endpoints.retain(|other| other != id),
                _ => {}
            }
        }
        let mut uses = Uses::new();
        for _ in 0..self.random.between(least, most) {
            let id = self.unused_pdr_id(plan, own);
            let pdr = self.pdr(id, &endpoints, &mut uses);
            plan.items.push(Item::CreatePdr(pdr));
        }
    }

    fn order(&mut self, plan: &mut Plan) {
        if self.random.percent(60) {
            self.random.shuffle(&mut plan.items);
        }
    }

    /// A restoration of a session that was deleted before, or of a new one.
    pub fn restoration(&mut self, graves: &[(u64, Session)]) -> Plan {
        if !graves.is_empty() && self.random.percent(50) {
            let (seid, session) = self.random.pick(graves);
            let lives = self.live_session(seid).is_some();
            let seid = if lives { self.unused_seid() } else { seid };
            return self.restoration_of(seid, &session);
        }
        let seid = self.unused_seid();
        let mut session = Session::default();
        let mut free = self.free_teids();
        let mut free_addresses = self.free_addresses();
        free_addresses.truncate(2);
        let families = |pair: (bool, bool)| Families { v4: pair.0, v6: pair.1 };
        let mut plan = self.restoration_of(seid, &session);
        for _ in 0..self.random.below(3) {
            if let Some(teid) = free.pop() {
                let id = self.unused_endpoint_id(&plan, None);
                let tunnel = Tunnel { teid, families: families(self.families()) };
                let address = self.restored_address(&free_addresses);
                session.endpoints.insert(id, Endpoint { tunnel, address });
            }
        }
        let mut last: Option<(Tunnel, u8)> = None;
        for _ in 0..self.random.below(5) {
            let id = self.unused_pdr_id(&plan, None);
            let mut source_interface = self.source_interface();
            let mut local = Local::Neither;
            let shared = last.filter(|_| self.random.percent(40));
            if let Some((tunnel, source)) = shared {
                local = Local::Tunnel(tunnel);
                source_interface = source;
            } else if self.random.percent(20) && !session.endpoints.is_empty() {
                let ids: Vec<u8> = session.endpoints.keys().copied().collect();
                local = Local::Endpoint(self.random.pick(&ids));
            } else if let Some(teid) = free.pop() {
                let tunnel = Tunnel { teid, families: families(self.families()) };
                last = Some((tunnel, source_interface));
                local = Local::Tunnel(tunnel);
            }
            let (precedence, far_id) = (self.number32(), self.far_id());
            let address = self.restored_address(&free_addresses);
            let pdr = Pdr { precedence, far_id, source_interface, local, address };
            session.pdrs.insert(id, pdr);
        }
        plan = self.restoration_of(seid, &session);
        if self.random.percent(30) {
            let node_type = self.random.below(6) as u8;
            let value = self.fq_csid(node_type, 1);
            plan.items.push(Item::FqCsid(value));
        }
        plan
    }

    /// None, one of these of the pool, or one outside it.
    fn restored_address(&mut self, free: &[Ipv4Addr]) -> Option<Ipv4Addr> {
        match self.random.below(4) {
            0 => Some(self.outside_address()),
            1..=2 if !free.is_empty() => Some(self.random.pick(free)),
            _ => None,
        }
    }

    pub fn restoration_of(&mut self, seid: u64, session: &Session) -> Plan {
        let mut plan = Plan { message_type: ESTABLISHMENT, seid, restoration: true, items: vec![] };
        for (&id, pdr) in &session.pdrs {
            let mut new = NewPdr {
                id,
                precedence: pdr.precedence,
                far_id: pdr.far_id,
                source_interface: pdr.source_interface,
                ask: None,
                endpoint: None,
                address: pdr.address.map(AddressAsk::Given),
            };
            match pdr.local {
                Local::Neither => {}
                Local::Endpoint(endpoint) => new.endpoint = Some(endpoint),
                Local::Tunnel(tunnel) => {
                    let families = (tunnel.families.v4, tunnel.families.v6);
                    new.ask = Some(self.given(tunnel.teid, families));
                }
            }
            plan.items.push(Item::CreatePdr(new));
        }
        for (&id, Endpoint { tunnel, address }) in &session.endpoints {
            let ask = self.given(tunnel.teid, (tunnel.families.v4, tunnel.families.v6));
            let address = address.map(AddressAsk::Given);
            plan.items.push(Item::CreateEndpoint { id, ask, address });
        }
        for (&node_type, held) in &session.fq_csids {
            let (node_id_type, address) = node_octets(&held.node);
            let mut value = vec![node_id_type << 4 | 1];
            value.extend(address);
            value.extend(held.csid.to_be_bytes());
            value.push(node_type);
            plan.items.push(Item::FqCsid(value));
        }
        self.order(&mut plan);
        plan
    }

    pub fn modification(&mut self, seid: u64) -> Plan {
        let own = self.live_session(seid).cloned().unwrap_or_default();
        let mut plan = Plan { message_type: MODIFICATION, seid, restoration: false, items: vec![] };
        if self.random.percent(4) {
            return plan;
        }
        let removes = self.random.pick(&[0, 0, 20, 50]);
        let updates = self.random.pick(&[0, 20, 50]);
        let ends = self.random.pick(&[0, 0, 20, 50]);
        let mut gone: BTreeSet<u8> = BTreeSet::new();
        for &id in own.endpoints.keys() {
            if self.random.percent(ends) {
                plan.items.push(Item::RemoveEndpoint(id));
                gone.insert(id);
            }
        }
        for (&id, pdr) in &own.pdrs {
            // One that goes with its endpoint may be named too, and may not be updated.
            let goes_along =
                matches!(pdr.local, Local::Endpoint(endpoint) if gone.contains(&endpoint));
            if self.random.percent(removes) {
                plan.items.push(Item::RemovePdr(id));
            } else if !goes_along && self.random.percent(updates) {
                let item = self.update(id);
                plan.items.push(item);
            }
        }
        let most = if self.flavour == Flavour::Full { 5 } else { 2 };
        if self.random.percent(40) {
            for _ in 0..self.random.between(1, most) {
                let id = self.unused_endpoint_id(&plan, Some(&own));
                let (ask, address) = (self.choose(), self.address());
                plan.items.push(Item::CreateEndpoint { id, ask, address });
            }
        }
        if self.random.percent(60) {
            self.add_pdrs(&mut plan, Some(&own), 1, most + 1);
        }
        match self.random.below(10) {
            0 => plan.items.push(Item::FqCsid(vec![])),
            1..=4 => {
                let count = self.random.between(1, 3);
                for node_type in self.node_types().into_iter().take(count) {
                    let value = match self.random.percent(50) {
                        true => self.fq_csid(node_type, 1),
                        false => self.fq_csid_removal(node_type),
                    };
                    plan.items.push(Item::FqCsid(value));
                }
            }
            _ => {}
        }
        self.order(&mut plan);
        plan
    }

    pub fn update(&mut self, id: u16) -> Item {
        let precedence = self.random.percent(50).then(|| self.number32());
        let far = match self.random.below(3) {
            0 => FarAsk::Nothing,
            1 => FarAsk::TakeAway,
            _ => FarAsk::Set(self.number32()),
        };
        Item::UpdatePdr { id, precedence, far, with_pdi: false }
    }

    /// Its FQ-CSIDs are to be skipped, so some are broken.
    pub fn deletion(&mut self, seid: u64) -> Plan {
        let mut plan = Plan { message_type: DELETION, seid, restoration: false, items: vec![] };
        if self.random.percent(50) {
            for _ in 0..self.random.between(1, 3) {
                let node_type = self.random.below(7) as u8;
                let m = self.random.pick(&[0, 1, 1, 2, 15]);
                let mut value = self.fq_csid(node_type, m);
                if self.random.percent(30) {
                    value.truncate(self.random.below(6));
                }
                plan.items.push(Item::FqCsid(value));
            }
        }
        plan
    }

    /// Lists FQ-CSIDs that live sessions of both peers hold, near misses, and others; sometimes none, or
    /// one of every session that holds any.
    pub fn set_deletion(&mut self) -> Plan {
        let mut plan =
            Plan { message_type: SET_DELETION, seid: 0, restoration: false, items: vec![] };
        let of_session = |session: &Session| {
            let held = session.fq_csids.iter();
            held.map(|(node_type, held)| (*node_type, held.clone())).collect::<Vec<_>>()
        };
        let held: Vec<Vec<(u8, HeldCsid)>> =
            self.live.values().map(of_session).filter(|held| !held.is_empty()).collect();
        let every = self.random.percent(20);
        let count = if every { held.len() } else { self.random.pick(&[0, 1, 1, 1, 2, 2, 3, 6]) };
        for index in 0..count {
            let value = match held.is_empty() || (!every && self.random.percent(25)) {
                true => {
                    let (node_type, m) =
                        (self.random.below(6) as u8, self.random.pick(&[1, 2, 15]));
                    self.fq_csid(node_type, m)
                }
                false => {
                    let of_one = if every { held[index].clone() } else { self.random.pick(&held) };
                    let (node_type, held) = self.random.pick(&of_one);
                    match !every && self.random.percent(30) {
                        true => self.near_miss(node_type, &held),
                        false => self.held_fq_csid(node_type, &held),
                    }
                }
            };
            plan.items.push(Item::FqCsid(value));
        }
        plan
    }

    fn rich_address(&mut self) -> AddressAsk {
        match self.random.percent(50) {
            true => AddressAsk::Choose,
            false => AddressAsk::Given(self.outside_address()),
        }
    }

    /// A request with every group and element that its message knows, for being damaged. It need
    /// not fit the live sessions.
    pub fn rich(&mut self, message_type: u8, seid: u64) -> Plan {
        let mut plan = Plan { message_type, seid, restoration: false, items: vec![] };
        if message_type == DELETION {
            plan = self.deletion(seid);
        } else if message_type == SET_DELETION {
            plan = self.set_deletion();
        } else {
            for id in [1, 2] {
                let ask = self.choose();
                let address = Some(self.rich_address());
                plan.items.push(Item::CreateEndpoint { id, ask, address });
                let mut pdr = self.plain_pdr(u16::from(id));
                pdr.far_id = Some(self.number32());
                pdr.ask = Some(self.choose());
                if let (Some(Ask::Choose { id, .. }), true) =
                    (&mut pdr.ask, self.random.percent(50))
                {
                    *id = Some(7);
                }
                if self.random.percent(40) {
                    let families = self.families();
                    pdr.ask = Some(self.given(self.settings.first, families));
                }
                pdr.endpoint = Some(id);
                pdr.address = Some(self.rich_address());
                plan.items.push(Item::CreatePdr(pdr));
            }
        }
        if message_type == MODIFICATION {
            plan.items.push(Item::UpdatePdr {
                id: 3,
                precedence: Some(5),
                far: FarAsk::Set(9),
                with_pdi: true,
            });
            plan.items.push(Item::RemovePdr(4));
            plan.items.push(Item::RemoveEndpoint(3));
        }
        if !plan.items.iter().any(|item| matches!(item, Item::FqCsid(_))) {
            for node_type in self.node_types().into_iter().take(2) {
                let value = self.fq_csid(node_type, 1);
                plan.items.push(Item::FqCsid(value));
            }
        }
        self.order(&mut plan);
        plan
    }
}
