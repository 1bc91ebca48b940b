//! Makes a sound plan break one rule of stage 4 or 5, and leave the others alone where it can.

use super::plan::*;
use super::planner::Planner;
use crate::session::{taken_addresses, Local, Session, MOST_PDRS};

impl Planner<'_> {
    /// Adds one flaw that fits the plan's message. A flaw that finds nothing to work on adds none.
    pub fn add_flaw(&mut self, plan: &mut Plan) {
        match plan.message_type {
            ESTABLISHMENT if plan.restoration => match self.random.below(4) {
                0 => self.flaw_of_any(plan),
                _ => self.flaw_of_restoration(plan),
            },
            ESTABLISHMENT => self.flaw_of_any(plan),
            MODIFICATION => match self.random.below(3) {
                0 => self.flaw_of_any(plan),
                _ => self.flaw_of_modification(plan),
            },
            SET_DELETION => {
                // One that names nothing: the form of a removal, or a null length.
                let value = match self.random.percent(50) {
                    true => self.fq_csid_removal(1),
                    false => vec![],
                };
                plan.items.push(Item::FqCsid(value));
            }
            _ => plan.seid = self.unused_seid(),
        }
    }

    fn own(&self, plan: &Plan) -> Option<Session> {
        match plan.message_type {
            MODIFICATION => self.live_session(plan.seid).cloned(),
            _ => None,
        }
    }

    fn push_pdr(&mut self, plan: &mut Plan, change: impl FnOnce(&mut NewPdr)) {
        let own = self.own(plan);
        let id = self.unused_pdr_id(plan, own.as_ref());
        let mut pdr = self.plain_pdr(id);
        change(&mut pdr);
        plan.items.push(Item::CreatePdr(pdr));
    }

    fn push_endpoint(&mut self, plan: &mut Plan, ask: Ask) -> u8 {
        let own = self.own(plan);
        let id = self.unused_endpoint_id(plan, own.as_ref());
        plan.items.push(Item::CreateEndpoint { id, ask, address: None });
        id
    }

    /// A new PDR or endpoint with this address.
    fn push_address(&mut self, plan: &mut Plan, wanted: AddressAsk) {
        if self.random.percent(60) {
            self.push_pdr(plan, |pdr| pdr.address = Some(wanted));
            return;
        }
        let families = self.families();
        let ask = self.fitting(plan, families);
        self.push_endpoint(plan, ask);
        if let Some(Item::CreateEndpoint { address, .. }) = plan.items.last_mut() {
            *address = Some(wanted);
        }
    }

    /// An address that is not served, one that the control plane may not give, or a CHOOSE that is
    /// out of place or finds none free.
    fn flaw_of_address(&mut self, plan: &mut Plan) {
        match self.random.below(10) {
            0..=2 => {
                // V6, IPv6D, CHV6 or IP6PL, alone or with others; what follows is not read.
                let flags = self.random.pick(&[1, 8, 32, 64]) | self.random.octet();
                let count = self.random.pick(&[0, 0, 3, 4, 20]);
                let value = [vec![flags], self.random.octets(count)].concat();
                self.push_address(plan, AddressAsk::Raw(value));
            }
            3..=5 if !plan.restoration => {
                let address = self.inside_address();
                self.push_address(plan, AddressAsk::Given(address));
            }
            3..=4 => {
                let held =
                    taken_addresses(self.settings, self.live).into_iter().collect::<Vec<_>>();
                if !held.is_empty() {
                    let address = self.random.pick(&held);
                    self.push_address(plan, AddressAsk::Given(address));
                }
            }
            _ => self.push_address(plan, AddressAsk::Choose),
        }
    }

    /// A tunnel as this plan may ask for it; a restoration's stands in the pool and is free.
    fn fitting(&mut self, plan: &Plan, families: (bool, bool)) -> Ask {
        match plan.restoration {
            false => Ask::Choose { v4: families.0, v6: families.1, id: None },
            true => {
                let carried: Vec<u32> = plan.items.iter().filter_map(given_teid).collect();
                let mut free = self.free_teids();
                free.retain(|teid| !carried.contains(teid));
                self.given(free.first().copied().unwrap_or(self.settings.first), families)
            }
        }
    }

    /// Flaws that an establishment, a restoration and a modification can all have.
    fn flaw_of_any(&mut self, plan: &mut Plan) {
        let families = self.families();
        match self.random.below(22) {
            18..=21 => self.flaw_of_address(plan),
            0 | 17 => {
                // An F-TEID the wrong way round: 71.
                let wrong = match plan.restoration {
                    true => self.choose(),
                    false => self.given(self.settings.first, families),
                };
                if self.random.percent(50) {
                    self.push_pdr(plan, |pdr| pdr.ask = Some(wrong));
                } else {
                    self.push_endpoint(plan, wrong);
                }
            }
            1 => {
                // A PDR ID created twice.
                self.push_pdr(plan, |_| {});
                if let Some(last) = plan.items.last().cloned() {
                    plan.items.push(last);
                }
            }
            2 => {
                // An endpoint ID created twice.
                let ask = self.fitting(plan, families);
                let id = self.push_endpoint(plan, ask);
                let ask = self.fitting(plan, families);
                plan.items.push(Item::CreateEndpoint { id, ask, address: None });
            }
            3 => {
                // F-TEID and endpoint ID in one PDI.
                let ask = self.fitting(plan, families);
                let id = self.push_endpoint(plan, ask);
                let ask = self.fitting(plan, families);
                self.push_pdr(plan, |pdr| {
                    pdr.endpoint = Some(id);
                    pdr.ask = Some(ask);
                });
            }
            4 => {
                // An endpoint ID that is not there.
                let own = self.own(plan);
                let id = self.unused_endpoint_id(plan, own.as_ref());
                self.push_pdr(plan, |pdr| pdr.endpoint = Some(id));
            }
            5 | 6 => {
                // Equal CHOOSE IDs with other families or another source interface.
                let other_families = self.settings.ipv6.is_some() && self.random.percent(65);
                let second = if other_families { (true, true) } else { (true, false) };
                let ask = |pair: (bool, bool)| Ask::Choose { v4: pair.0, v6: pair.1, id: Some(99) };
                self.push_pdr(plan, |pdr| {
                    pdr.source_interface = 1;
                    pdr.ask = Some(ask((true, false)));
                });
                self.push_pdr(plan, |pdr| {
                    pdr.source_interface = if other_families { 1 } else { 2 };
                    pdr.ask = Some(ask(second));
                });
            }
            7 | 8 => {
                // IPv6, which a unit without it lacks.
                let v4 = self.random.percent(50);
                let ask = self.fitting(plan, (v4, true));
                if self.random.percent(50) {
                    self.push_pdr(plan, |pdr| pdr.ask = Some(ask));
                } else {
                    self.push_endpoint(plan, ask);
                }
            }
            9 | 10 => self.too_many_pdrs(plan),
            11 | 12 => self.too_many_endpoints(plan),
            13 => {
                // More TEIDs than a small pool has left.
                for _ in 0..self.random.between(3, 12) {
                    let ask = self.fitting(plan, families);
                    let choose = !plan.restoration && self.random.percent(20);
                    self.push_pdr(plan, |pdr| {
                        pdr.ask = Some(ask);
                        pdr.address = choose.then_some(AddressAsk::Choose);
                    });
                }
            }
            14 => self.all_that_are_left(plan),
            _ => {
                // A live SEID: 64. Sometimes there is no address either.
                if let (ESTABLISHMENT, Some(seid)) = (plan.message_type, self.live_seid()) {
                    plan.seid = seid;
                    if self.random.percent(30) {
                        self.push_address(plan, AddressAsk::Choose);
                    }
                }
            }
        }
    }

    fn flaw_of_restoration(&mut self, plan: &mut Plan) {
        let families = self.families();
        match self.random.below(18) {
            12..=14 => self.flaw_of_address(plan),
            15..=17 => self.all_that_are_left(plan),
            0 | 1 => {
                let last = self.settings.first + (self.settings.size - 1);
                let outside = [
                    0,
                    self.settings.first - 1,
                    last.wrapping_add(1),
                    u32::MAX,
                    last ^ 0x8000_0000,
                ];
                let teid = self.random.pick(&outside);
                let ask = self.given(teid, families);
                if self.random.percent(50) {
                    self.push_pdr(plan, |pdr| pdr.ask = Some(ask));
                } else {
                    self.push_endpoint(plan, ask);
                }
            }
            2 | 9 => {
                let mut ask = self.fitting(plan, families);
                if let Ask::Given { ipv4, ipv6, .. } = &mut ask {
                    let octet = self.random.below(16);
                    match (ipv4, ipv6) {
                        (Some(address), None) => address[octet % 4] ^= 1,
                        (None, Some(address)) => address[octet] ^= 1,
                        (Some(address), Some(_)) if octet < 8 => address[octet % 4] ^= 1,
                        (_, Some(address)) => address[octet] ^= 1,
                        _ => {}
                    }
                }
                if self.random.percent(50) {
                    self.push_pdr(plan, |pdr| pdr.ask = Some(ask));
                } else {
                    self.push_endpoint(plan, ask);
                }
            }
            3 => {
                // Held by another session.
                let held: Vec<u32> = self.live.values().flat_map(|s| s.teids()).collect();
                if !held.is_empty() {
                    let teid = self.random.pick(&held);
                    let ask = self.given(teid, families);
                    if self.random.percent(50) {
                        self.push_pdr(plan, |pdr| pdr.ask = Some(ask));
                    } else {
                        self.push_endpoint(plan, ask);
                    }
                }
            }
            4 => {
                let ask = self.fitting(plan, families);
                self.push_endpoint(plan, ask.clone());
                self.push_endpoint(plan, ask);
            }
            5 => {
                let ask = self.fitting(plan, families);
                self.push_endpoint(plan, ask.clone());
                self.push_pdr(plan, |pdr| pdr.ask = Some(ask));
            }
            6 | 7 => {
                // PDRs that share with other families or another source interface.
                let other_families = self.settings.ipv6.is_some() && self.random.percent(65);
                let ask = self.fitting(plan, (true, false));
                let Ask::Given { teid, .. } = ask else { return };
                let second = self.given(teid, (true, other_families));
                self.push_pdr(plan, |pdr| {
                    pdr.source_interface = 3;
                    pdr.ask = Some(ask);
                });
                self.push_pdr(plan, |pdr| {
                    pdr.source_interface = if other_families { 3 } else { 4 };
                    pdr.ask = Some(second);
                });
            }
            8 => {
                let ask = self.choose();
                if self.random.percent(50) {
                    self.push_pdr(plan, |pdr| pdr.ask = Some(ask));
                } else {
                    self.push_endpoint(plan, ask);
                }
            }
            10 => self.too_many_pdrs(plan),
            _ => self.too_many_endpoints(plan),
        }
    }

    /// As many TEIDs as the peer may still have, where they are few, or one more.
    fn all_that_are_left(&mut self, plan: &mut Plan) {
        let left = self.teids_left();
        if left < MOST_PDRS {
            plan.items.clear();
            let families = self.families();
            for _ in 0..left + self.random.below(2) {
                let ask = self.fitting(plan, families);
                self.push_pdr(plan, |pdr| pdr.ask = Some(ask));
            }
        }
    }

    /// More than 16 PDRs.
    fn too_many_pdrs(&mut self, plan: &mut Plan) {
        let own = self.own(plan).map_or(0, |session| session.pdrs.len());
        for _ in own..=16 {
            self.push_pdr(plan, |_| {});
        }
    }

    /// More than 8 endpoints.
    fn too_many_endpoints(&mut self, plan: &mut Plan) {
        let families = self.families();
        let own = self.own(plan).map_or(0, |session| session.endpoints.len());
        for _ in own..=8 {
            let ask = self.fitting(plan, families);
            self.push_endpoint(plan, ask);
        }
    }

    fn flaw_of_modification(&mut self, plan: &mut Plan) {
        let Some(own) = self.own(plan) else { return };
        let named = plan.pdr_ids();
        let named_endpoints = plan.endpoint_ids();
        // Live records that the plan does not name yet.
        let mut pdrs: Vec<u16> = own.pdrs.keys().copied().collect();
        pdrs.retain(|id| !named.contains(id));
        self.random.shuffle(&mut pdrs);
        let mut endpoints: Vec<u8> = own.endpoints.keys().copied().collect();
        endpoints.retain(|id| !named_endpoints.contains(id));
        self.random.shuffle(&mut endpoints);
        // The endpoints among them that no live PDR names.
        let loose = endpoints.iter().copied().find(|id| !own.is_named(*id));
        let pdr = pdrs.first().copied();
        let strange_pdr = self.unused_pdr_id(plan, Some(&own));
        let strange_endpoint = self.unused_endpoint_id(plan, Some(&own));
        match (self.random.below(22), pdr) {
            (17, _) => {
                // An address of the pool that the session holds.
                let held: Vec<_> = own.pool_addresses(self.settings).into_iter().collect();
                if !held.is_empty() {
                    let address = self.random.pick(&held);
                    self.push_address(plan, AddressAsk::Given(address));
                }
            }
            (18, _) => {
                // Removing every address and asking for one again in one request.
                plan.items.clear();
                for (&id, pdr) in &own.pdrs {
                    if pdr.address.is_some() {
                        plan.items.push(Item::RemovePdr(id));
                    }
                }
                for (&id, endpoint) in &own.endpoints {
                    if endpoint.address.is_some() {
                        plan.items.push(Item::RemoveEndpoint(id));
                    }
                }
                self.push_pdr(plan, |pdr| pdr.address = Some(AddressAsk::Choose));
            }
            (19, _) => self.flaw_of_address(plan),
            (0, Some(id)) => plan.items.extend([Item::RemovePdr(id), Item::RemovePdr(id)]),
            (1, Some(id)) => {
                let pair = [self.update(id), self.update(id)];
                plan.items.extend(pair);
            }
            (2, Some(id)) => {
                let update = self.update(id);
                let mut pair = [Item::RemovePdr(id), update];
                self.random.shuffle(&mut pair);
                plan.items.extend(pair);
            }
            (3, Some(id)) => {
                let new = self.plain_pdr(id);
                plan.items.push(Item::CreatePdr(new));
                if self.random.percent(50) {
                    plan.items.push(Item::RemovePdr(id));
                }
            }
            (4, _) => plan.items.push(Item::RemovePdr(strange_pdr)),
            (5, _) => {
                let update = self.update(strange_pdr);
                plan.items.push(update);
            }
            (6, _) => plan.items.push(Item::RemoveEndpoint(strange_endpoint)),
            (7, _) => {
                if let Some(id) = loose {
                    plan.items.extend([Item::RemoveEndpoint(id), Item::RemoveEndpoint(id)]);
                }
            }
            (8 | 16, _) => {
                if let Some(id) = loose.or(endpoints.first().copied()) {
                    let ask = self.choose();
                    plan.items.push(Item::CreateEndpoint { id, ask, address: None });
                    if loose.is_some() && self.random.percent(75) {
                        plan.items.push(Item::RemoveEndpoint(id));
                    }
                }
            }
            (flaw @ (9 | 10 | 20 | 21), _) => {
                // A PDR that goes with its endpoint, and is updated or created again.
                let mut along = pdrs.iter().filter_map(|id| match own.pdrs[id].local {
                    Local::Endpoint(endpoint) => Some((*id, endpoint)),
                    _ => None,
                });
                let Some((id, endpoint)) = along.find(|(_, e)| endpoints.contains(e)) else {
                    return;
                };
                let names_it = |item: &Item| match item {
                    Item::CreatePdr(new) => new.endpoint == Some(endpoint),
                    Item::UpdatePdr { id, .. } => {
                        own.pdrs.get(id).is_some_and(|p| p.local == Local::Endpoint(endpoint))
                    }
                    _ => false,
                };
                plan.items.retain(|item| !names_it(item));
                plan.items.push(Item::RemoveEndpoint(endpoint));
                let item = match flaw {
                    9 | 20 => self.update(id),
                    _ => Item::CreatePdr(self.plain_pdr(id)),
                };
                plan.items.push(item);
            }
            (11, _) => {
                // A created PDR that names an endpoint which the request removes.
                if let Some(id) = loose {
                    plan.items.push(Item::RemoveEndpoint(id));
                    self.push_pdr(plan, |pdr| pdr.endpoint = Some(id));
                }
            }
            (12, Some(id)) => {
                let mut item = self.update(id);
                if let Item::UpdatePdr { with_pdi, .. } = &mut item {
                    *with_pdi = true;
                }
                plan.items.push(item);
            }
            (13, _) => plan.items.push(Item::UpdateEndpoint(strange_endpoint)),
            (14, _) => {
                // Removing tunnels and asking for as many again in one request.
                plan.items.clear();
                for (&id, pdr) in &own.pdrs {
                    if matches!(pdr.local, Local::Tunnel(_)) {
                        plan.items.push(Item::RemovePdr(id));
                    }
                }
                for _ in 0..self.random.between(1, 3) {
                    let ask = self.choose();
                    self.push_pdr(plan, |pdr| pdr.ask = Some(ask));
                }
            }
            _ => self.flaw_of_any(plan),
        }
    }
}

fn given_teid(item: &Item) -> Option<u32> {
    match item {
        Item::CreatePdr(NewPdr { ask: Some(Ask::Given { teid, .. }), .. }) => Some(*teid),
        Item::CreateEndpoint { ask: Ask::Given { teid, .. }, .. } => Some(*teid),
        _ => None,
    }
}
