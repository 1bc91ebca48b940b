//! What a generated request is to ask for, before any octet is written.

use std::net::Ipv4Addr;

/// A local F-TEID to ask for.
#[derive(Clone, Debug)]
pub enum Ask {
    Given { teid: u32, ipv4: Option<[u8; 4]>, ipv6: Option<[u8; 16]> },
    Choose { v4: bool, v6: bool, id: Option<u8> },
}

/// A UE IP Address to ask for.
#[derive(Clone, Debug)]
pub enum AddressAsk {
    Given(Ipv4Addr),
    Choose,
    /// Any value octets.
    Raw(Vec<u8>),
}

#[derive(Clone, Debug)]
pub struct NewPdr {
    pub id: u16,
    pub precedence: u32,
    pub far_id: Option<u32>,
    pub source_interface: u8,
    pub ask: Option<Ask>,
    pub endpoint: Option<u8>,
    pub address: Option<AddressAsk>,
}

/// What an Update PDR does to the FAR ID.
#[derive(Clone, Copy, Debug)]
pub enum FarAsk {
    Nothing,
    Set(u32),
    TakeAway,
}

#[derive(Clone, Debug)]
pub enum Item {
    CreatePdr(NewPdr),
    CreateEndpoint {
        id: u8,
        ask: Ask,
        address: Option<AddressAsk>,
    },
    UpdatePdr {
        id: u16,
        precedence: Option<u32>,
        far: FarAsk,
        with_pdi: bool,
    },
    RemovePdr(u16),
    RemoveEndpoint(u8),
    UpdateEndpoint(u8),
    /// The value octets of an FQ-CSID.
    FqCsid(Vec<u8>),
}

pub const SET_DELETION: u8 = 14;
pub const ESTABLISHMENT: u8 = 50;
pub const MODIFICATION: u8 = 52;
pub const DELETION: u8 = 54;

#[derive(Clone, Debug)]
pub struct Plan {
    pub message_type: u8,
    /// The F-SEID's SEID of an establishment, the header's SEID otherwise; a set deletion has none.
    pub seid: u64,
    pub restoration: bool,
    pub items: Vec<Item>,
}

impl Plan {
    pub fn pdr_ids(&self) -> Vec<u16> {
        let of = |item: &Item| match item {
            Item::CreatePdr(pdr) => Some(pdr.id),
            Item::UpdatePdr { id, .. } | Item::RemovePdr(id) => Some(*id),
            _ => None,
        };
        self.items.iter().filter_map(of).collect()
    }

    pub fn endpoint_ids(&self) -> Vec<u8> {
        let of = |item: &Item| match item {
            Item::CreateEndpoint { id, .. } | Item::RemoveEndpoint(id) => Some(*id),
            _ => None,
        };
        self.items.iter().filter_map(of).collect()
    }
}
