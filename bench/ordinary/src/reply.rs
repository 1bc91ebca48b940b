//! The octets of a reply.

use crate::check::Settings;
use crate::layout::{pdr_id, V4, V6};
use crate::request::*;
use crate::unit::Got;

struct Writer<'a> {
    space: &'a mut [u8],
    used: usize,
}

impl Writer<'_> {
    fn put(&mut self, octets: &[u8]) {
        self.space[self.used..self.used + octets.len()].copy_from_slice(octets);
        self.used += octets.len();
    }

    fn frame(&mut self, ie_type: u16, length: usize) {
        self.put(&ie_type.to_be_bytes());
        self.put(&(length as u16).to_be_bytes());
    }

    fn element(&mut self, ie_type: u16, value: &[u8]) {
        self.frame(ie_type, value.len());
        self.put(value);
    }

    fn header(&mut self, header: &Header, seid: u64) {
        let reply_type = match header.kind {
            Kind::Establishment => 51,
            Kind::Modification => 53,
            Kind::Deletion => 55,
            Kind::SetDeletion => 15,
        };
        let plain = header.kind == Kind::SetDeletion;
        // The length is set at the end.
        self.put(&[0x20 | u8::from(!plain), reply_type, 0, 0]);
        if !plain {
            self.put(&seid.to_be_bytes());
        }
        self.put(&header.sequence);
        self.put(&[0]);
    }

    fn node_id(&mut self, header: &Header, home: &[u8; 4]) {
        if matches!(header.kind, Kind::Establishment | Kind::SetDeletion) {
            self.frame(NODE_ID, 5);
            self.put(&[0]);
            self.put(home);
        }
    }

    /// A Created group: the ID, then what was chosen: the F-TEID with the unit's addresses, and the
    /// patient's address. None where nothing was.
    fn created(&mut self, group: u16, id_type: u16, id: &[u8], grant: Grant) {
        let Grant { settings, tunnel, address } = grant;
        if tunnel.is_none() && address.is_none() {
            return;
        }
        let start = self.used;
        self.frame(group, 0);
        self.element(id_type, id);
        if let Some((families, teid)) = tunnel {
            self.f_teid(settings, families, teid);
        }
        if let Some(address) = address {
            self.frame(UE_IP_ADDRESS, 5);
            self.put(&[2]);
            self.put(&address.to_be_bytes());
        }
        let length = (self.used - start - 4) as u16;
        self.space[start + 2..start + 4].copy_from_slice(&length.to_be_bytes());
    }

    fn f_teid(&mut self, settings: &Settings, families: u8, teid: u32) {
        let length =
            5 + if families & V4 != 0 { 4 } else { 0 } + if families & V6 != 0 { 16 } else { 0 };
        self.frame(F_TEID, length);
        self.put(&[families]);
        self.put(&teid.to_be_bytes());
        if families & V4 != 0 {
            self.put(&settings.ipv4);
        }
        if let (Some(ipv6), true) = (&settings.ipv6, families & V6 != 0) {
            self.put(ipv6);
        }
    }

    fn end(self) -> usize {
        self.space[2..4].copy_from_slice(&((self.used - 4) as u16).to_be_bytes());
        self.used
    }
}

/// What was chosen for a record: the families and the TEID, and the address.
struct Grant<'a> {
    settings: &'a Settings,
    tunnel: Option<(u8, u32)>,
    address: Option<u32>,
}

/// A refusal, with the unit's signalling address for the peer.
pub fn refused(space: &mut [u8], home: &[u8; 4], header: &Header, refusal: &Refusal) -> usize {
    let nameless = header.kind == Kind::Establishment || refusal.cause == 65;
    let mut writer = Writer { space, used: 0 };
    writer.header(header, if nameless { 0 } else { header.seid });
    writer.node_id(header, home);
    writer.element(CAUSE, &[refusal.cause]);
    if let Some(offending) = refusal.offending {
        writer.element(OFFENDING_IE, &offending.to_be_bytes());
    }
    writer.end()
}

pub fn accepted(
    space: &mut [u8],
    settings: &Settings,
    header: &Header,
    request: &Request,
    got: &Got,
) -> usize {
    let home = &settings.peer(request.peer).address;
    let mut writer = Writer { space, used: 0 };
    writer.header(header, request.seid);
    writer.node_id(header, home);
    writer.element(CAUSE, &[1]);
    if header.kind == Kind::Establishment {
        writer.frame(F_SEID, 13);
        writer.put(&[2]);
        writer.put(&request.seid.to_be_bytes());
        writer.put(home);
    }
    // A restoration carries its TEIDs and addresses and is granted none.
    if !request.restoration {
        let chosen = |asked| (asked == Some(Address::Choose)).then_some(got.address);
        for (pdr, teid) in request.new_pdrs.iter().zip(got.pdrs) {
            let tunnel = pdr.tunnel.as_ref().map(|tunnel| (tunnel.families, teid));
            let grant = Grant { settings, tunnel, address: chosen(pdr.address) };
            let id = pdr_id(&pdr.slot).to_be_bytes();
            writer.created(CREATED_PDR, PDR_ID, &id, grant);
        }
        for (endpoint, teid) in request.new_endpoints.iter().zip(got.endpoints) {
            let tunnel = Some((endpoint.tunnel.families, teid));
            let grant = Grant { settings, tunnel, address: chosen(endpoint.address) };
            writer.created(CREATED_ENDPOINT, ENDPOINT_ID, &endpoint.slot[..1], grant);
        }
    }
    writer.end()
}
