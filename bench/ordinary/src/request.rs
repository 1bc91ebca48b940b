//! From the octets of a message to a request: the header, stage 2 (framing) and stage 3 (reading).

use crate::layout::{u16_at, u32_at, u64_at, EndpointSlot, FqCsidSlot, PdrSlot, V4, V6};
use crate::list::List;

pub const CREATE_PDR: u16 = 1;
pub const PDI: u16 = 2;
pub const CREATED_PDR: u16 = 8;
pub const UPDATE_PDR: u16 = 9;
pub const REMOVE_PDR: u16 = 15;
pub const CAUSE: u16 = 19;
pub const SOURCE_INTERFACE: u16 = 20;
pub const F_TEID: u16 = 21;
pub const PRECEDENCE: u16 = 29;
pub const OFFENDING_IE: u16 = 40;
pub const PDR_ID: u16 = 56;
pub const F_SEID: u16 = 57;
pub const NODE_ID: u16 = 60;
pub const FQ_CSID: u16 = 65;
pub const UE_IP_ADDRESS: u16 = 93;
pub const FAR_ID: u16 = 108;
pub const CREATE_ENDPOINT: u16 = 127;
pub const CREATED_ENDPOINT: u16 = 128;
pub const UPDATE_ENDPOINT: u16 = 129;
pub const REMOVE_ENDPOINT: u16 = 130;
pub const ENDPOINT_ID: u16 = 131;
pub const FLAGS: u16 = 186;

const HEADER_OCTETS: usize = 16;
/// Without a SEID.
const PLAIN_HEADER_OCTETS: usize = 8;
pub const LARGEST_MESSAGE: usize = 2048;

const MISSING: u8 = 66;
const CONDITIONAL_MISSING: u8 = 67;
const LENGTH: u8 = 68;
const INCORRECT: u8 = 69;

#[derive(Clone, Copy, PartialEq, Eq)]
pub enum Kind {
    Establishment,
    Modification,
    Deletion,
    SetDeletion,
}

#[derive(Clone, Copy)]
pub struct Header {
    pub kind: Kind,
    /// 0 in a set deletion, which has none.
    pub seid: u64,
    pub sequence: [u8; 3],
    /// Where the body starts in the message.
    pub octets: usize,
}

/// The header and the body of a served message, or the host outcome 3, 4 or 5.
pub fn header(message: &[u8]) -> Result<(Header, &[u8]), u32> {
    if message.len() > LARGEST_MESSAGE {
        return Err(3);
    }
    // Only a set deletion's header has no SEID.
    let plain = message.get(1) == Some(&14);
    let octets = if plain { PLAIN_HEADER_OCTETS } else { HEADER_OCTETS };
    let Some((header, body)) = message.split_at_checked(octets) else { return Err(4) };
    // Version 1, FO 0, S.
    let first_is_right = header[0] & 0b1110_0101 == 0b0010_0000 | u8::from(!plain);
    if !first_is_right || usize::from(u16_at(header, 2)) != message.len() - 4 {
        return Err(4);
    }
    let kind = match header[1] {
        14 => Kind::SetDeletion,
        50 => Kind::Establishment,
        52 => Kind::Modification,
        54 => Kind::Deletion,
        _ => return Err(5),
    };
    let seid = if plain { 0 } else { u64_at(header, 4) };
    let sequence = [header[octets - 4], header[octets - 3], header[octets - 2]];
    Ok((Header { kind, seid, sequence, octets }, body))
}

/// A refusal: the cause, and for causes 66 to 69 the offending type and its place in the message,
/// once the element or group that is read has told it.
#[derive(Clone, Copy)]
pub struct Refusal {
    pub cause: u8,
    pub offending: Option<u16>,
    pub place: Option<usize>,
}

impl Refusal {
    /// What was found in the element or group at this place, unless an inner one has told its own.
    fn at(self, place: usize) -> Refusal {
        Refusal { place: self.place.or(Some(place)), ..self }
    }
}

fn fault(cause: u8, offending: u16) -> Refusal {
    Refusal { cause, offending: Some(offending), place: None }
}

/// Stage 2, depth first. Only groups that this message acts on at this place are opened.
/// The part's first octet stands at this place of the message.
pub fn frame(kind: Kind, group: u16, first: usize, part: &[u8]) -> Result<(), Refusal> {
    let mut rest = part;
    while !rest.is_empty() {
        let place = first + (part.len() - rest.len());
        if rest.len() < 4 {
            return Err(fault(LENGTH, group));
        }
        let (ie_type, length) = (u16_at(rest, 0), usize::from(u16_at(rest, 2)));
        let after = &rest[4..];
        if after.len() < length {
            return Err(fault(LENGTH, ie_type).at(place));
        }
        let opened = match (group, ie_type) {
            (0, CREATE_PDR | CREATE_ENDPOINT) => {
                matches!(kind, Kind::Establishment | Kind::Modification)
            }
            (0, UPDATE_PDR | REMOVE_PDR | REMOVE_ENDPOINT) => kind == Kind::Modification,
            (CREATE_PDR | UPDATE_PDR, PDI) => true,
            _ => false,
        };
        if opened {
            let inner = frame(kind, ie_type, place + 4, &after[..length]);
            inner.map_err(|refusal| refusal.at(place))?;
        }
        rest = &after[length..];
    }
    Ok(())
}

/// The elements of a framed part: type, place in the message, and value.
struct Elements<'a> {
    rest: &'a [u8],
    place: usize,
}

impl<'a> Iterator for Elements<'a> {
    type Item = (u16, usize, &'a [u8]);

    fn next(&mut self) -> Option<Self::Item> {
        let (frame, after) = self.rest.split_first_chunk::<4>()?;
        let (value, rest) = after.split_at_checked(usize::from(u16_at(frame, 2)))?;
        let place = self.place;
        self.rest = rest;
        self.place += 4 + value.len();
        Some((u16_at(frame, 0), place, value))
    }
}

/// Those of a part whose first octet stands at this place.
fn elements(first: usize, part: &[u8]) -> Elements<'_> {
    Elements { rest: part, place: first }
}

/// Those of a group at this place.
fn members(group: usize, part: &[u8]) -> Elements<'_> {
    elements(group + 4, part)
}

#[derive(Clone, Copy, PartialEq, Eq)]
pub enum Teid {
    Given(u32),
    Choose,
    ChooseShared(u8),
}

/// An F-TEID of a request; the addresses are those of a given one, as they stand.
#[derive(Clone, Copy)]
pub struct Tunnel<'a> {
    pub teid: Teid,
    pub families: u8,
    pub addresses: &'a [u8],
}

/// A UE IP Address of a request.
#[derive(Clone, Copy, PartialEq, Eq)]
pub enum Address {
    Given(u32),
    Choose,
    /// For IPv6 too.
    NotServed,
}

#[derive(Clone, Copy)]
pub struct NewPdr<'a> {
    /// The record but for its TEID and its address, which a CHOOSE gets later.
    pub slot: PdrSlot,
    pub tunnel: Option<Tunnel<'a>>,
    pub endpoint: Option<u8>,
    pub address: Option<Address>,
}

#[derive(Clone, Copy)]
pub struct NewEndpoint<'a> {
    pub slot: EndpointSlot,
    pub tunnel: Tunnel<'a>,
    pub address: Option<Address>,
}

#[derive(Clone, Copy)]
pub struct Update {
    pub id: u16,
    pub precedence: Option<u32>,
    /// A new FAR ID, or none for taking it away.
    pub far: Option<Option<u32>>,
}

#[derive(Clone, Copy)]
pub enum FqCsidChange {
    Set(FqCsidSlot),
    Remove(u8),
}

/// The records of a request. The rooms are what the largest message can carry.
pub struct Request<'a> {
    /// The peer that the host names, 1 or 2.
    pub peer: u8,
    /// The F-SEID's SEID of an establishment, else the header's.
    pub seid: u64,
    pub restoration: bool,
    /// Element 129 or a PDI in an Update PDR.
    pub unsupported: bool,
    pub new_pdrs: List<NewPdr<'a>, 76>,
    pub new_endpoints: List<NewEndpoint<'a>, 146>,
    pub updates: List<Update, 204>,
    pub removed_pdrs: List<u16, 204>,
    pub removed_endpoints: List<u8, 226>,
    pub fq_csids: List<FqCsidChange, 6>,
    pub removes_all_fq_csids: bool,
    /// The FQ-CSIDs of a set deletion, as they stand.
    pub listed: List<&'a [u8], 170>,
}

impl Request<'_> {
    /// The UE IP Addresses of what it creates.
    pub fn addresses(&self) -> impl Iterator<Item = Address> + '_ {
        let of_pdrs = self.new_pdrs.iter().filter_map(|pdr| pdr.address);
        of_pdrs.chain(self.new_endpoints.iter().filter_map(|endpoint| endpoint.address))
    }

    /// A request of a peer for this session with no records yet.
    pub fn new(peer: u8, seid: u64) -> Self {
        Request {
            peer,
            seid,
            restoration: false,
            unsupported: false,
            new_pdrs: List::new(),
            new_endpoints: List::new(),
            updates: List::new(),
            removed_pdrs: List::new(),
            removed_endpoints: List::new(),
            fq_csids: List::new(),
            removes_all_fq_csids: false,
            listed: List::new(),
        }
    }
}

/// What was read at the top of a message beside its records.
#[derive(Default)]
struct Top {
    f_seid: Option<u64>,
    flags: Option<u8>,
    node_types: u8,
}

/// Stage 3 on a framed body: adds its records to a new request.
pub fn read<'a>(header: &Header, body: &'a [u8], request: &mut Request<'a>) -> Result<(), Refusal> {
    let mut top = Top::default();
    for (ie_type, place, value) in elements(header.octets, body) {
        let element = (ie_type, place, value);
        read_element(header.kind, body, element, &mut top, request)
            .map_err(|refusal| refusal.at(place))?;
    }
    if header.kind == Kind::Establishment {
        request.restoration = top.flags.is_some_and(|flags| flags & 1 == 1);
        if request.new_pdrs.is_empty() && !request.restoration {
            return Err(fault(MISSING, CREATE_PDR));
        }
        request.seid = top.f_seid.ok_or(fault(MISSING, F_SEID))?;
    }
    Ok(())
}

/// One element at the top of a message.
fn read_element<'a>(
    kind: Kind,
    body: &'a [u8],
    (ie_type, place, value): (u16, usize, &'a [u8]),
    top: &mut Top,
    request: &mut Request<'a>,
) -> Result<(), Refusal> {
    use Kind::*;
    match (kind, ie_type) {
        (Establishment, F_SEID) => once(&mut top.f_seid, F_SEID, || read_f_seid(value))?,
        (Establishment, FLAGS) => once(&mut top.flags, FLAGS, || one(FLAGS, value))?,
        (Establishment | Modification, CREATE_PDR) => {
            request.new_pdrs.push(read_create_pdr(place, value)?)
        }
        (Establishment | Modification, CREATE_ENDPOINT) => {
            request.new_endpoints.push(read_create_endpoint(place, value)?)
        }
        (Modification, UPDATE_PDR) => {
            let (update, with_pdi) = read_update_pdr(place, value)?;
            request.unsupported |= with_pdi;
            request.updates.push(update);
        }
        (Modification, UPDATE_ENDPOINT) => request.unsupported = true,
        (Modification, REMOVE_PDR) => {
            let id = only_member(place, value, PDR_ID, |value| two(PDR_ID, value))?;
            request.removed_pdrs.push(id);
        }
        (Modification, REMOVE_ENDPOINT) => {
            let id = only_member(place, value, ENDPOINT_ID, |value| one(ENDPOINT_ID, value))?;
            request.removed_endpoints.push(id);
        }
        (Modification, FQ_CSID) if value.is_empty() => {
            if elements(0, body).filter(|(other, ..)| *other == FQ_CSID).count() > 1 {
                return Err(fault(LENGTH, FQ_CSID));
            }
            request.removes_all_fq_csids = true;
        }
        (SetDeletion, FQ_CSID) => {
            read_fq_csid(kind, value)?;
            request.listed.push(value);
        }
        (Establishment | Modification, FQ_CSID) => {
            let (node_type, change) = read_fq_csid(kind, value)?;
            if top.node_types >> node_type & 1 == 1 {
                return Err(fault(INCORRECT, FQ_CSID));
            }
            top.node_types |= 1 << node_type;
            request.fq_csids.push(change);
        }
        _ => {}
    }
    Ok(())
}

/// Reads an element that may stand only once in its part.
fn once<T>(
    slot: &mut Option<T>,
    ie_type: u16,
    read: impl FnOnce() -> Result<T, Refusal>,
) -> Result<(), Refusal> {
    if slot.is_some() {
        return Err(fault(INCORRECT, ie_type));
    }
    *slot = Some(read()?);
    Ok(())
}

fn one(ie_type: u16, value: &[u8]) -> Result<u8, Refusal> {
    value.first().copied().ok_or(fault(LENGTH, ie_type))
}

fn two(ie_type: u16, value: &[u8]) -> Result<u16, Refusal> {
    value.first_chunk().map(|octets| u16::from_be_bytes(*octets)).ok_or(fault(LENGTH, ie_type))
}

fn four(ie_type: u16, value: &[u8]) -> Result<u32, Refusal> {
    value.first_chunk().map(|octets| u32::from_be_bytes(*octets)).ok_or(fault(LENGTH, ie_type))
}

fn read_f_seid(value: &[u8]) -> Result<u64, Refusal> {
    let flags = one(F_SEID, value)?;
    // Bit 1 is V6 and bit 2 V4 here.
    let (v6, v4) = (flags & 1 != 0, flags & 2 != 0);
    if !v4 && !v6 {
        return Err(fault(INCORRECT, F_SEID));
    }
    if value.len() < 9 + if v4 { 4 } else { 0 } + if v6 { 16 } else { 0 } {
        return Err(fault(LENGTH, F_SEID));
    }
    match u64_at(value, 1) {
        0 => Err(fault(INCORRECT, F_SEID)),
        seid => Ok(seid),
    }
}

fn read_f_teid(value: &[u8], in_endpoint: bool) -> Result<Tunnel<'_>, Refusal> {
    let flags = one(F_TEID, value)?;
    let families = flags & (V4 | V6);
    let (choose, with_id) = (flags & 4 != 0, flags & 8 != 0);
    if families == 0 || (with_id && (!choose || in_endpoint)) {
        return Err(fault(INCORRECT, F_TEID));
    }
    let rest = &value[1..];
    if choose {
        let teid = match with_id {
            true => Teid::ChooseShared(one(F_TEID, rest)?),
            false => Teid::Choose,
        };
        return Ok(Tunnel { teid, families, addresses: &[] });
    }
    let addresses =
        if families & V4 != 0 { 4 } else { 0 } + if families & V6 != 0 { 16 } else { 0 };
    if rest.len() < 4 + addresses {
        return Err(fault(LENGTH, F_TEID));
    }
    let teid = Teid::Given(u32_at(rest, 0));
    Ok(Tunnel { teid, families, addresses: &rest[4..4 + addresses] })
}

/// One for IPv6 is left alone after its flags.
fn read_ue_ip(value: &[u8]) -> Result<Address, Refusal> {
    let flags = one(UE_IP_ADDRESS, value)?;
    // V6, IPv6D, CHV6, IP6PL.
    if flags & 0b0110_1001 != 0 {
        return Ok(Address::NotServed);
    }
    match (flags & 2 != 0, flags & 16 != 0) {
        (true, false) => four(UE_IP_ADDRESS, &value[1..]).map(Address::Given),
        (false, true) => Ok(Address::Choose),
        _ => Err(fault(INCORRECT, UE_IP_ADDRESS)),
    }
}

fn read_create_pdr(group: usize, part: &[u8]) -> Result<NewPdr<'_>, Refusal> {
    let (mut id, mut precedence, mut pdi, mut far) = (None, None, None, None);
    for (ie_type, place, value) in members(group, part) {
        let read = match ie_type {
            PDR_ID => once(&mut id, PDR_ID, || two(PDR_ID, value)),
            PRECEDENCE => once(&mut precedence, PRECEDENCE, || four(PRECEDENCE, value)),
            PDI => once(&mut pdi, PDI, || read_pdi(place, value)),
            FAR_ID => once(&mut far, FAR_ID, || four(FAR_ID, value)),
            _ => Ok(()),
        };
        read.map_err(|refusal| refusal.at(place))?;
    }
    let Pdi { source_interface, tunnel, endpoint, address } = pdi.ok_or(fault(MISSING, PDI))?;
    let precedence = precedence.ok_or(fault(MISSING, PRECEDENCE))?;
    let id = id.ok_or(fault(MISSING, PDR_ID))?;
    let mut slot = [0; 24];
    slot[0..2].copy_from_slice(&id.to_be_bytes());
    slot[2..6].copy_from_slice(&precedence.to_be_bytes());
    slot[6] = u8::from(far.is_some());
    slot[7..11].copy_from_slice(&far.unwrap_or(0).to_be_bytes());
    slot[11] = source_interface;
    if let Some(tunnel) = &tunnel {
        slot[12] = crate::layout::TUNNEL;
        slot[17] = tunnel.families;
    } else if let Some(endpoint) = endpoint {
        slot[12] = crate::layout::ENDPOINT;
        slot[18] = endpoint;
    }
    Ok(NewPdr { slot, tunnel, endpoint, address })
}

struct Pdi<'a> {
    source_interface: u8,
    tunnel: Option<Tunnel<'a>>,
    endpoint: Option<u8>,
    address: Option<Address>,
}

fn read_pdi(group: usize, part: &[u8]) -> Result<Pdi<'_>, Refusal> {
    let (mut source, mut tunnel, mut endpoint, mut address) = (None, None, None, None);
    for (ie_type, place, value) in members(group, part) {
        let read = match ie_type {
            SOURCE_INTERFACE => once(&mut source, ie_type, || one(SOURCE_INTERFACE, value)),
            F_TEID => once(&mut tunnel, F_TEID, || read_f_teid(value, false)),
            ENDPOINT_ID => once(&mut endpoint, ENDPOINT_ID, || one(ENDPOINT_ID, value)),
            UE_IP_ADDRESS => once(&mut address, UE_IP_ADDRESS, || read_ue_ip(value)),
            _ => Ok(()),
        };
        read.map_err(|refusal| refusal.at(place))?;
    }
    let source = source.ok_or(fault(MISSING, SOURCE_INTERFACE))?;
    Ok(Pdi { source_interface: source & 0x0F, tunnel, endpoint, address })
}

fn read_create_endpoint(group: usize, part: &[u8]) -> Result<NewEndpoint<'_>, Refusal> {
    let (mut id, mut tunnel, mut address) = (None, None, None);
    for (ie_type, place, value) in members(group, part) {
        let read = match ie_type {
            ENDPOINT_ID => once(&mut id, ENDPOINT_ID, || one(ENDPOINT_ID, value)),
            F_TEID => once(&mut tunnel, F_TEID, || read_f_teid(value, true)),
            UE_IP_ADDRESS => once(&mut address, UE_IP_ADDRESS, || read_ue_ip(value)),
            _ => Ok(()),
        };
        read.map_err(|refusal| refusal.at(place))?;
    }
    let tunnel = tunnel.ok_or(fault(CONDITIONAL_MISSING, F_TEID))?;
    let id = id.ok_or(fault(MISSING, ENDPOINT_ID))?;
    let slot = [id, 0, 0, 0, 0, tunnel.families, 0, 0, 0, 0, 0];
    Ok(NewEndpoint { slot, tunnel, address })
}

fn read_update_pdr(group: usize, part: &[u8]) -> Result<(Update, bool), Refusal> {
    let (mut id, mut precedence, mut pdi, mut far) = (None, None, None, None);
    for (ie_type, place, value) in members(group, part) {
        let read = match ie_type {
            PDR_ID => once(&mut id, PDR_ID, || two(PDR_ID, value)),
            PRECEDENCE => once(&mut precedence, PRECEDENCE, || four(PRECEDENCE, value)),
            PDI => once(&mut pdi, PDI, || Ok(())),
            FAR_ID if value.is_empty() => once(&mut far, FAR_ID, || Ok(None)),
            FAR_ID => once(&mut far, FAR_ID, || four(FAR_ID, value).map(Some)),
            _ => Ok(()),
        };
        read.map_err(|refusal| refusal.at(place))?;
    }
    let id = id.ok_or(fault(MISSING, PDR_ID))?;
    Ok((Update { id, precedence, far }, pdi.is_some()))
}

/// The one member of a removal.
fn only_member<T>(
    group: usize,
    part: &[u8],
    wanted: u16,
    read: impl Fn(&[u8]) -> Result<T, Refusal>,
) -> Result<T, Refusal> {
    let mut found = None;
    for (ie_type, place, value) in members(group, part) {
        if ie_type == wanted {
            let read = once(&mut found, wanted, || read(value));
            read.map_err(|refusal| refusal.at(place))?;
        }
    }
    found.ok_or(fault(MISSING, wanted))
}

/// Whether a record of a session is one that a set deletion lists.
pub fn is_listed(held: &FqCsidSlot, listed: &[&[u8]]) -> bool {
    let octets = if held[1] == 1 { 16 } else { 4 };
    listed.iter().any(|value| {
        let csids = 1 + octets;
        let end = csids + 2 * usize::from(value[0] & 0x0F);
        value[0] >> 4 == held[1]
            && value[end] & 0x0F == held[0]
            && value[1..csids] == held[2..2 + octets]
            && value[csids..end].chunks_exact(2).any(|csid| csid == &held[18..20])
    })
}

/// The node type and what becomes of it.
fn read_fq_csid(kind: Kind, value: &[u8]) -> Result<(u8, FqCsidChange), Refusal> {
    let first = one(FQ_CSID, value)?;
    let (node_id_type, m) = (first >> 4, usize::from(first & 0x0F));
    let address_octets = match node_id_type {
        0 | 2 => 4,
        1 => 16,
        _ => return Err(fault(INCORRECT, FQ_CSID)),
    };
    if value.len() < 1 + address_octets + 2 * m + 1 {
        return Err(fault(LENGTH, FQ_CSID));
    }
    let address = &value[1..1 + address_octets];
    let node_type = value[1 + address_octets + 2 * m] & 0x0F;
    let m_is_right = match kind {
        Kind::Establishment => m == 1,
        Kind::Modification => m <= 1,
        _ => m >= 1,
    };
    let wrong = node_type > 5
        || !m_is_right
        || (m == 0 && (node_id_type != 0 || address != [0; 4]))
        || (node_id_type == 2 && u32_at(address, 0) >> 12 > 999_999);
    if wrong {
        return Err(fault(INCORRECT, FQ_CSID));
    }
    if m == 0 {
        return Ok((node_type, FqCsidChange::Remove(node_type)));
    }
    let mut slot = [0; 20];
    slot[0] = node_type;
    slot[1] = node_id_type;
    slot[2..2 + address_octets].copy_from_slice(address);
    slot[18..20].copy_from_slice(&value[1 + address_octets..3 + address_octets]);
    Ok((node_type, FqCsidChange::Set(slot)))
}
