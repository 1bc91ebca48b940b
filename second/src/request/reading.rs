//! Stage 3: "a required one missing 66 (F-TEID of an endpoint 67), short 68, bad or repeated 69",
//! the first fault in reading order.

use std::collections::BTreeSet;

use super::fault::{At, Fault, Place};
use super::framing::{elements, Element, Part};
use super::{FarChange, Header, Kind, Pdi, Record, Request};
use crate::element::{f_seid, f_teid, fq_csid, front_u32, ue_ip, Bad, Refusal};
use crate::ie;

/// Reads the body of a framed message.
pub fn read(header: &Header, message: &[u8]) -> Result<Request, Fault> {
    let kind = header.kind;
    let at = At::top(kind);
    let body = Part::body(message);
    let mut once = Once::new(at);
    let mut node_types = BTreeSet::new();
    let mut f_seid = None;
    let mut restoration = false;
    let mut records = Vec::new();
    for element in elements(body) {
        match (kind, element.ie_type) {
            (Kind::Establishment, ie::F_SEID) => {
                f_seid = Some(once.read(&element, f_seid::read)?);
            }
            (Kind::Establishment, ie::ESTABLISHMENT_FLAGS) => {
                // "bit 1 = restoration"; its other bits are ignored.
                restoration = once.read(&element, one_octet)? & 1 != 0;
            }
            (Kind::Establishment | Kind::Modification, ie::CREATE_PDR) => {
                once.see(ie::CREATE_PDR);
                records.push(create_pdr(kind, &element)?);
            }
            (Kind::Establishment | Kind::Modification, ie::CREATE_ENDPOINT) => {
                records.push(create_endpoint(kind, &element)?);
            }
            (Kind::Modification, ie::UPDATE_PDR) => records.push(update_pdr(&element)?),
            (Kind::Modification, ie::REMOVE_PDR) => records.push(remove_pdr(&element)?),
            (Kind::Modification, ie::REMOVE_ENDPOINT) => records.push(remove_endpoint(&element)?),
            (Kind::Modification, ie::UPDATE_ENDPOINT) => records.push(Record::UpdateEndpoint),
            (Kind::Establishment | Kind::Modification, ie::FQ_CSID) => {
                let record = fq_csid_record(at, body, &element)?;
                if let Record::FqCsid(read) = &record {
                    // "a node type repeated in one request, 69"
                    if !node_types.insert(read.node_type) {
                        return Err(at.repeated(&element));
                    }
                }
                records.push(record);
            }
            // "only 65 acted on [..] and a node type may come twice"
            (Kind::SetDeletion, ie::FQ_CSID) => {
                records.push(Record::FqCsid(fq_csid_of_set(at, &element)?));
            }
            // "Vendor, unknown and misplaced elements are skipped." So is the FQ-CSID of a deletion.
            _ => {}
        }
    }
    if kind == Kind::Establishment {
        // "Establishment needs 57, and 1 unless it is a restoration (H)."
        if !restoration {
            once.require(ie::CREATE_PDR)?;
        }
        once.require(ie::F_SEID)?;
    }
    Ok(Request { header: *header, f_seid, restoration, records })
}

/// Reads the value of an element; what it refuses is a fault of the part where the element stands.
type ValueReader<T> = fn(&[u8]) -> Result<T, Refusal>;

/// The elements of one part that have been met: for repeats and for missing ones.
struct Once {
    at: At,
    met: BTreeSet<u16>,
}

impl Once {
    fn new(at: At) -> Once {
        Once { at, met: BTreeSet::new() }
    }

    /// "A repeat of 57, 186 or a member within its group is 69 before its value is read."
    fn mark(&mut self, element: &Element) -> Result<(), Fault> {
        match self.met.insert(element.ie_type) {
            true => Ok(()),
            false => Err(self.at.repeated(element)),
        }
    }

    /// The value of an element that may stand there once.
    fn read<T>(&mut self, element: &Element, value: ValueReader<T>) -> Result<T, Fault> {
        self.mark(element)?;
        value(element.value).map_err(|refusal| self.at.refused(element, refusal))
    }

    /// Notes an element that may stand there several times.
    fn see(&mut self, ie_type: u16) {
        self.met.insert(ie_type);
    }

    fn has(&self, ie_type: u16) -> bool {
        self.met.contains(&ie_type)
    }

    fn require(&self, ie_type: u16) -> Result<(), Fault> {
        match self.has(ie_type) {
            true => Ok(()),
            false => Err(self.at.missing(ie_type)),
        }
    }
}

/// An FQ-CSID of this message, with the m that the message allows.
fn fq_csid_record(at: At, body: Part, element: &Element) -> Result<Record, Fault> {
    // "Null length in a modification removes all if it is the only FQ-CSID there, and is 68
    // otherwise." All elements 65 at top are counted, later and faulty ones too.
    if element.value.is_empty() && at.message == Kind::Modification {
        let count = elements(body).filter(|element| element.ie_type == ie::FQ_CSID).count();
        if count == 1 {
            return Ok(Record::RemoveAllFqCsids);
        }
    }
    let read = fq_csid::read(element.value).map_err(|r| at.refused(element, r))?;
    let m = read.csids.len();
    // "Establishment m = 1; modification m = 1 sets that node type, m = 0 [..] removes it"
    match m == 1 || (m == 0 && at.message == Kind::Modification) {
        true => Ok(Record::FqCsid(read)),
        false => Err(at.refused(element, Refusal::Bad(Bad::NumberOfCsids))),
    }
}

/// An FQ-CSID that names lost sessions: any m, but "m = 0 is 69".
fn fq_csid_of_set(at: At, element: &Element) -> Result<fq_csid::FqCsid, Fault> {
    let read = fq_csid::read(element.value).map_err(|r| at.refused(element, r))?;
    match read.is_removal() {
        true => Err(at.refused(element, Refusal::Bad(Bad::NumberOfCsids))),
        false => Ok(read),
    }
}

/// "Create and Update PDR 56, 29, 2, 108"; "Required: Create PDR 56, 29, 2".
fn create_pdr(message: Kind, group: &Element) -> Result<Record, Fault> {
    let at = At::inside(message, Place::CreatePdr, group);
    let mut once = Once::new(at);
    let (mut id, mut precedence, mut pdi, mut far_id) = (None, None, None, None);
    for element in elements(Part::inside(group)) {
        match element.ie_type {
            ie::PDR_ID => id = Some(once.read(&element, two_octets)?),
            ie::PRECEDENCE => precedence = Some(once.read(&element, four_octets)?),
            ie::PDI => {
                once.mark(&element)?;
                pdi = Some(read_pdi(message, &element)?);
            }
            ie::FAR_ID => far_id = Some(once.read(&element, four_octets)?),
            _ => {}
        }
    }
    // "Missing members are reported after a group's own, lowest type first"
    Ok(Record::CreatePdr {
        pdi: pdi.ok_or(at.missing(ie::PDI))?,
        precedence: precedence.ok_or(at.missing(ie::PRECEDENCE))?,
        id: id.ok_or(at.missing(ie::PDR_ID))?,
        far_id,
    })
}

/// "PDI 20, 21, 131", and 93 "stands last in a PDI"; "Required: [..] PDI 20".
fn read_pdi(message: Kind, group: &Element) -> Result<Pdi, Fault> {
    let at = At::inside(message, Place::PdiOfCreatePdr, group);
    let mut once = Once::new(at);
    let (mut source_interface, mut tunnel, mut endpoint, mut address) = (None, None, None, None);
    for element in elements(Part::inside(group)) {
        match element.ie_type {
            ie::SOURCE_INTERFACE => {
                // "Source Interface 20 (low 4 bits of 1)"
                source_interface = Some(once.read(&element, one_octet)? & 0x0F);
            }
            ie::F_TEID => tunnel = Some(once.read(&element, f_teid::read)?),
            ie::ENDPOINT_ID => endpoint = Some(once.read(&element, one_octet)?),
            ie::UE_IP_ADDRESS => address = Some(once.read(&element, ue_ip::read)?),
            _ => {}
        }
    }
    let source_interface = source_interface.ok_or(at.missing(ie::SOURCE_INTERFACE))?;
    Ok(Pdi { source_interface, f_teid: tunnel, endpoint, ue_ip: address })
}

/// "Create Endpoint 131, 21", both required, and 93.
fn create_endpoint(message: Kind, group: &Element) -> Result<Record, Fault> {
    let at = At::inside(message, Place::CreateEndpoint, group);
    let mut once = Once::new(at);
    let (mut id, mut tunnel, mut address) = (None, None, None);
    for element in elements(Part::inside(group)) {
        match element.ie_type {
            ie::ENDPOINT_ID => id = Some(once.read(&element, one_octet)?),
            ie::F_TEID => tunnel = Some(once.read(&element, f_teid::read_in_endpoint)?),
            ie::UE_IP_ADDRESS => address = Some(once.read(&element, ue_ip::read)?),
            _ => {}
        }
    }
    Ok(Record::CreateEndpoint {
        f_teid: tunnel.ok_or(at.missing(ie::F_TEID))?,
        id: id.ok_or(at.missing(ie::ENDPOINT_ID))?,
        ue_ip: address,
    })
}

/// "updates and removals their ID"
fn update_pdr(group: &Element) -> Result<Record, Fault> {
    let at = At::inside(Kind::Modification, Place::UpdatePdr, group);
    let mut once = Once::new(at);
    let (mut id, mut precedence, mut far) = (None, None, FarChange::Stays);
    for element in elements(Part::inside(group)) {
        match element.ie_type {
            ie::PDR_ID => id = Some(once.read(&element, two_octets)?),
            ie::PRECEDENCE => precedence = Some(once.read(&element, four_octets)?),
            // "PDI in Update PDR (framed in stage 2, its members not read)"
            ie::PDI => once.mark(&element)?,
            ie::FAR_ID => far = once.read(&element, far_change)?,
            _ => {}
        }
    }
    let id = id.ok_or(at.missing(ie::PDR_ID))?;
    Ok(Record::UpdatePdr { id, precedence, far, with_pdi: once.has(ie::PDI) })
}

fn remove_pdr(group: &Element) -> Result<Record, Fault> {
    let id = removed(Place::RemovePdr, group, ie::PDR_ID, two_octets)?;
    Ok(Record::RemovePdr { id })
}

fn remove_endpoint(group: &Element) -> Result<Record, Fault> {
    let id = removed(Place::RemoveEndpoint, group, ie::ENDPOINT_ID, one_octet)?;
    Ok(Record::RemoveEndpoint { id })
}

/// The ID in a removal, its only member.
fn removed<T>(
    place: Place,
    group: &Element,
    ie_type: u16,
    value: ValueReader<T>,
) -> Result<T, Fault> {
    let at = At::inside(Kind::Modification, place, group);
    let mut once = Once::new(at);
    let mut id = None;
    for element in elements(Part::inside(group)).filter(|element| element.ie_type == ie_type) {
        id = Some(once.read(&element, value)?);
    }
    id.ok_or(at.missing(ie_type))
}

// Values of a fixed size at the front of an element; "Octets past a value are ignored."

fn one_octet(value: &[u8]) -> Result<u8, Refusal> {
    value.first().copied().ok_or(too_short(value))
}

fn two_octets(value: &[u8]) -> Result<u16, Refusal> {
    let octets = value.first_chunk::<2>().ok_or(too_short(value))?;
    Ok(u16::from_be_bytes(*octets))
}

fn four_octets(value: &[u8]) -> Result<u32, Refusal> {
    front_u32(value).ok_or(too_short(value))
}

/// "a FAR ID of null length takes it away"
fn far_change(value: &[u8]) -> Result<FarChange, Refusal> {
    match value.is_empty() {
        true => Ok(FarChange::TakenAway),
        false => four_octets(value).map(FarChange::Set),
    }
}

fn too_short(value: &[u8]) -> Refusal {
    match value.is_empty() {
        true => Refusal::Empty,
        false => Refusal::Short,
    }
}
