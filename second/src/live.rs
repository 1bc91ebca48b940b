//! The live set: "from the calls in turn, each with its message, outcome and reply, and never from
//! the table"; with 02 (xiv) it is read "over the pairs of peer and SEID, each request with its peer".
//! Nothing here looks at a unit or its settings.

use std::collections::BTreeMap;
use std::net::Ipv4Addr;

use crate::element::f_teid::{self, FTeid};
use crate::element::ue_ip::{self, UeIp};
use crate::ie;
use crate::request::framing::{elements, Part};
use crate::request::{self, FarChange, Kind, Record, Request};
use crate::session::{Endpoint, HeldCsid, Key, Local, Pdr, Session, Sessions, Tunnel};
use crate::settings::named_peer;

#[derive(Clone, PartialEq, Eq, Debug, Default)]
pub struct LiveSet {
    pub sessions: Sessions,
}

/// What a reply says: its cause, and what its Created groups list.
struct Said {
    cause: Option<u8>,
    pdrs: BTreeMap<u16, Created>,
    endpoints: BTreeMap<u8, Created>,
}

/// What was chosen for a record.
#[derive(Clone, Copy, Default)]
struct Created {
    teid: Option<u32>,
    address: Option<Ipv4Addr>,
}

impl LiveSet {
    /// "At first it is empty."
    pub fn new() -> LiveSet {
        LiveSet::default()
    }

    /// Follows one call of a peer. An accepted call whose message or reply cannot be followed is an
    /// error and changes nothing; it tells of a fault in whoever replied.
    pub fn follow(
        &mut self,
        peer: u32,
        message: &[u8],
        outcome: u8,
        reply: &[u8],
    ) -> Result<(), String> {
        // "A request is accepted when its outcome is 0 and its reply's cause 1; any other, and a
        // free count, changes nothing."
        if outcome != 0 {
            return Ok(());
        }
        let said = hear(reply)?;
        if said.cause != Some(1) {
            return Ok(());
        }
        let peer = named_peer(peer).ok_or("accepted for no peer")?;
        let header = request::header::test(message).map_err(|n| format!("outcome {n} accepted"))?;
        let named = Key { peer, seid: header.seid };
        let request = request::read(&header, message)
            .map_err(|fault| format!("accepted with a fault of cause {}", fault.cause))?;
        match header.kind {
            Kind::Establishment => {
                let seid = request.f_seid.as_ref().ok_or("accepted without an F-SEID")?.seid;
                let session = changed(Session::default(), &request, &said)?;
                self.sessions.insert(Key { peer, seid }, session);
            }
            Kind::Modification => {
                let session = self.sessions.get(&named).ok_or("accepted for no session")?;
                let session = changed(session.clone(), &request, &said)?;
                self.sessions.insert(named, session);
            }
            Kind::Deletion => {
                self.sessions.remove(&named).ok_or("accepted for no session")?;
            }
            Kind::SetDeletion => self.lose(peer, &request),
        }
        Ok(())
    }

    /// "the live set loses every match" of the peer's: what holds one of the CSIDs of a listed node, one
    /// by one.
    fn lose(&mut self, peer: u8, request: &Request) {
        for record in &request.records {
            let Record::FqCsid(listed) = record else { continue };
            for &csid in &listed.csids {
                let lost = HeldCsid { node: listed.node, csid };
                let stays = |s: &Session| s.fq_csids.get(&listed.node_type) != Some(&lost);
                self.sessions.retain(|key, session| key.peer != peer || stays(session));
            }
        }
    }
}

/// Reads a reply's cause and Created groups.
fn hear(reply: &[u8]) -> Result<Said, String> {
    let octets = ie::header_octets(reply);
    let body = reply.get(octets..).ok_or(format!("a reply under {octets} octets"))?;
    let mut said = Said { cause: None, pdrs: BTreeMap::new(), endpoints: BTreeMap::new() };
    for element in elements(Part::of(body)) {
        match element.ie_type {
            ie::CAUSE => said.cause = element.value.first().copied(),
            ie::CREATED_PDR => {
                let id = member(element.value, ie::PDR_ID)?;
                let id = id.try_into().map_err(|_| "a Created PDR's ID is not two octets")?;
                said.pdrs.insert(u16::from_be_bytes(id), created(element.value)?);
            }
            ie::CREATED_ENDPOINT => {
                let id = member(element.value, ie::ENDPOINT_ID)?;
                let id = *id.first().ok_or("a Created Endpoint's ID is empty")?;
                said.endpoints.insert(id, created(element.value)?);
            }
            _ => {}
        }
    }
    Ok(said)
}

fn member(group: &[u8], ie_type: u16) -> Result<&[u8], String> {
    let found = elements(Part::of(group)).find(|element| element.ie_type == ie_type);
    found.map(|element| element.value).ok_or(format!("a Created group without {ie_type}"))
}

fn created(group: &[u8]) -> Result<Created, String> {
    let mut created = Created::default();
    for element in elements(Part::of(group)) {
        match element.ie_type {
            ie::F_TEID => match f_teid::read(element.value) {
                Ok(FTeid::Given { teid, .. }) => created.teid = Some(teid),
                other => return Err(format!("a Created group with {other:?}")),
            },
            ie::UE_IP_ADDRESS => match ue_ip::read(element.value) {
                Ok(UeIp::Given(address)) => created.address = Some(address),
                other => return Err(format!("a Created group with {other:?}")),
            },
            _ => {}
        }
    }
    Ok(created)
}

/// A session after an accepted request: "takes out what it removes, adds what it creates, then
/// makes its updates and follows its FQ-CSIDs". A removed endpoint takes out the PDRs that name it,
/// after those that the request names itself.
fn changed(mut session: Session, request: &Request, said: &Said) -> Result<Session, String> {
    for record in &request.records {
        if let Record::RemovePdr { id } = record {
            session.pdrs.remove(id).ok_or(format!("removed PDR {id} was not live"))?;
        }
    }
    for record in &request.records {
        if let Record::RemoveEndpoint { id } = record {
            let was = session.endpoints.remove(id);
            was.ok_or(format!("removed endpoint {id} was not live"))?;
            session.pdrs.retain(|_, pdr| pdr.local != Local::Endpoint(*id));
        }
    }
    for record in &request.records {
        match record {
            Record::CreatePdr { id, precedence, pdi, far_id } => {
                let from_reply = said.pdrs.get(id).copied().unwrap_or_default();
                let mut local = Local::Neither;
                if let Some(endpoint) = pdi.endpoint {
                    local = Local::Endpoint(endpoint);
                }
                if let Some(f_teid) = &pdi.f_teid {
                    local = Local::Tunnel(tunnel(f_teid, from_reply.teid)?);
                }
                let pdr = Pdr {
                    precedence: *precedence,
                    far_id: *far_id,
                    source_interface: pdi.source_interface,
                    local,
                    address: address(pdi.ue_ip, from_reply.address)?,
                };
                session.pdrs.insert(*id, pdr);
            }
            Record::CreateEndpoint { id, f_teid, ue_ip } => {
                let from_reply = said.endpoints.get(id).copied().unwrap_or_default();
                let tunnel = tunnel(f_teid, from_reply.teid)?;
                let address = address(*ue_ip, from_reply.address)?;
                session.endpoints.insert(*id, Endpoint { tunnel, address });
            }
            _ => {}
        }
    }
    for record in &request.records {
        match record {
            Record::UpdatePdr { id, precedence, far, .. } => {
                let pdr = session.pdrs.get_mut(id).ok_or(format!("updated PDR {id} not live"))?;
                pdr.precedence = precedence.unwrap_or(pdr.precedence);
                pdr.far_id = match far {
                    FarChange::Stays => pdr.far_id,
                    FarChange::Set(far_id) => Some(*far_id),
                    FarChange::TakenAway => None,
                };
            }
            Record::RemoveAllFqCsids => session.fq_csids = BTreeMap::new(),
            Record::FqCsid(fq_csid) if fq_csid.is_removal() => {
                session.fq_csids.remove(&fq_csid.node_type);
            }
            Record::FqCsid(fq_csid) => {
                let held = HeldCsid { node: fq_csid.node, csid: fq_csid.csids[0] };
                session.fq_csids.insert(fq_csid.node_type, held);
            }
            _ => {}
        }
    }
    Ok(session)
}

/// "A record's families are the request's, and so is a TEID without CH; with CH it is the one in
/// the reply's Created group of that kind and ID."
fn tunnel(f_teid: &FTeid, from_reply: Option<u32>) -> Result<Tunnel, String> {
    let families = f_teid.families();
    match f_teid {
        FTeid::Given { teid, .. } => Ok(Tunnel { teid: *teid, families }),
        FTeid::Choose { .. } => {
            let teid = from_reply.ok_or("a CHOOSE without its Created group")?;
            Ok(Tunnel { teid, families })
        }
    }
}

/// "The live set has the address given, or where one was chosen the one in the record's Created
/// group."
fn address(asked: Option<UeIp>, from_reply: Option<Ipv4Addr>) -> Result<Option<Ipv4Addr>, String> {
    match (asked, from_reply) {
        (None, None) => Ok(None),
        (Some(UeIp::Given(address)), None) => Ok(Some(address)),
        (Some(UeIp::Choose), Some(address)) => Ok(Some(address)),
        _ => Err(format!("{asked:?} asked for, {from_reply:?} in its Created group")),
    }
}
