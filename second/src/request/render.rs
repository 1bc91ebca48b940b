//! A fixed plain-text rendering of a read request, one line, for comparing readers.
//!
//! The line is the request's head and then its records in request order, parted by ` | `:
//!
//! ```text
//! establishment header=SEID sequence=N seid=SEID v4=ADDR v6=ADDR restoration=0
//! modification header=SEID sequence=N
//! deletion header=SEID sequence=N
//! set-deletion sequence=N
//! ```
//!
//! and the records
//!
//! ```text
//! create-pdr id=N precedence=N source=N f-teid=TUNNEL endpoint=N address=PATIENT far=N
//! create-endpoint id=N f-teid=TUNNEL address=PATIENT
//! update-pdr id=N precedence=N far=N pdi=0
//! remove-pdr id=N
//! remove-endpoint id=N
//! update-endpoint
//! fq-csid node=NODE csids=N,N node-type=N
//! fq-csid-removal node-type=N
//! fq-csid-removal-all
//! ```
//!
//! N is a decimal number; SEID is 16 and ADDR 8 or 32 hexadecimal digits in upper case. A value
//! that is absent is `-`; a FAR ID that an update takes away is `none`; a 1 stands for yes. TUNNEL
//! is `given:N:ADDR:ADDR` (TEID, IPv4, IPv6) or `choose:FAMILIES:N` (CHOOSE ID), with FAMILIES one
//! of `4`, `6`, `46`. PATIENT is an ADDR of 8 digits, `choose`, or `other` for one that is not served. NODE is `0:ADDR`, `1:ADDR` or `2:N:N` (MCC x 1000 + MNC, operator's number).

use std::fmt::Write;

use super::{FarChange, Kind, Record, Request};
use crate::element::f_teid::FTeid;
use crate::element::fq_csid::NodeId;
use crate::element::ue_ip::UeIp;

pub fn render(request: &Request) -> String {
    let mut line = String::new();
    let header = &request.header;
    let with_seid = |name: &str| format!("{name} header={:016X}", header.seid);
    let name = match header.kind {
        Kind::Establishment => with_seid("establishment"),
        Kind::Modification => with_seid("modification"),
        Kind::Deletion => with_seid("deletion"),
        Kind::SetDeletion => "set-deletion".to_string(),
    };
    write!(line, "{name} sequence={}", header.sequence).unwrap();
    if let Some(f_seid) = &request.f_seid {
        let restoration = u8::from(request.restoration);
        let (v4, v6) = (address(&f_seid.ipv4), address(&f_seid.ipv6));
        write!(line, " seid={:016X} v4={v4} v6={v6} restoration={restoration}", f_seid.seid)
            .unwrap();
    }
    for record in &request.records {
        line.push_str(" | ");
        line.push_str(&render_record(record));
    }
    line
}

fn render_record(record: &Record) -> String {
    match record {
        Record::CreatePdr { id, precedence, pdi, far_id } => {
            let tunnel = pdi.f_teid.as_ref().map_or("-".to_string(), render_tunnel);
            let (source, far) = (pdi.source_interface, optional(*far_id));
            let address = render_ue_ip(pdi.ue_ip);
            let local =
                format!("f-teid={tunnel} endpoint={} address={address}", optional(pdi.endpoint));
            format!("create-pdr id={id} precedence={precedence} source={source} {local} far={far}")
        }
        Record::CreateEndpoint { id, f_teid, ue_ip } => {
            let (tunnel, address) = (render_tunnel(f_teid), render_ue_ip(*ue_ip));
            format!("create-endpoint id={id} f-teid={tunnel} address={address}")
        }
        Record::UpdatePdr { id, precedence, far, with_pdi } => {
            let far = match far {
                FarChange::Stays => "-".to_string(),
                FarChange::Set(far_id) => far_id.to_string(),
                FarChange::TakenAway => "none".to_string(),
            };
            let precedence = optional(*precedence);
            format!(
                "update-pdr id={id} precedence={precedence} far={far} pdi={}",
                u8::from(*with_pdi)
            )
        }
        Record::RemovePdr { id } => format!("remove-pdr id={id}"),
        Record::RemoveEndpoint { id } => format!("remove-endpoint id={id}"),
        Record::UpdateEndpoint => "update-endpoint".to_string(),
        Record::FqCsid(fq_csid) if fq_csid.is_removal() => {
            format!("fq-csid-removal node-type={}", fq_csid.node_type)
        }
        Record::FqCsid(fq_csid) => {
            let csids: Vec<String> = fq_csid.csids.iter().map(|csid| csid.to_string()).collect();
            let node = match &fq_csid.node {
                NodeId::Ipv4(octets) => format!("0:{}", hexadecimal(octets)),
                NodeId::Ipv6(octets) => format!("1:{}", hexadecimal(octets)),
                NodeId::Operator { country_and_network, number } => {
                    format!("2:{country_and_network}:{number}")
                }
            };
            format!("fq-csid node={node} csids={} node-type={}", csids.join(","), fq_csid.node_type)
        }
        Record::RemoveAllFqCsids => "fq-csid-removal-all".to_string(),
    }
}

fn render_tunnel(f_teid: &FTeid) -> String {
    match f_teid {
        FTeid::Given { teid, ipv4, ipv6 } => {
            format!("given:{teid}:{}:{}", address(ipv4), address(ipv6))
        }
        FTeid::Choose { families, choose_id } => {
            let v4 = if families.v4 { "4" } else { "" };
            let v6 = if families.v6 { "6" } else { "" };
            format!("choose:{v4}{v6}:{}", optional(*choose_id))
        }
    }
}

fn render_ue_ip(ue_ip: Option<UeIp>) -> String {
    match ue_ip {
        None => "-".to_string(),
        Some(UeIp::Given(address)) => hexadecimal(&address.octets()),
        Some(UeIp::Choose) => "choose".to_string(),
        Some(UeIp::NotServed) => "other".to_string(),
    }
}

fn optional<T: ToString>(value: Option<T>) -> String {
    value.map_or("-".to_string(), |value| value.to_string())
}

fn address<const N: usize>(value: &Option<[u8; N]>) -> String {
    value.as_ref().map_or("-".to_string(), |octets| hexadecimal(octets))
}

fn hexadecimal(octets: &[u8]) -> String {
    octets.iter().map(|octet| format!("{octet:02X}")).collect()
}
