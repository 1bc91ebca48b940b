//! What a request asks for, as read: its records in request order.

use super::Header;
use crate::element::f_seid::FSeid;
use crate::element::f_teid::FTeid;
use crate::element::fq_csid::FqCsid;
use crate::element::ue_ip::UeIp;

#[derive(Clone, PartialEq, Eq, Debug)]
pub struct Pdi {
    pub source_interface: u8,
    pub f_teid: Option<FTeid>,
    pub endpoint: Option<u8>,
    pub ue_ip: Option<UeIp>,
}

/// "An Update PDR replaces precedence or FAR ID; a FAR ID of null length takes it away."
#[derive(Clone, Copy, PartialEq, Eq, Debug)]
pub enum FarChange {
    Stays,
    Set(u32),
    TakenAway,
}

#[derive(Clone, PartialEq, Eq, Debug)]
pub enum Record {
    CreatePdr {
        id: u16,
        precedence: u32,
        pdi: Pdi,
        far_id: Option<u32>,
    },
    CreateEndpoint {
        id: u8,
        f_teid: FTeid,
        ue_ip: Option<UeIp>,
    },
    /// `with_pdi`: a PDI stands in it; its members are not read.
    UpdatePdr {
        id: u16,
        precedence: Option<u32>,
        far: FarChange,
        with_pdi: bool,
    },
    RemovePdr {
        id: u16,
    },
    RemoveEndpoint {
        id: u8,
    },
    /// Element 129, not opened.
    UpdateEndpoint,
    FqCsid(FqCsid),
    /// The FQ-CSID of null length: "removes all".
    RemoveAllFqCsids,
}

#[derive(Clone, PartialEq, Eq, Debug)]
pub struct Request {
    pub header: Header,
    /// An establishment always has it, the others never do.
    pub f_seid: Option<FSeid>,
    pub restoration: bool,
    pub records: Vec<Record>,
}

impl Request {
    /// The F-TEIDs of the request in request order, with the source interface of those in a PDI.
    pub fn f_teids(&self) -> impl Iterator<Item = (&FTeid, Option<u8>)> {
        self.records.iter().filter_map(|record| match record {
            Record::CreatePdr { pdi, .. } => {
                pdi.f_teid.as_ref().map(|f_teid| (f_teid, Some(pdi.source_interface)))
            }
            Record::CreateEndpoint { f_teid, .. } => Some((f_teid, None)),
            _ => None,
        })
    }

    /// The UE IP Addresses of the request in request order, and whether each stands in a PDI.
    pub fn ue_ips(&self) -> impl Iterator<Item = (UeIp, bool)> + '_ {
        self.records.iter().filter_map(|record| match record {
            Record::CreatePdr { pdi, .. } => pdi.ue_ip.map(|ue_ip| (ue_ip, true)),
            Record::CreateEndpoint { ue_ip, .. } => ue_ip.map(|ue_ip| (ue_ip, false)),
            _ => None,
        })
    }

    /// Whether some record has the unit choose its address.
    pub fn chooses_address(&self) -> bool {
        self.ue_ips().any(|(ue_ip, _)| ue_ip == UeIp::Choose)
    }
}
