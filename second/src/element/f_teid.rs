//! F-TEID, clause 8.2.3 and document 01 "F-TEID".

use super::{front_u32, put, Bad, Refusal};
use crate::session::Families;

const V4: u8 = 1;
const V6: u8 = 2;
const CH: u8 = 4;
const CHID: u8 = 8;

#[derive(Clone, Copy, PartialEq, Eq, Debug)]
pub enum FTeid {
    /// "Without CH: TEID (4), IPv4 (4) if V4, IPv6 (16) if V6."
    Given { teid: u32, ipv4: Option<[u8; 4]>, ipv6: Option<[u8; 16]> },
    /// "With CH: only the CHOOSE ID (1) if CHID."
    Choose { families: Families, choose_id: Option<u8> },
}

impl FTeid {
    pub fn families(&self) -> Families {
        match self {
            FTeid::Given { ipv4, ipv6, .. } => Families { v4: ipv4.is_some(), v6: ipv6.is_some() },
            FTeid::Choose { families, .. } => *families,
        }
    }
}

/// Reads the F-TEID of a PDI. "Order: empty 68; wrong flags 69; short 68."
pub fn read(value: &[u8]) -> Result<FTeid, Refusal> {
    read_at(value, false)
}

/// Reads the F-TEID of an endpoint. "In an endpoint CHID is a wrong flag (H)."
pub fn read_in_endpoint(value: &[u8]) -> Result<FTeid, Refusal> {
    read_at(value, true)
}

fn read_at(value: &[u8], in_endpoint: bool) -> Result<FTeid, Refusal> {
    let (&flags, rest) = value.split_first().ok_or(Refusal::Empty)?;
    let families = Families { v4: flags & V4 != 0, v6: flags & V6 != 0 };
    let choose = flags & CH != 0;
    let with_id = flags & CHID != 0;
    if families.none() {
        return Err(Refusal::Bad(Bad::NoFamily));
    }
    if with_id && !choose {
        return Err(Refusal::Bad(Bad::ChooseIdWithoutChoose));
    }
    if with_id && in_endpoint {
        return Err(Refusal::Bad(Bad::ChooseIdInEndpoint));
    }
    if choose {
        let choose_id = match with_id {
            true => Some(*rest.first().ok_or(Refusal::Short)?),
            false => None,
        };
        return Ok(FTeid::Choose { families, choose_id });
    }
    let teid = front_u32(rest).ok_or(Refusal::Short)?;
    let mut rest = &rest[4..];
    let mut ipv4 = None;
    if families.v4 {
        let (address, after) = rest.split_first_chunk::<4>().ok_or(Refusal::Short)?;
        ipv4 = Some(*address);
        rest = after;
    }
    let mut ipv6 = None;
    if families.v6 {
        ipv6 = Some(*rest.first_chunk::<16>().ok_or(Refusal::Short)?);
    }
    Ok(FTeid::Given { teid, ipv4, ipv6 })
}

/// Writes a value; the length, or a refusal for a value without a family or for too little space.
pub fn write(f_teid: &FTeid, space: &mut [u8]) -> Option<usize> {
    let families = f_teid.families();
    if families.none() {
        return None;
    }
    // "high four ignored and written 0"
    let mut flags = if families.v4 { V4 } else { 0 } | if families.v6 { V6 } else { 0 };
    let mut value = Vec::with_capacity(25);
    match f_teid {
        FTeid::Given { teid, ipv4, ipv6 } => {
            value.push(flags);
            value.extend(teid.to_be_bytes());
            value.extend(ipv4.iter().flatten());
            value.extend(ipv6.iter().flatten());
        }
        FTeid::Choose { choose_id, .. } => {
            flags |= CH | if choose_id.is_some() { CHID } else { 0 };
            value.push(flags);
            value.extend(choose_id);
        }
    }
    put(&value, space)
}
