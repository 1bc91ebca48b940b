//! F-SEID: "flags (bit 1 V6, bit 2 V4, at least one), SEID not 0, then the addresses, IPv4 first".
//! The two flag bits stand in the other order than in an F-TEID.

use super::{put, Bad, Refusal};

const V6: u8 = 1;
const V4: u8 = 2;

#[derive(Clone, Copy, PartialEq, Eq, Debug)]
pub struct FSeid {
    pub seid: u64,
    pub ipv4: Option<[u8; 4]>,
    pub ipv6: Option<[u8; 16]>,
}

/// Reads a value. "Order: empty 68; no family 69; short 68; SEID 0 69. Octets past a value are
/// ignored." Other bits of the flags are ignored.
pub fn read(value: &[u8]) -> Result<FSeid, Refusal> {
    let (&flags, rest) = value.split_first().ok_or(Refusal::Empty)?;
    if flags & (V4 | V6) == 0 {
        return Err(Refusal::Bad(Bad::NoFamily));
    }
    let (seid, mut rest) = rest.split_first_chunk::<8>().ok_or(Refusal::Short)?;
    let seid = u64::from_be_bytes(*seid);
    let mut ipv4 = None;
    if flags & V4 != 0 {
        let (address, after) = rest.split_first_chunk::<4>().ok_or(Refusal::Short)?;
        ipv4 = Some(*address);
        rest = after;
    }
    let mut ipv6 = None;
    if flags & V6 != 0 {
        ipv6 = Some(*rest.first_chunk::<16>().ok_or(Refusal::Short)?);
    }
    if seid == 0 {
        return Err(Refusal::Bad(Bad::NullSeid));
    }
    Ok(FSeid { seid, ipv4, ipv6 })
}

/// Writes a value; the length, or a refusal for no family, SEID 0 or too little space.
pub fn write(f_seid: &FSeid, space: &mut [u8]) -> Option<usize> {
    if f_seid.seid == 0 || (f_seid.ipv4.is_none() && f_seid.ipv6.is_none()) {
        return None;
    }
    let v4 = if f_seid.ipv4.is_some() { V4 } else { 0 };
    let v6 = if f_seid.ipv6.is_some() { V6 } else { 0 };
    let mut value = vec![v4 | v6];
    value.extend(f_seid.seid.to_be_bytes());
    value.extend(f_seid.ipv4.iter().flatten());
    value.extend(f_seid.ipv6.iter().flatten());
    put(&value, space)
}
