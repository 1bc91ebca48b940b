//! "Header of 16 octets: octet 1 has version 1 in bits 8-6, FO bit 3, S bit 1; then type, length
//! (octets after the fourth), SEID (8), sequence (3), one spare." That of a set deletion has no
//! SEID.

use super::Kind;
use crate::ie::{HEADER_OCTETS, LARGEST_MESSAGE, PLAIN_HEADER_OCTETS};

#[derive(Clone, Copy, PartialEq, Eq, Debug)]
pub struct Header {
    pub kind: Kind,
    /// 0 where the header has none.
    pub seid: u64,
    /// 24 bits.
    pub sequence: u32,
}

/// The header of a served message, or the host outcome 3, 4 or 5, tested in this order.
pub fn test(message: &[u8]) -> Result<Header, u8> {
    if message.len() > LARGEST_MESSAGE {
        return Err(3);
    }
    let Some(front) = message.first_chunk::<PLAIN_HEADER_OCTETS>() else {
        return Err(4);
    };
    // "Type 14 needs S = 0 and at least 8 octets; every other type keeps 01's frame rule." That is
    // "S must be 1, FO 0, the length exact. Other bits are ignored".
    let kind = Kind::of(front[1]);
    let plain = kind == Some(Kind::SetDeletion);
    let version = front[0] >> 5;
    let forward = front[0] & 0b100 != 0;
    let with_seid = front[0] & 0b1 != 0;
    let length = usize::from(u16::from_be_bytes([front[2], front[3]]));
    if version != 1 || forward || with_seid == plain || length != message.len() - 4 {
        return Err(4);
    }
    let number = |octets: &[u8]| octets.iter().fold(0, |sum, octet| sum << 8 | u64::from(*octet));
    let (seid, sequence) = match plain {
        true => (0, &front[4..7]),
        false => {
            let header = message.first_chunk::<HEADER_OCTETS>().ok_or(4_u8)?;
            (number(&header[4..12]), &header[12..15])
        }
    };
    Ok(Header { kind: kind.ok_or(5_u8)?, seid, sequence: number(sequence) as u32 })
}
