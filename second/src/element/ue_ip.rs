//! UE IP Address, clause 8.2.62 and document 02 (v), for IPv4.

use std::net::Ipv4Addr;

use super::{put, Bad, Refusal};

const V6: u8 = 1;
const V4: u8 = 2;
const IPV6D: u8 = 8;
const CHV4: u8 = 16;
const CHV6: u8 = 32;
const IP6PL: u8 = 64;

#[derive(Clone, Copy, PartialEq, Eq, Debug)]
pub enum UeIp {
    /// V4: an address of the control plane's, or a restored one.
    Given(Ipv4Addr),
    /// CHV4: "the lowest free at entry".
    Choose,
    /// "V6, CHV6, IPv6D or IP6PL 76, in stage 4, no more read".
    NotServed,
}

/// Reads a value. "Order: empty 68; V6, CHV6, IPv6D or IP6PL 76 [..]; not just one of V4, CHV4 69;
/// short 68; S/D and bit 8 ignored".
pub fn read(value: &[u8]) -> Result<UeIp, Refusal> {
    let (&flags, rest) = value.split_first().ok_or(Refusal::Empty)?;
    if flags & (V6 | CHV6 | IPV6D | IP6PL) != 0 {
        return Ok(UeIp::NotServed);
    }
    match (flags & V4 != 0, flags & CHV4 != 0) {
        (true, false) => {
            let address = rest.first_chunk::<4>().ok_or(Refusal::Short)?;
            Ok(UeIp::Given(Ipv4Addr::from(*address)))
        }
        (false, true) => Ok(UeIp::Choose),
        (true, true) => Err(Refusal::Bad(Bad::AddressAndChoose)),
        (false, false) => Err(Refusal::Bad(Bad::NoAddress)),
    }
}

/// Writes a value; the length, or a refusal for one that is not served or for too little space.
pub fn write(ue_ip: &UeIp, space: &mut [u8]) -> Option<usize> {
    match ue_ip {
        UeIp::Given(address) => {
            let [a, b, c, d] = address.octets();
            put(&[V4, a, b, c, d], space)
        }
        UeIp::Choose => put(&[CHV4], space),
        UeIp::NotServed => None,
    }
}
