//! From a captured packet to the UDP datagram in it: link, IPv4 or IPv6, UDP; fragments are put together.

use std::collections::BTreeMap;
use std::net::{IpAddr, Ipv4Addr, Ipv6Addr, SocketAddr};

use crate::capture::Packet;

#[derive(Clone, PartialEq, Eq, Debug)]
pub struct Datagram {
    pub from: SocketAddr,
    pub to: SocketAddr,
    pub octets: Vec<u8>,
}

/// What a packet holds.
#[derive(Clone, PartialEq, Eq, Debug)]
pub enum Content {
    Datagram(Datagram),
    /// Nothing of UDP.
    Other,
    /// A piece of a datagram of which others are not here yet.
    Fragment,
    /// The snap length has cut it; its ports, where they can be seen.
    Cut(Option<(SocketAddr, SocketAddr)>),
    /// Its check sums or lengths are wrong, as after damage: whoever gets it drops it.
    Damaged,
    /// Its link type is not one of those that are read.
    UnknownLink,
}

const IPV4: u16 = 0x0800;
const IPV6: u16 = 0x86DD;
const VLAN: [u16; 3] = [0x8100, 0x88A8, 0x9100];
const UDP: u8 = 17;

/// The link types that are read, as tcpdump.org numbers them.
pub const NULL: u32 = 0;
pub const ETHERNET: u32 = 1;
pub const RAW: [u32; 5] = [12, 14, 101, 228, 229];
pub const LOOP: u32 = 108;
pub const LINUX_COOKED: u32 = 113;
pub const LINUX_COOKED_2: u32 = 276;

/// Octets that are needed and were not captured, or not sent.
struct Short;

/// What stands behind a link's header: the octets of IP, the kind of protocol, whether more was on the wire.
fn behind_link(packet: &Packet) -> Result<Option<(u16, &[u8])>, Content> {
    let octets = &packet.octets[..];
    let cut = if octets.len() < packet.length { Content::Cut(None) } else { Content::Other };
    let (protocol_at, behind) = match packet.link {
        ETHERNET => (12, 14),
        LINUX_COOKED => (14, 16),
        LINUX_COOKED_2 => (0, 20),
        NULL | LOOP => {
            // The address family's number is the capturing system's, in its order of octets; the version of IP
            // tells them apart.
            return Ok(octets.get(4..).and_then(|ip| Some((ip_protocol(ip)?, ip))));
        }
        link if RAW.contains(&link) => {
            return Ok(ip_protocol(octets).map(|protocol| (protocol, octets)));
        }
        _ => return Err(Content::UnknownLink),
    };
    let mut protocol = two(octets, protocol_at).ok_or(cut.clone())?;
    let mut rest = octets.get(behind..).ok_or(cut.clone())?;
    while VLAN.contains(&protocol) {
        protocol = two(rest, 2).ok_or(cut.clone())?;
        rest = rest.get(4..).ok_or(cut.clone())?;
    }
    Ok(Some((protocol, rest)))
}

fn ip_protocol(ip: &[u8]) -> Option<u16> {
    match ip.first()? >> 4 {
        4 => Some(IPV4),
        6 => Some(IPV6),
        _ => None,
    }
}

fn two(octets: &[u8], at: usize) -> Option<u16> {
    octets.get(at..)?.first_chunk().map(|pair| u16::from_be_bytes(*pair))
}

/// Whose piece a fragment is.
type Whole = (IpAddr, IpAddr, u32, u8);

/// Pieces of datagrams, by their place in them.
#[derive(Default)]
struct Pieces {
    parts: BTreeMap<usize, Vec<u8>>,
    /// Where the last piece ends, once it is here.
    end: Option<usize>,
    /// The packet that had the first of them.
    number: u64,
    overlap: bool,
}

/// A datagram that could not be put together.
#[derive(Clone, PartialEq, Eq, Debug)]
pub struct Incomplete {
    /// The packet with the piece that came first.
    pub number: u64,
    pub from: IpAddr,
    pub to: IpAddr,
    /// Its ports, where the piece that has them is here.
    pub ports: Option<(u16, u16)>,
}

impl Pieces {
    fn described(&self, whole: &Whole) -> Incomplete {
        let first = self.parts.get(&0);
        let ports = first.and_then(|part| Some((two(part, 0)?, two(part, 2)?)));
        Incomplete { number: self.number, from: whole.0, to: whole.1, ports }
    }

    /// The whole, once every piece is here.
    fn whole(&self) -> Option<Vec<u8>> {
        let end = self.end?;
        let mut octets = Vec::new();
        for (at, part) in &self.parts {
            if *at != octets.len() {
                return None;
            }
            octets.extend(part);
        }
        (octets.len() == end).then_some(octets)
    }
}

/// Reads packets, and keeps the fragments that wait for others.
#[derive(Default)]
pub struct Datagrams {
    waiting: BTreeMap<Whole, Pieces>,
    /// Datagrams that were given up, since pieces overlap.
    given_up: Vec<Incomplete>,
    pub put_together: usize,
}

/// An IP packet's payload.
struct Payload<'a> {
    from: IpAddr,
    to: IpAddr,
    protocol: u8,
    octets: &'a [u8],
    /// Octets of it that were not captured.
    lacks: bool,
}

impl Datagrams {
    pub fn read(&mut self, packet: &Packet) -> Content {
        let (protocol, ip) = match behind_link(packet) {
            Ok(Some(found)) => found,
            Ok(None) => return Content::Other,
            Err(content) => return content,
        };
        let is_cut = packet.octets.len() < packet.length;
        let read = match protocol {
            IPV4 => self.ipv4(packet.number, ip, is_cut),
            IPV6 => self.ipv6(packet.number, ip, is_cut),
            _ => return Content::Other,
        };
        match read {
            Ok(content) => content,
            Err(Short) if is_cut => Content::Cut(None),
            Err(Short) => Content::Damaged,
        }
    }

    /// The datagrams of which pieces are not in the capture, or contradict each other.
    pub fn incomplete(&self) -> Vec<Incomplete> {
        let waiting = self.waiting.iter().map(|(whole, pieces)| pieces.described(whole));
        let mut all: Vec<Incomplete> = waiting.chain(self.given_up.iter().cloned()).collect();
        all.sort_by_key(|one| one.number);
        all
    }

    fn ipv4(&mut self, number: u64, ip: &[u8], is_cut: bool) -> Result<Content, Short> {
        let header = ip.first_chunk::<20>().ok_or(Short)?;
        let header_length = usize::from(header[0] & 15) * 4;
        let length = usize::from(u16::from_be_bytes([header[2], header[3]]));
        if header[0] >> 4 != 4 || header_length < 20 || length < header_length {
            return Ok(Content::Damaged);
        }
        let whole_header = ip.get(..header_length).ok_or(Short)?;
        // 0: left to the card, which fills it in after the capture.
        if header[10..12] != [0, 0] && folded(sum(whole_header)) != 0xFFFF {
            return Ok(Content::Damaged);
        }
        if ip.len() < length && !is_cut {
            return Ok(Content::Damaged);
        }
        let octets = &ip[header_length..length.min(ip.len())];
        let address =
            |at: usize| Ipv4Addr::new(header[at], header[at + 1], header[at + 2], header[at + 3]);
        let payload = Payload {
            from: address(12).into(),
            to: address(16).into(),
            protocol: header[9],
            octets,
            lacks: ip.len() < length,
        };
        let place = u16::from_be_bytes([header[6], header[7]]);
        let (more, at) = (place & 0x2000 != 0, usize::from(place & 0x1FFF) * 8);
        let identification = u16::from_be_bytes([header[4], header[5]]).into();
        if more || at > 0 {
            return Ok(self.fragment(number, payload, identification, at, more));
        }
        Ok(udp(&payload))
    }

    fn ipv6(&mut self, number: u64, ip: &[u8], is_cut: bool) -> Result<Content, Short> {
        let header = ip.first_chunk::<40>().ok_or(Short)?;
        let length = usize::from(u16::from_be_bytes([header[4], header[5]]));
        if header[0] >> 4 != 6 {
            return Ok(Content::Damaged);
        }
        let captured = ip.len() - 40;
        if captured < length && !is_cut {
            return Ok(Content::Damaged);
        }
        let mut octets = &ip[40..40 + length.min(captured)];
        let address = |at: usize| {
            let octets: [u8; 16] = header[at..at + 16].try_into().expect("16 octets");
            IpAddr::from(Ipv6Addr::from(octets))
        };
        let (from, to) = (address(8), address(24));
        let mut protocol = header[6];
        let mut piece = None;
        // Headers between: each is at least 8 octets long, so this ends.
        while let 0 | 43 | 44 | 60 = protocol {
            let extension = octets.first_chunk::<8>().ok_or(Short)?;
            let next = extension[0];
            if protocol == 44 {
                let place = u16::from_be_bytes([extension[2], extension[3]]);
                let identification =
                    u32::from_be_bytes([extension[4], extension[5], extension[6], extension[7]]);
                let at = usize::from(place & 0xFFF8);
                if place & 1 != 0 || at > 0 {
                    piece = Some((identification, at, place & 1 != 0));
                }
                octets = &octets[8..];
            } else {
                octets = octets.get(8 + usize::from(extension[1]) * 8..).ok_or(Short)?;
            }
            protocol = next;
            if piece.is_some() {
                break;
            }
        }
        let payload = Payload { from, to, protocol, octets, lacks: captured < length };
        Ok(match piece {
            Some((identification, at, more)) => {
                self.fragment(number, payload, identification, at, more)
            }
            None => udp(&payload),
        })
    }

    fn fragment(
        &mut self,
        number: u64,
        payload: Payload,
        identification: u32,
        at: usize,
        more: bool,
    ) -> Content {
        if payload.protocol != UDP {
            return Content::Other;
        }
        if payload.lacks {
            return Content::Cut(None);
        }
        let end = at + payload.octets.len();
        if end > 65_535 || (more && payload.octets.len() % 8 != 0) {
            return Content::Damaged;
        }
        let whole: Whole = (payload.from, payload.to, identification, payload.protocol);
        let pieces = self.waiting.entry(whole).or_default();
        if pieces.number == 0 {
            pieces.number = number;
        }
        if !more {
            pieces.overlap |= pieces.end.is_some_and(|known| known != end);
            pieces.end = Some(end);
        }
        match pieces.parts.get(&at) {
            Some(known) => pieces.overlap |= known != payload.octets,
            None => {
                let before = pieces.parts.range(..at).next_back();
                let after = pieces.parts.range(at..).next();
                pieces.overlap |= before.is_some_and(|(from, part)| from + part.len() > at)
                    || after.is_some_and(|(from, _)| *from < end);
                pieces.parts.insert(at, payload.octets.to_vec());
            }
        }
        if pieces.overlap {
            let pieces = self.waiting.remove(&whole);
            self.given_up.extend(pieces.map(|pieces| pieces.described(&whole)));
            return Content::Damaged;
        }
        let Some(octets) = pieces.whole() else { return Content::Fragment };
        self.waiting.remove(&whole);
        self.put_together += 1;
        udp(&Payload { octets: &octets, ..payload })
    }
}

fn udp(payload: &Payload) -> Content {
    if payload.protocol != UDP {
        return Content::Other;
    }
    let Some(header) = payload.octets.first_chunk::<8>() else {
        return if payload.lacks { Content::Cut(None) } else { Content::Damaged };
    };
    let number = |at: usize| u16::from_be_bytes([header[at], header[at + 1]]);
    let from = SocketAddr::new(payload.from, number(0));
    let to = SocketAddr::new(payload.to, number(2));
    let length = usize::from(number(4));
    if length < 8 {
        return Content::Damaged;
    }
    let Some(octets) = payload.octets.get(..length) else {
        return if payload.lacks { Content::Cut(Some((from, to))) } else { Content::Damaged };
    };
    match is_right(payload, octets) {
        true => Content::Datagram(Datagram { from, to, octets: octets[8..].to_vec() }),
        false => Content::Damaged,
    }
}

/// Whether a datagram's check sum is right, or is there none, or was it left to the card: then it is that of
/// the addresses, protocol and length alone, which the sender has to put there.
fn is_right(payload: &Payload, datagram: &[u8]) -> bool {
    let written = u16::from_be_bytes([datagram[6], datagram[7]]);
    if written == 0 {
        return payload.from.is_ipv4();
    }
    let of_address = |address: IpAddr| match address {
        IpAddr::V4(address) => sum(&address.octets()),
        IpAddr::V6(address) => sum(&address.octets()),
    };
    let head =
        of_address(payload.from) + of_address(payload.to) + u64::from(UDP) + datagram.len() as u64;
    written == folded(head) || folded(head + sum(datagram)) == 0xFFFF
}

/// The sum of 16-bit words that check sums are made from.
fn sum(octets: &[u8]) -> u64 {
    let word = |pair: &[u8]| u64::from(pair[0]) << 8 | u64::from(pair.get(1).copied().unwrap_or(0));
    octets.chunks(2).map(word).sum()
}

fn folded(sum: u64) -> u16 {
    let mut sum = sum;
    while sum > 0xFFFF {
        sum = (sum & 0xFFFF) + (sum >> 16);
    }
    sum as u16
}
