//! Captures in the two forms that `tcpdump`, `dumpcap` and Wireshark write: pcap and pcapng. One packet after
//! the other is read; nothing is taken on trust but the lengths, and those are bounded.

use std::fmt;
use std::io::{self, Read};

/// No tool captures more of a packet than this, whatever the snap length says.
const LARGEST_PACKET: usize = 262_144;
/// A block of pcapng is a packet and its options, or what Wireshark keeps beside it.
const LARGEST_BLOCK: usize = 16 << 20;

/// When a packet was captured, since 1970.
#[derive(Clone, Copy, PartialEq, Eq, PartialOrd, Ord, Debug)]
pub struct Time {
    pub seconds: u64,
    pub nanoseconds: u32,
}

impl Time {
    /// How many nanoseconds lie between two times.
    pub fn distance(self, other: Time) -> u128 {
        let whole =
            |one: Time| u128::from(one.seconds) * 1_000_000_000 + u128::from(one.nanoseconds);
        whole(self).abs_diff(whole(other))
    }
}

/// A packet, with its number from 1 as Wireshark counts them.
#[derive(Clone, PartialEq, Eq, Debug)]
pub struct Packet {
    pub number: u64,
    /// A Simple Packet Block has none.
    pub time: Option<Time>,
    /// The link type, of those that tcpdump.org lists.
    pub link: u32,
    /// What was captured of it.
    pub octets: Vec<u8>,
    /// How long it was on the wire.
    pub length: usize,
}

/// Why there is no next packet, where the file is not simply at its end.
#[derive(Clone, PartialEq, Eq, Debug)]
pub enum Trouble {
    /// The file ends inside a packet or block.
    Cut,
    /// From this octet on the file makes no sense.
    Damaged(u64, &'static str),
}

impl fmt::Display for Trouble {
    fn fmt(&self, f: &mut fmt::Formatter) -> fmt::Result {
        match self {
            Trouble::Cut => write!(f, "the file ends in the middle of a packet"),
            Trouble::Damaged(octet, what) => {
                write!(
                    f,
                    "the file is damaged at octet {octet} ({what}); nothing after it was read"
                )
            }
        }
    }
}

/// The order of a number's octets in the file.
#[derive(Clone, Copy)]
enum Order {
    Big,
    Little,
}

impl Order {
    fn u16(self, octets: &[u8]) -> Option<u16> {
        let octets = *octets.first_chunk::<2>()?;
        Some(match self {
            Order::Big => u16::from_be_bytes(octets),
            Order::Little => u16::from_le_bytes(octets),
        })
    }

    fn u32(self, octets: &[u8]) -> Option<u32> {
        let octets = *octets.first_chunk::<4>()?;
        Some(match self {
            Order::Big => u32::from_be_bytes(octets),
            Order::Little => u32::from_le_bytes(octets),
        })
    }

    fn u64(self, octets: &[u8]) -> Option<u64> {
        let octets = *octets.first_chunk::<8>()?;
        Some(match self {
            Order::Big => u64::from_be_bytes(octets),
            Order::Little => u64::from_le_bytes(octets),
        })
    }
}

/// An interface of a pcapng section.
struct Interface {
    link: u32,
    snap_length: usize,
    /// How many of its ticks are a second.
    ticks: u64,
    /// The packets that it is said to have dropped.
    dropped: u64,
}

enum Form {
    Pcap { order: Order, link: u32, ticks: u64 },
    Pcapng { order: Order, interfaces: Vec<Interface> },
}

/// A capture that is read packet by packet.
pub struct Capture<R> {
    file: R,
    form: Form,
    /// Where the next octet stands in the file.
    at: u64,
    packets: u64,
    /// Packets that sections before this one are said to have dropped.
    dropped: u64,
    ended: bool,
}

/// Why a file is no capture.
#[derive(Debug)]
pub enum NotRead {
    File(io::Error),
    NoCapture(&'static str),
}

const PCAPNG: u32 = 0x0A0D_0D0A;
const BYTE_ORDER: u32 = 0x1A2B_3C4D;

impl<R: Read> Capture<R> {
    /// Reads the head of a capture.
    pub fn open(mut file: R) -> Result<Capture<R>, NotRead> {
        let mut magic = [0; 4];
        let got = fill(&mut file, &mut magic).map_err(NotRead::File)?;
        if got < 4 {
            return Err(NotRead::NoCapture("too short for a capture"));
        }
        let (order, ticks) = match u32::from_be_bytes(magic) {
            PCAPNG => {
                let form = Form::Pcapng { order: Order::Big, interfaces: Vec::new() };
                let mut capture =
                    Capture { file, form, at: 4, packets: 0, dropped: 0, ended: false };
                return match capture.section() {
                    Ok(()) => Ok(capture),
                    Err(_) => Err(NotRead::NoCapture("pcapng with a broken first block")),
                };
            }
            0xA1B2_C3D4 => (Order::Big, 1_000_000),
            0xA1B2_3C4D => (Order::Big, 1_000_000_000),
            0xD4C3_B2A1 => (Order::Little, 1_000_000),
            0x4D3C_B2A1 => (Order::Little, 1_000_000_000),
            _ => return Err(NotRead::NoCapture("neither pcap nor pcapng")),
        };
        let mut head = [0; 20];
        if fill(&mut file, &mut head).map_err(NotRead::File)? < head.len() {
            return Err(NotRead::NoCapture("pcap with a head that is cut"));
        }
        let version = (order.u16(&head[0..]), order.u16(&head[2..]));
        if version != (Some(2), Some(4)) {
            return Err(NotRead::NoCapture("pcap of another version than 2.4"));
        }
        // The upper bits say how long a frame check sequence is, which nobody writes.
        let link = order.u32(&head[16..]).unwrap_or(0) & 0x03FF_FFFF;
        let form = Form::Pcap { order, link, ticks };
        Ok(Capture { file, form, at: 24, packets: 0, dropped: 0, ended: false })
    }

    /// How many packets the capture itself says to have lost, where it says so.
    pub fn dropped(&self) -> u64 {
        let here: u64 = match &self.form {
            Form::Pcap { .. } => 0,
            Form::Pcapng { interfaces, .. } => {
                interfaces.iter().fold(0, |sum, one| sum.saturating_add(one.dropped))
            }
        };
        self.dropped.saturating_add(here)
    }

    /// How many packets were read.
    pub fn packets(&self) -> u64 {
        self.packets
    }

    /// The next packet; nothing at the end, or after trouble.
    pub fn next_packet(&mut self) -> Result<Option<Packet>, Trouble> {
        if self.ended {
            return Ok(None);
        }
        let next = match self.form {
            Form::Pcap { order, link, ticks } => self.record(order, link, ticks),
            Form::Pcapng { .. } => self.blocks(),
        };
        if !matches!(next, Ok(Some(_))) {
            self.ended = true;
        }
        next
    }

    fn damaged<T>(&self, what: &'static str) -> Result<T, Trouble> {
        Err(Trouble::Damaged(self.at, what))
    }

    /// So many octets of the file.
    fn take(&mut self, count: usize) -> Result<Vec<u8>, Trouble> {
        let mut octets = vec![0; count];
        match fill(&mut self.file, &mut octets) {
            Ok(got) if got == count => {
                self.at += count as u64;
                Ok(octets)
            }
            Ok(_) => Err(Trouble::Cut),
            Err(_) => self.damaged("it cannot be read"),
        }
    }

    /// The first octets of what comes next; nothing where the file is at its end.
    fn take_or_end(&mut self, count: usize) -> Result<Option<Vec<u8>>, Trouble> {
        let mut octets = vec![0; count];
        match fill(&mut self.file, &mut octets) {
            Ok(0) => Ok(None),
            Ok(got) if got == count => {
                self.at += count as u64;
                Ok(Some(octets))
            }
            Ok(_) => Err(Trouble::Cut),
            Err(_) => self.damaged("it cannot be read"),
        }
    }

    /// A packet of a pcap file: seconds, their fraction, captured and whole length, the octets.
    fn record(&mut self, order: Order, link: u32, ticks: u64) -> Result<Option<Packet>, Trouble> {
        let Some(head) = self.take_or_end(16)? else { return Ok(None) };
        let number = |at: usize| head.get(at..).and_then(|octets| order.u32(octets)).unwrap_or(0);
        let (seconds, fraction) = (number(0), number(4));
        let (captured, length) = (number(8) as usize, number(12) as usize);
        if u64::from(fraction) >= ticks {
            return self.damaged("a time that is none");
        }
        if captured > LARGEST_PACKET || captured > length {
            return self.damaged("a packet's length that cannot be");
        }
        let octets = self.take(captured)?;
        let nanoseconds = (u64::from(fraction) * (1_000_000_000 / ticks)) as u32;
        let time = Some(Time { seconds: seconds.into(), nanoseconds });
        Ok(Some(self.packet(time, link, octets, length)))
    }

    fn packet(&mut self, time: Option<Time>, link: u32, octets: Vec<u8>, length: usize) -> Packet {
        self.packets += 1;
        Packet { number: self.packets, time, link, octets, length }
    }

    /// Goes over blocks up to the next packet.
    fn blocks(&mut self) -> Result<Option<Packet>, Trouble> {
        loop {
            let Some(kind) = self.take_or_end(4)? else { return Ok(None) };
            if u32::from_be_bytes([kind[0], kind[1], kind[2], kind[3]]) == PCAPNG {
                self.section()?;
                continue;
            }
            let Form::Pcapng { order, .. } = self.form else { return Ok(None) };
            let kind = order.u32(&kind).unwrap_or(0);
            let body = self.block(order)?;
            let packet = match kind {
                1 => {
                    self.interface(order, &body)?;
                    None
                }
                2 => Some(self.old_packet(order, &body)?),
                3 => Some(self.simple_packet(order, &body)?),
                5 => {
                    self.statistics(order, &body)?;
                    None
                }
                6 => Some(self.enhanced_packet(order, &body)?),
                // Names, keys, comments: nothing of the wire.
                _ => None,
            };
            if packet.is_some() {
                return Ok(packet);
            }
        }
    }

    /// The body of a block whose type was read: its length stands before and after it.
    fn block(&mut self, order: Order) -> Result<Vec<u8>, Trouble> {
        let length = order.u32(&self.take(4)?).unwrap_or(0) as usize;
        if length < 12 || length % 4 != 0 || length > LARGEST_BLOCK {
            return self.damaged("a block's length that cannot be");
        }
        let body = self.take(length - 12)?;
        let after = order.u32(&self.take(4)?).unwrap_or(0) as usize;
        match after == length {
            true => Ok(body),
            false => self.damaged("a block's two lengths differ"),
        }
    }

    /// A section's head, whose type was read. It says the order of octets from here on.
    fn section(&mut self) -> Result<(), Trouble> {
        let head = self.take(8)?;
        let order = match (Order::Big.u32(&head[4..]), Order::Little.u32(&head[4..])) {
            (Some(BYTE_ORDER), _) => Order::Big,
            (_, Some(BYTE_ORDER)) => Order::Little,
            _ => return self.damaged("a section without its order of octets"),
        };
        let length = order.u32(&head).unwrap_or(0) as usize;
        if length < 28 || length % 4 != 0 || length > LARGEST_BLOCK {
            return self.damaged("a block's length that cannot be");
        }
        let rest = self.take(length - 12)?;
        if order.u16(&rest) != Some(1) {
            return self.damaged("pcapng of another version than 1");
        }
        if order.u32(&rest[rest.len() - 4..]) != Some(length as u32) {
            return self.damaged("a block's two lengths differ");
        }
        self.dropped = self.dropped();
        self.form = Form::Pcapng { order, interfaces: Vec::new() };
        Ok(())
    }

    fn interfaces(&mut self) -> &mut Vec<Interface> {
        match &mut self.form {
            Form::Pcapng { interfaces, .. } => interfaces,
            Form::Pcap { .. } => unreachable!("pcap has no blocks"),
        }
    }

    fn interface(&mut self, order: Order, body: &[u8]) -> Result<(), Trouble> {
        let (Some(link), Some(snap_length)) =
            (order.u16(body), body.get(4..).and_then(|octets| order.u32(octets)))
        else {
            return self.damaged("an interface that is cut");
        };
        let resolution = options(order, body.get(8..).unwrap_or(&[]))
            .find(|(code, _)| *code == 9)
            .and_then(|(_, value)| value.first().copied());
        let ticks = match resolution {
            None => Some(1_000_000),
            Some(power) if power & 0x80 == 0 => 10_u64.checked_pow(power.into()),
            Some(power) => 2_u64.checked_pow((power & 0x7F).into()),
        };
        let Some(ticks) = ticks else {
            return self.damaged("an interface whose clock cannot be");
        };
        let (link, snap_length) = (link.into(), snap_length as usize);
        self.interfaces().push(Interface { link, snap_length, ticks, dropped: 0 });
        Ok(())
    }

    /// The interface of a packet, and the time of its ticks.
    fn source(&mut self, interface: usize, ticks: u64) -> Result<(u32, Time), Trouble> {
        let Some(one) = self.interfaces().get(interface) else {
            return self.damaged("a packet of no interface");
        };
        let fraction = u128::from(ticks % one.ticks) * 1_000_000_000 / u128::from(one.ticks);
        Ok((one.link, Time { seconds: ticks / one.ticks, nanoseconds: fraction as u32 }))
    }

    fn enhanced_packet(&mut self, order: Order, body: &[u8]) -> Result<Packet, Trouble> {
        let number = |at: usize| body.get(at..).and_then(|octets| order.u32(octets));
        let (Some(interface), Some(high), Some(low), Some(captured), Some(length)) =
            (number(0), number(4), number(8), number(12), number(16))
        else {
            return self.damaged("a packet's block that is cut");
        };
        let ticks = u64::from(high) << 32 | u64::from(low);
        let (link, time) = self.source(interface as usize, ticks)?;
        let packet = self.packet_of(time, link, &body[20..], captured, length)?;
        let options_at = 20 + (captured as usize).next_multiple_of(4);
        let lost = options(order, body.get(options_at..).unwrap_or(&[]))
            .find(|(code, _)| *code == 4)
            .and_then(|(_, value)| order.u64(value));
        self.dropped = self.dropped.saturating_add(lost.unwrap_or(0));
        Ok(packet)
    }

    /// The Packet Block of old files.
    fn old_packet(&mut self, order: Order, body: &[u8]) -> Result<Packet, Trouble> {
        let number = |at: usize| body.get(at..).and_then(|octets| order.u32(octets));
        let short = |at: usize| body.get(at..).and_then(|octets| order.u16(octets));
        let (Some(interface), Some(lost), Some(high), Some(low), Some(captured), Some(length)) =
            (short(0), short(2), number(4), number(8), number(12), number(16))
        else {
            return self.damaged("a packet's block that is cut");
        };
        let ticks = u64::from(high) << 32 | u64::from(low);
        let (link, time) = self.source(interface.into(), ticks)?;
        // All ones: not known.
        let lost = if lost == u16::MAX { 0 } else { lost };
        self.dropped = self.dropped.saturating_add(lost.into());
        self.packet_of(time, link, &body[20..], captured, length)
    }

    fn packet_of(
        &mut self,
        time: Time,
        link: u32,
        data: &[u8],
        captured: u32,
        length: u32,
    ) -> Result<Packet, Trouble> {
        if captured > length || captured as usize > LARGEST_PACKET {
            return self.damaged("a packet's length that cannot be");
        }
        match data.get(..captured as usize) {
            Some(octets) => Ok(self.packet(Some(time), link, octets.to_vec(), length as usize)),
            None => self.damaged("a packet that is longer than its block"),
        }
    }

    /// A packet of the first interface, without a time; its captured length is not written.
    fn simple_packet(&mut self, order: Order, body: &[u8]) -> Result<Packet, Trouble> {
        let Some(length) = order.u32(body) else {
            return self.damaged("a packet's block that is cut");
        };
        let length = length as usize;
        let Some((link, snap_length)) =
            self.interfaces().first().map(|one| (one.link, one.snap_length))
        else {
            return self.damaged("a packet of no interface");
        };
        let captured = if snap_length == 0 { length } else { length.min(snap_length) };
        match body[4..].get(..captured) {
            Some(octets) if captured <= LARGEST_PACKET => {
                Ok(self.packet(None, link, octets.to_vec(), length))
            }
            _ => self.damaged("a packet that is longer than its block"),
        }
    }

    /// What an interface says to have dropped, itself (5) and its system (7), since it began.
    fn statistics(&mut self, order: Order, body: &[u8]) -> Result<(), Trouble> {
        let Some(interface) = order.u32(body) else {
            return self.damaged("statistics that are cut");
        };
        let dropped = options(order, body.get(12..).unwrap_or(&[]))
            .filter(|(code, _)| matches!(code, 5 | 7))
            .filter_map(|(_, value)| order.u64(value))
            .fold(0, u64::saturating_add);
        match self.interfaces().get_mut(interface as usize) {
            Some(one) => {
                one.dropped = one.dropped.max(dropped);
                Ok(())
            }
            None => self.damaged("statistics of no interface"),
        }
    }
}

/// The options at the end of a block: code, length, value, up to code 0 or the end.
fn options(order: Order, octets: &[u8]) -> impl Iterator<Item = (u16, &[u8])> {
    let mut rest = octets;
    std::iter::from_fn(move || {
        let (code, length) = (order.u16(rest)?, usize::from(order.u16(rest.get(2..)?)?));
        let value = rest.get(4..4 + length)?;
        rest = rest.get(4 + length.next_multiple_of(4)..).unwrap_or(&[]);
        (code != 0).then_some((code, value))
    })
}

/// Fills as much of the room as the file has left; gives the number of octets.
fn fill(file: &mut impl Read, room: &mut [u8]) -> io::Result<usize> {
    let mut got = 0;
    while got < room.len() {
        match file.read(&mut room[got..]) {
            Ok(0) => break,
            Ok(count) => got += count,
            Err(error) if error.kind() == io::ErrorKind::Interrupted => {}
            Err(error) => return Err(error),
        }
    }
    Ok(got)
}

/// UTC, to the microsecond.
impl fmt::Display for Time {
    fn fmt(&self, f: &mut fmt::Formatter) -> fmt::Result {
        // Days since 1970 to year, month and day; years begin with March here.
        let days = self.seconds / 86_400 + 719_468;
        let (era, day) = (days / 146_097, days % 146_097);
        let year = (day - day / 1_460 + day / 36_524 - day / 146_096) / 365;
        let of_year = day - (365 * year + year / 4 - year / 100);
        let month = (5 * of_year + 2) / 153;
        let of_month = of_year - (153 * month + 2) / 5 + 1;
        let (month, next) = if month < 10 { (month + 3, 0) } else { (month - 9, 1) };
        let (second, micro) = (self.seconds % 86_400, self.nanoseconds / 1_000);
        let year = era * 400 + year + next;
        write!(f, "{year:04}-{month:02}-{of_month:02}T")?;
        let (hour, minute) = (second / 3_600, second / 60 % 60);
        write!(f, "{hour:02}:{minute:02}:{:02}.{micro:06}Z", second % 60)
    }
}
