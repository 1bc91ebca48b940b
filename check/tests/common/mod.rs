//! Captures written by hand: every link type, pcap and pcapng, with right check sums.
#![allow(dead_code)]

use std::net::{IpAddr, SocketAddr};
use std::path::PathBuf;
use std::sync::atomic::{AtomicUsize, Ordering};

use check::options::{Options, Other};
use check::Done;
use second::layout;
use second::repeats::{request_once, Way};
use second::session::Sessions;
use second::settings::{Peer, Settings};
use second::store::{self, Entry};
use second::unit::Unit;

pub const UNIT: [&str; 2] = ["192.0.2.1:8805", "192.0.2.2:8805"];
pub const PEER: [&str; 2] = ["192.0.2.50:8805", "192.0.2.60:9000"];

pub fn socket(text: &str) -> SocketAddr {
    text.parse().unwrap()
}

/// A datagram on its way, and when, in milliseconds.
#[derive(Clone, Debug)]
pub struct Sent {
    pub from: SocketAddr,
    pub to: SocketAddr,
    pub octets: Vec<u8>,
    pub at: u64,
}

pub fn to_unit(peer: usize, octets: &[u8], at: u64) -> Sent {
    let (from, to) = (socket(PEER[peer - 1]), socket(UNIT[peer - 1]));
    Sent { from, to, octets: octets.to_vec(), at }
}

pub fn from_unit(peer: usize, octets: &[u8], at: u64) -> Sent {
    let (from, to) = (socket(UNIT[peer - 1]), socket(PEER[peer - 1]));
    Sent { from, to, octets: octets.to_vec(), at }
}

fn sum(octets: &[u8]) -> u32 {
    octets
        .chunks(2)
        .map(|pair| u32::from(pair[0]) << 8 | u32::from(*pair.get(1).unwrap_or(&0)))
        .sum()
}

fn check_sum(mut sum: u32) -> u16 {
    while sum > 0xFFFF {
        sum = (sum & 0xFFFF) + (sum >> 16);
    }
    !(sum as u16)
}

fn address_octets(address: IpAddr) -> Vec<u8> {
    match address {
        IpAddr::V4(address) => address.octets().to_vec(),
        IpAddr::V6(address) => address.octets().to_vec(),
    }
}

pub fn udp(sent: &Sent) -> Vec<u8> {
    let length = (8 + sent.octets.len()) as u16;
    let mut udp = [sent.from.port().to_be_bytes(), sent.to.port().to_be_bytes()].concat();
    udp.extend(length.to_be_bytes());
    udp.extend([0, 0]);
    udp.extend(&sent.octets);
    let addresses = [address_octets(sent.from.ip()), address_octets(sent.to.ip())].concat();
    let whole = check_sum(sum(&addresses) + 17 + u32::from(length) + sum(&udp));
    let whole = if whole == 0 { 0xFFFF } else { whole };
    udp[6..8].copy_from_slice(&whole.to_be_bytes());
    udp
}

/// An IPv4 packet with so many octets of options; the fragment's place in units of 8 octets, and whether more follow.
pub fn ipv4(sent: &Sent, options: usize, place: u16, more: bool, payload: &[u8]) -> Vec<u8> {
    let header = 20 + options;
    let mut ip = vec![0x40 | (header / 4) as u8, 0];
    ip.extend(((header + payload.len()) as u16).to_be_bytes());
    ip.extend([0x12, 0x34]);
    ip.extend((place | if more { 0x2000 } else { 0 }).to_be_bytes());
    ip.extend([64, 17, 0, 0]);
    ip.extend(address_octets(sent.from.ip()));
    ip.extend(address_octets(sent.to.ip()));
    ip.extend(std::iter::repeat_n(1, options));
    let whole = check_sum(sum(&ip));
    ip[10..12].copy_from_slice(&whole.to_be_bytes());
    ip.extend(payload);
    ip
}

pub fn ipv6(sent: &Sent, extension: &[u8], next: u8, payload: &[u8]) -> Vec<u8> {
    let mut ip = vec![0x60, 0, 0, 0];
    ip.extend(((extension.len() + payload.len()) as u16).to_be_bytes());
    ip.extend([next, 64]);
    ip.extend(address_octets(sent.from.ip()));
    ip.extend(address_octets(sent.to.ip()));
    ip.extend(extension);
    ip.extend(payload);
    ip
}

pub fn ip(sent: &Sent) -> Vec<u8> {
    match sent.from.is_ipv4() {
        true => ipv4(sent, 0, 0, false, &udp(sent)),
        false => ipv6(sent, &[], 17, &udp(sent)),
    }
}

/// The link types of a capture.
pub const LINKS: [u32; 8] = [0, 1, 12, 101, 108, 113, 228, 276];

/// An IP packet behind the header of a link.
pub fn framed(link: u32, ip: &[u8]) -> Vec<u8> {
    let protocol: [u8; 2] = if ip[0] >> 4 == 4 { [8, 0] } else { [0x86, 0xDD] };
    let mut octets = match link {
        0 => vec![2, 0, 0, 0],
        108 => vec![0, 0, 0, 2],
        1 => [vec![2; 12], protocol.to_vec()].concat(),
        113 => [vec![0, 0, 0, 1, 0, 6, 2, 2, 2, 2, 2, 2, 0, 0], protocol.to_vec()].concat(),
        276 => {
            [protocol.to_vec(), vec![0, 0, 0, 0, 0, 1, 0, 1, 0, 6, 2, 2, 2, 2, 2, 2, 0, 0]].concat()
        }
        _ => vec![],
    };
    octets.extend(ip);
    octets
}

/// A number in the order of the file's octets.
fn number(big: bool, value: u32) -> [u8; 4] {
    if big {
        value.to_be_bytes()
    } else {
        value.to_le_bytes()
    }
}

fn short(big: bool, value: u16) -> [u8; 2] {
    if big {
        value.to_be_bytes()
    } else {
        value.to_le_bytes()
    }
}

/// A pcap file of frames with their times in milliseconds and their whole lengths.
pub fn pcap(big: bool, nano: bool, link: u32, frames: &[(u64, Vec<u8>, usize)]) -> Vec<u8> {
    let mut file = number(big, if nano { 0xA1B2_3C4D } else { 0xA1B2_C3D4 }).to_vec();
    file.extend(short(big, 2));
    file.extend(short(big, 4));
    for value in [0, 0, 262_144, link] {
        file.extend(number(big, value));
    }
    for (at, octets, whole) in frames {
        let fraction = (at % 1000) as u32 * if nano { 1_000_000 } else { 1_000 };
        let seconds = 1_800_000_000 + (at / 1000) as u32;
        for value in [seconds, fraction, octets.len() as u32, *whole as u32] {
            file.extend(number(big, value));
        }
        file.extend(octets);
    }
    file
}

fn block(big: bool, kind: u32, mut body: Vec<u8>) -> Vec<u8> {
    body.resize(body.len().next_multiple_of(4), 0);
    let length = number(big, body.len() as u32 + 12);
    [number(big, kind).to_vec(), length.to_vec(), body, length.to_vec()].concat()
}

/// A section's head and one interface for each link type.
pub fn section(big: bool, links: &[u32]) -> Vec<u8> {
    let head =
        [number(big, 0x1A2B_3C4D).to_vec(), short(big, 1).to_vec(), vec![0; 2], vec![255; 8]];
    let mut file = block(big, 0x0A0D_0D0A, head.concat());
    for link in links {
        let body = [short(big, *link as u16).to_vec(), vec![0; 2], number(big, 0).to_vec()];
        file.extend(block(big, 1, body.concat()));
    }
    file
}

/// An Enhanced Packet Block with options behind the packet.
pub fn enhanced(
    big: bool,
    interface: u32,
    at: u64,
    octets: &[u8],
    whole: usize,
    options: &[u8],
) -> Vec<u8> {
    let ticks = 1_800_000_000_000_000 + at * 1000;
    let mut body = Vec::new();
    for value in [interface, (ticks >> 32) as u32, ticks as u32, octets.len() as u32, whole as u32]
    {
        body.extend(number(big, value));
    }
    body.extend(octets);
    body.resize(body.len().next_multiple_of(4), 0);
    body.extend(options);
    block(big, 6, body)
}

pub fn simple(big: bool, octets: &[u8]) -> Vec<u8> {
    block(big, 3, [number(big, octets.len() as u32).to_vec(), octets.to_vec()].concat())
}

/// The Packet Block of old files; all ones: drops not known.
pub fn old_packet(big: bool, at: u64, octets: &[u8]) -> Vec<u8> {
    let ticks = 1_800_000_000_000_000 + at * 1000;
    let mut body = [short(big, 0).to_vec(), short(big, 0xFFFF).to_vec()].concat();
    for value in [(ticks >> 32) as u32, ticks as u32, octets.len() as u32, octets.len() as u32] {
        body.extend(number(big, value));
    }
    body.extend(octets);
    block(big, 2, body)
}

/// Interface statistics with so many packets dropped.
pub fn statistics(big: bool, interface: u32, dropped: u64) -> Vec<u8> {
    let value = if big { dropped.to_be_bytes() } else { dropped.to_le_bytes() };
    let mut body = [number(big, interface).to_vec(), vec![0; 8]].concat();
    body.extend(
        [short(big, 5).to_vec(), short(big, 8).to_vec(), value.to_vec(), vec![0; 4]].concat(),
    );
    block(big, 5, body)
}

/// Frames of a link type.
pub fn frames(link: u32, sent: &[Sent]) -> Vec<(u64, Vec<u8>, usize)> {
    sent.iter()
        .map(|one| {
            let octets = framed(link, &ip(one));
            let whole = octets.len();
            (one.at, octets, whole)
        })
        .collect()
}

/// The usual capture of datagrams.
pub fn capture(sent: &[Sent]) -> Vec<u8> {
    pcap(false, false, 1, &frames(1, sent))
}

/// A unit of the second implementation with its stores, whose traffic is recorded.
pub struct Recorded {
    pub unit: Unit,
    pub stores: [Vec<Entry>; 2],
    pub sent: Vec<Sent>,
    pub clock: u64,
}

/// The session limit of the usual settings.
pub const LIMIT: u16 = 8;

pub fn settings() -> Settings {
    let peer = |octet, limit| Peer { address: [192, 0, 2, octet], guarantee: 2, limit };
    let addresses = ("10.45.0.1".parse().unwrap(), 8);
    Settings::make(
        [192, 0, 2, 9],
        &[],
        (4096, 32),
        addresses,
        LIMIT.into(),
        [peer(1, 32), peer(2, 20)],
    )
    .unwrap()
}

impl Recorded {
    pub fn new(settings: Settings) -> Recorded {
        let unit = Unit::new(settings).unwrap();
        Recorded { unit, stores: [vec![], vec![]], sent: vec![], clock: 0 }
    }

    /// One request over the wire; the reply, if there is one.
    pub fn ask(&mut self, peer: usize, message: &[u8]) -> (Way, Vec<u8>) {
        self.clock += 50;
        self.sent.push(to_unit(peer, message, self.clock));
        let mut space = vec![0; 1280];
        let store = &mut self.stores[peer - 1];
        let (way, outcome) = request_once(&mut self.unit, peer as u32, store, message, &mut space);
        let reply = space[..outcome.reply_length].to_vec();
        if !reply.is_empty() {
            self.sent.push(from_unit(peer, &reply, self.clock + 1));
        }
        (way, reply)
    }

    /// The octets of a table with these sessions.
    pub fn table_of(&self, sessions: &Sessions) -> Vec<u8> {
        layout::encode(self.unit.settings(), sessions)
    }

    /// The octets of both stores.
    pub fn stores_part(&self) -> Vec<u8> {
        self.stores.iter().flat_map(|entries| store::encode(entries)).collect()
    }

    /// The file that a unit keeps, with these octets for a table.
    pub fn file_with(&self, table: &[u8]) -> Vec<u8> {
        sealed(self.unit.settings(), table, &self.stores_part(), &[])
    }

    /// The same with these sessions.
    pub fn file(&self, sessions: &Sessions) -> Vec<u8> {
        self.file_with(&self.table_of(sessions))
    }

    pub fn table(&self) -> Vec<u8> {
        self.file(self.unit.sessions())
    }
}

/// The SHA-256 after some octets.
pub fn seal(mut octets: Vec<u8>) -> Vec<u8> {
    let sum = check::sha256::digest(&octets);
    octets.extend(sum);
    octets
}

/// A file of a stored table as docs/layout.md has it: the front, the parts, the SHA-256.
pub fn sealed(settings: &Settings, table: &[u8], stores: &[u8], owed: &[u8]) -> Vec<u8> {
    let number = |number: usize| (number as u32).to_be_bytes();
    let mut file = b"PFCPUNIT\0\0\0\x01".to_vec();
    file.extend([72, table.len(), stores.len(), owed.len()].map(number).concat());
    file.extend(settings.ipv4);
    file.extend(number(settings.ipv6.map_or(0, |_| 16)));
    file.extend(settings.ipv6.unwrap_or([0; 16]));
    file.extend(number(settings.first as usize));
    file.extend(number(settings.size as usize));
    file.extend(settings.first_address.octets());
    file.extend(number(settings.addresses as usize));
    file.extend(number(settings.session_limit.into()));
    file.extend(number(if settings.peers[1].limit == 0 { 1 } else { 2 }));
    for peer in &settings.peers {
        file.extend(peer.address);
        file.extend(number(peer.guarantee as usize));
        file.extend(number(peer.limit as usize));
    }
    file.extend([table, stores, owed].concat());
    seal(file)
}

static FOLDERS: AtomicUsize = AtomicUsize::new(0);

/// A folder that goes with the test.
pub struct Folder(pub PathBuf);

impl Folder {
    pub fn new() -> Folder {
        let number = FOLDERS.fetch_add(1, Ordering::Relaxed);
        // In memory where that can be had: thousands of files are written again and again.
        let memory = PathBuf::from("/dev/shm");
        let base = if memory.is_dir() { memory } else { std::env::temp_dir() };
        let path = base.join(format!("pfcp-check-{}-{number}", std::process::id()));
        std::fs::create_dir_all(&path).unwrap();
        Folder(path)
    }

    pub fn write(&self, name: &str, octets: &[u8]) -> String {
        let path = self.0.join(name);
        std::fs::write(&path, octets).unwrap();
        path.to_str().unwrap().to_string()
    }
}

impl Drop for Folder {
    fn drop(&mut self) {
        let _ = std::fs::remove_dir_all(&self.0);
    }
}

/// Checks a capture against a table's file, from an empty unit on.
pub fn options(folder: &Folder, capture: &[u8], table: &[u8]) -> Options {
    Options {
        capture: folder.write("capture", capture),
        other: Other::Table(folder.write("table", table)),
        from: None,
        empty: true,
        peers: [vec![socket(UNIT[0]).ip()], vec![socket(UNIT[1]).ip()]],
        port: 8805,
        until: u64::MAX,
        no_repeats: false,
    }
}

pub fn check(folder: &Folder, capture: &[u8], table: &[u8]) -> Done {
    check::run(&options(folder, capture, table)).unwrap()
}

/// The exit status, also where a file is not read at all.
pub fn status(options: &Options) -> u8 {
    check::run(options).map_or(2, |done| done.status)
}

pub fn ie(ie_type: u16, value: &[u8]) -> Vec<u8> {
    [&ie_type.to_be_bytes()[..], &(value.len() as u16).to_be_bytes(), value].concat()
}

/// A message with a SEID in its header.
pub fn message(message_type: u8, seid: u64, sequence: u32, parts: &[Vec<u8>]) -> Vec<u8> {
    let body = parts.concat();
    let mut octets = vec![0x21, message_type];
    octets.extend((12 + body.len() as u16).to_be_bytes());
    octets.extend(seid.to_be_bytes());
    octets.extend(&sequence.to_be_bytes()[1..]);
    octets.push(0);
    octets.extend(body);
    octets
}

/// A PDR that wants a TEID for IPv4.
pub fn create_pdr(id: u16) -> Vec<u8> {
    let pdi = [ie(20, &[0]), ie(21, &[5])].concat();
    ie(1, &[ie(56, &id.to_be_bytes()), ie(29, &[0, 0, 0, 100]), ie(2, &pdi)].concat())
}

pub fn remove_pdr(id: u16) -> Vec<u8> {
    ie(15, &ie(56, &id.to_be_bytes()))
}

pub fn fq_csid() -> Vec<u8> {
    ie(65, &[0x21, 0x3F, 0xF7, 0x10, 5, 0, 9, 5])
}

pub fn establishment(seid: u64, sequence: u32, parts: &[Vec<u8>]) -> Vec<u8> {
    let mut f_seid = vec![2];
    f_seid.extend(seid.to_be_bytes());
    f_seid.extend([10, 0, 0, 1]);
    message(50, 0, sequence, &[vec![ie(57, &f_seid)], parts.to_vec()].concat())
}

pub fn modification(seid: u64, sequence: u32, parts: &[Vec<u8>]) -> Vec<u8> {
    message(52, seid, sequence, parts)
}

pub fn deletion(seid: u64, sequence: u32) -> Vec<u8> {
    message(54, seid, sequence, &[])
}

pub fn set_deletion(sequence: u32) -> Vec<u8> {
    let mut octets = message(14, 0, sequence, &[fq_csid()]);
    octets.drain(4..12);
    octets[0] = 0x20;
    let length = (octets.len() - 4) as u16;
    octets[2..4].copy_from_slice(&length.to_be_bytes());
    octets
}

/// A night of both peers: sessions that come, change, stay and go; refusals, repeats, a damaged message, one that is
/// dropped. The last that peer 1 does is to take PDR 2 of its session 1 away, whose TEID 4097 then goes to session 7.
pub fn night() -> Recorded {
    let mut unit = Recorded::new(settings());
    unit.ask(1, &establishment(1, 1, &[create_pdr(1), create_pdr(2)]));
    unit.ask(2, &establishment(1, 900, &[create_pdr(1), fq_csid()]));
    unit.ask(2, &establishment(2, 901, &[create_pdr(3), fq_csid()]));
    unit.ask(2, &establishment(2, 901, &[create_pdr(3), fq_csid()]));
    unit.ask(1, &establishment(1, 2, &[create_pdr(1)]));
    unit.ask(1, &establishment(3, 3, &[create_pdr(1)]));
    unit.ask(1, &deletion(9, 4));
    unit.ask(1, &[0x21, 54, 0, 3, 1]);
    unit.ask(1, &deletion(3, 2));
    unit.ask(2, &set_deletion(902));
    unit.ask(2, &establishment(4, 903, &[create_pdr(8)]));
    unit.ask(1, &deletion(3, 5));
    unit.ask(1, &modification(1, 6, &[remove_pdr(2)]));
    unit.ask(1, &modification(1, 6, &[remove_pdr(2)]));
    unit.ask(1, &establishment(7, 7, &[create_pdr(1)]));
    unit
}
