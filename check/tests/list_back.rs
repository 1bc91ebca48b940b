//! What `pfcp-list --table FILE` prints of a table, as text and as JSON, read back: the same table, octet for octet. So of two
//! tables with the same settings whose lists are the same text neither has what the other lacks.
//!
//! Each field of at most 16 bits has every value; each of 32 bits every value of each two of its octets, the others low, high or at
//! random; SEIDs, IPv6 addresses and the upper half of TEIDs every value of each octet, with the others low, high and at random, and IPv6
//! addresses every pattern of zeros. Random tables have every kind of record with and without what it may lack. PFCP_LIST names
//! the program.

mod common;

use std::collections::{BTreeMap, BTreeSet};
use std::net::{Ipv4Addr, Ipv6Addr};
use std::process::Command;
use std::str::FromStr;

use check::listed;
use common::Folder;
use second::element::fq_csid::NodeId;
use second::generate::random::Random;
use second::generate::tables::{self, Filling};
use second::layout;
use second::list::{interface_name, node_type_name};
use second::session::{Endpoint, Families, HeldCsid, Key, Local, Pdr, Session, Sessions, Tunnel};
use second::settings::{Peer, Settings};

/// The rest of a line.
struct Line<'a>(&'a str);

impl<'a> Line<'a> {
    fn is(&mut self, words: &str) -> bool {
        let rest = self.0.strip_prefix(words);
        self.0 = rest.unwrap_or(self.0);
        rest.is_some()
    }

    fn words(&mut self, words: &str) -> Option<()> {
        self.is(words).then_some(())
    }

    /// Up to one of these, or all that is left.
    fn until(&mut self, ends: &[char]) -> &'a str {
        let (taken, rest) = self.0.split_at(self.0.find(ends).unwrap_or(self.0.len()));
        self.0 = rest;
        taken
    }

    /// A number or an address, written as it is always written.
    fn value<T: FromStr + ToString>(&mut self) -> Option<T> {
        let taken = self.until(&[' ', ',', ':', ')']);
        taken.parse().ok().filter(|value: &T| value.to_string() == taken)
    }

    fn name(&mut self, name: &str) -> Option<()> {
        self.words(&format!(" ({name})"))
    }

    fn tunnel(&mut self) -> Option<Tunnel> {
        let teid = self.value()?;
        for (v4, v6, name) in
            [(true, true, "IPv4 and IPv6"), (true, false, "IPv4"), (false, true, "IPv6")]
        {
            if self.is(&format!(" ({name})")) {
                return Some(Tunnel { teid, families: Families { v4, v6 } });
            }
        }
        None
    }

    /// The address at a line's end, if there is one; nothing at all where something else is there.
    fn address(&mut self) -> Option<Option<Ipv4Addr>> {
        let address = if self.is(", address ") { Some(self.value()?) } else { None };
        self.0.is_empty().then_some(address)
    }
}

fn session_line(mut line: Line) -> Option<Key> {
    let seid: u64 = line.value()?;
    line.words(" of peer ")?;
    let peer = line.value()?;
    (line.0 == format!(" (0x{seid:x})")).then_some(Key { peer, seid })
}

fn pdr_line(mut line: Line) -> Option<(u16, Pdr)> {
    let id = line.value()?;
    line.words(": precedence ")?;
    let precedence = line.value()?;
    let far_id = if line.is(", no FAR") {
        None
    } else {
        line.words(", FAR ")?;
        Some(line.value()?)
    };
    line.words(", source interface ")?;
    let source_interface = line.value()?;
    line.name(interface_name(source_interface))?;
    let local = if line.is(", TEID ") {
        Local::Tunnel(line.tunnel()?)
    } else if line.is(", endpoint ") {
        Local::Endpoint(line.value()?)
    } else {
        Local::Neither
    };
    Some((id, Pdr { precedence, far_id, source_interface, local, address: line.address()? }))
}

fn endpoint_line(mut line: Line) -> Option<(u8, Endpoint)> {
    let id = line.value()?;
    line.words(": TEID ")?;
    Some((id, Endpoint { tunnel: line.tunnel()?, address: line.address()? }))
}

fn fq_csid_line(mut line: Line) -> Option<(u8, HeldCsid)> {
    let node_type = line.value()?;
    line.name(node_type_name(node_type))?;
    line.words(": CSID ")?;
    let csid = line.value()?;
    line.words(" of ")?;
    let node = if line.is("operator node ") {
        let word =
            u32::from_str_radix(line.0, 16).ok().filter(|word| format!("{word:08X}") == line.0)?;
        NodeId::Operator { country_and_network: word >> 12, number: (word & 0xFFF) as u16 }
    } else if line.0.contains(':') {
        NodeId::Ipv6(line.0.parse::<Ipv6Addr>().ok()?.octets())
    } else {
        NodeId::Ipv4(line.value::<Ipv4Addr>()?.octets())
    };
    Some((node_type, HeldCsid { node, csid }))
}

/// The sessions of a list as text; nothing where a line is none of a list, or a record stands twice.
fn sessions_of(text: &str) -> Option<Sessions> {
    let mut sessions = Sessions::new();
    let mut lines = text.lines();
    let live = lines.next()?.strip_prefix("live sessions: ")?.split(';').next()?;
    let mut own: Option<Key> = None;
    for line in lines.take_while(|line| line.starts_with("  ")) {
        let mut line = Line(line);
        if line.is("  session ") {
            let key = session_line(line)?;
            if own.is_some_and(|own| own >= key) {
                return None;
            }
            own = Some(key);
            sessions.insert(key, Session::default());
            continue;
        }
        let session = sessions.get_mut(&own?)?;
        let is_twice = if line.is("    PDR ") {
            let (id, pdr) = pdr_line(line)?;
            session.pdrs.insert(id, pdr).is_some()
        } else if line.is("    endpoint ") {
            let (id, endpoint) = endpoint_line(line)?;
            session.endpoints.insert(id, endpoint).is_some()
        } else {
            line.words("    FQ-CSID of node type ")?;
            let (node_type, held) = fq_csid_line(line)?;
            session.fq_csids.insert(node_type, held).is_some()
        };
        if is_twice {
            return None;
        }
    }
    (live == sessions.len().to_string()).then_some(sessions)
}

/// Which values each octet of a field had.
#[derive(Default)]
struct Met(BTreeMap<&'static str, Vec<BTreeSet<u8>>>);

impl Met {
    fn field(&mut self, name: &'static str, octets: &[u8]) {
        let places = self.0.entry(name).or_default();
        places.resize(octets.len(), BTreeSet::new());
        for (values, octet) in places.iter_mut().zip(octets) {
            values.insert(*octet);
        }
    }

    fn session(&mut self, key: &Key, session: &Session) {
        self.field("SEID", &key.seid.to_be_bytes());
        for (id, pdr) in &session.pdrs {
            self.field("PDR ID", &id.to_be_bytes());
            self.field("precedence", &pdr.precedence.to_be_bytes());
            self.field("FAR ID", &pdr.far_id.unwrap_or(0).to_be_bytes());
            self.field("source interface", &[pdr.source_interface]);
            self.field("address", &pdr.address.map_or([0; 4], |address| address.octets()));
            if let Local::Tunnel(tunnel) = pdr.local {
                self.field("TEID", &tunnel.teid.to_be_bytes());
            }
        }
        for (id, endpoint) in &session.endpoints {
            self.field("endpoint ID", &[*id]);
            self.field("endpoint's TEID", &endpoint.tunnel.teid.to_be_bytes());
            let address = endpoint.address.map_or([0; 4], |address| address.octets());
            self.field("endpoint's address", &address);
        }
        for held in session.fq_csids.values() {
            self.field("CSID", &held.csid.to_be_bytes());
            match held.node {
                NodeId::Ipv4(address) => self.field("IPv4 node", &address),
                NodeId::Ipv6(address) => self.field("IPv6 node", &address),
                NodeId::Operator { country_and_network, number } => {
                    let word = country_and_network << 12 | u32::from(number);
                    self.field("operator node", &word.to_be_bytes());
                }
            }
        }
    }

    /// Every octet of these fields had this many values.
    fn had(&self, wanted: &[(&str, &[usize])]) {
        for (name, counts) in wanted {
            let met: Vec<usize> = self.0[name].iter().map(BTreeSet::len).collect();
            assert_eq!(met, *counts, "values of each octet of {name}");
        }
    }
}

/// The program, a folder for tables, and what was met.
struct Trial {
    program: String,
    folder: Folder,
    tables: usize,
    records: usize,
    met: Met,
}

impl Trial {
    fn new() -> Trial {
        let program = std::env::var("PFCP_LIST").expect("PFCP_LIST names the program");
        Trial { program, folder: Folder::new(), tables: 0, records: 0, met: Met::default() }
    }

    /// What the program prints of a table's file.
    fn list(&self, file: &str, words: &[&str]) -> String {
        let done = Command::new(&self.program).args(["--table", file]).args(words).output();
        let done = done.expect("the program runs");
        assert!(done.status.success(), "{}", String::from_utf8_lossy(&done.stderr));
        String::from_utf8(done.stdout).expect("a list is text")
    }

    /// Whether both lists of a table give it back, octet for octet.
    fn table(&mut self, settings: &Settings, sessions: &Sessions) {
        let table = layout::encode(settings, sessions);
        let file = self.folder.write("table", &table);
        let text = self.list(&file, &[]);
        let back = sessions_of(&text).unwrap_or_else(|| panic!("not a list: {text}"));
        self.same(settings, sessions, &back, &table);
        let listed = listed::read(self.list(&file, &["--json"]).as_bytes()).expect("a list");
        assert_eq!(listed.faults, Vec::<String>::new());
        self.same(settings, sessions, &listed.sessions, &table);
        self.tables += 1;
        sessions.iter().for_each(|(key, session)| self.met.session(key, session));
        self.records += sessions
            .values()
            .map(|one| one.pdrs.len() + one.endpoints.len() + one.fq_csids.len())
            .sum::<usize>();
    }

    fn same(&self, settings: &Settings, own: &Sessions, back: &Sessions, table: &[u8]) {
        for (key, session) in own {
            assert_eq!(back.get(key), Some(session), "{key:?} of table {}", self.tables);
        }
        assert!(layout::encode(settings, back) == table, "table {}", self.tables);
    }
}

/// Every value of one octet of N, the others low, high or at random: 768 values of each octet.
fn by_octet<const N: usize>(random: &mut Random) -> Vec<[u8; N]> {
    let mut all = Vec::new();
    for place in 0..N {
        let any: [u8; N] = random.octets(N).try_into().expect("so many octets");
        for mut octets in [[0; N], [0xFF; N], any] {
            for value in 0..=255 {
                octets[place] = value;
                all.push(octets);
            }
        }
    }
    all
}

/// Every value of each two of four octets, the others low, high or at random by turns.
fn by_two_octets(random: &mut Random) -> Vec<u32> {
    let mut all = Vec::new();
    for (one, other) in [(0, 1), (0, 2), (0, 3), (1, 2), (1, 3), (2, 3)] {
        for value in 0..=0xFFFF_u16 {
            let mut octets = random.pick(&[[0; 4], [0xFF; 4], random_four(value)]);
            [octets[one], octets[other]] = value.to_be_bytes();
            all.push(u32::from_be_bytes(octets));
        }
    }
    all
}

fn random_four(value: u16) -> [u8; 4] {
    let mut random = Random::new(value.into());
    [random.octet(), random.octet(), random.octet(), random.octet()]
}

/// IPv6 addresses: every pattern of zeros with groups of every length, and every value of each octet.
fn ipv6_addresses(random: &mut Random) -> Vec<[u8; 16]> {
    let mut all = by_octet::<16>(random);
    for pattern in 0..=255_u8 {
        for group in [0x1_u16, 0xF, 0x10, 0xFF, 0x100, 0xFFF, 0x1000, 0xFFFF] {
            let used = |place: u16| if pattern >> place & 1 == 1 { group } else { 0 };
            all.push(Ipv6Addr::from([0, 1, 2, 3, 4, 5, 6, 7].map(used)).octets());
        }
    }
    all
}

/// Settings for a pool of up to 65,536 TEIDs from one on, and a single address, which none of the values here is.
fn settings_from(first: u32, limit: u16) -> Settings {
    let size = (u32::MAX - first).saturating_add(1).min(65_536);
    let peer = |octet| Peer { address: [192, 0, 2, octet], guarantee: 0, limit: size };
    let ipv6 = [0x20, 1, 0x0D, 0xB8, 0, 0, 0, 0, 0, 0, 0, 0, 0, 0, 0, 1];
    let address = (Ipv4Addr::new(203, 0, 113, 77), 1);
    let peers = [peer(1), peer(2)];
    Settings::make([192, 0, 2, 1], &ipv6, (first, size), address, limit.into(), peers)
        .expect("these are allowed")
}

/// What records take their values from, each in its own order.
struct Values {
    words: Vec<u32>,
    seids: Vec<[u8; 8]>,
    ipv6: Vec<[u8; 16]>,
}

impl Values {
    /// A word; with another step, which has no factor in common with how many there are, in another order.
    fn word(&self, place: usize, step: usize) -> u32 {
        self.words[place * step % self.words.len()]
    }

    fn node(&self, place: usize, node_type: usize) -> NodeId {
        let word = self.word(place, 7);
        match (place + node_type) % 3 {
            0 => NodeId::Ipv4(word.to_be_bytes()),
            1 => NodeId::Ipv6(self.ipv6[place / 3 % self.ipv6.len()]),
            _ => NodeId::Operator {
                country_and_network: (word >> 12) % 1_000_000,
                number: (word & 0xFFF) as u16,
            },
        }
    }

    /// The session with this place among all: 16 PDRs, 8 endpoints, 6 FQ-CSIDs, with TEIDs from one on.
    fn session(&self, place: usize, teid: impl Fn(usize) -> u32) -> Session {
        let mut session = Session::default();
        let families = |number: usize| {
            let (v4, v6) = [(true, false), (false, true), (true, true)][number % 3];
            Families { v4, v6 }
        };
        let endpoint_id = |own: usize| (8 * place + own) as u8;
        for own in 0..16 {
            let number = 16 * place + own;
            let local = match own {
                0..8 => Local::Tunnel(Tunnel { teid: teid(own), families: families(number) }),
                8..12 => Local::Endpoint(endpoint_id(own - 8)),
                _ => Local::Neither,
            };
            let pdr = Pdr {
                precedence: self.word(number, 1),
                far_id: Some(self.word(number, 5)),
                source_interface: (number % 16) as u8,
                local,
                address: Some(Ipv4Addr::from(self.word(number, 11))),
            };
            session.pdrs.insert(number as u16, pdr);
        }
        for own in 0..8 {
            let tunnel = Tunnel { teid: teid(8 + own), families: families(place + own) };
            let address = Some(Ipv4Addr::from(self.word(8 * place + own, 13)));
            session.endpoints.insert(endpoint_id(own), Endpoint { tunnel, address });
        }
        for node_type in 0..6 {
            let number = 6 * place + node_type;
            let held = HeldCsid { node: self.node(number, node_type), csid: number as u16 };
            session.fq_csids.insert(node_type as u8, held);
        }
        session
    }

    /// The key of a session with this place; SEID 0 is none.
    fn key(&self, place: usize) -> Key {
        let seid = u64::from_be_bytes(self.seids[place % self.seids.len()]);
        Key { peer: 1 + (place % 2) as u8, seid: seid.max(1) }
    }
}

/// As many full tables as it takes for every value: 393,216 PDRs.
#[test]
#[ignore = "PFCP_LIST names the program"]
fn every_value_gives_the_table_back() {
    let mut random = Random::new(7);
    let words = by_two_octets(&mut random);
    let seids = by_octet(&mut random);
    let values = Values { words, seids, ipv6: ipv6_addresses(&mut random) };
    let mut trial = Trial::new();
    for number in 0..values.words.len() / (256 * 16) {
        let settings = settings_from(u32::from(random_four(number as u16)[0]) << 24 | 1 << 16, 256);
        let mut sessions = Sessions::new();
        for place in 256 * number..256 * (number + 1) {
            let teid = |own: usize| settings.first + ((16 * place + own) % 65_536) as u32;
            sessions.insert(values.key(place), values.session(place, teid));
        }
        trial.table(&settings, &sessions);
    }
    // An operator's country and network are 999,999 at most.
    trial.met.had(&[
        ("SEID", &[256; 8]),
        ("PDR ID", &[256; 2]),
        ("precedence", &[256; 4]),
        ("FAR ID", &[256; 4]),
        ("source interface", &[16]),
        ("address", &[256; 4]),
        ("endpoint ID", &[256]),
        ("endpoint's address", &[256; 4]),
        ("CSID", &[256; 2]),
        ("IPv4 node", &[256; 4]),
        ("IPv6 node", &[256; 16]),
        ("operator node", &[245, 256, 256, 256]),
    ]);
    println!("{} tables of {} records", trial.tables, trial.records);
}

/// TEIDs whose upper half has every value of each octet.
#[test]
#[ignore = "PFCP_LIST names the program"]
fn every_upper_half_of_a_teid() {
    let mut random = Random::new(8);
    let mut trial = Trial::new();
    for upper in by_octet::<2>(&mut random) {
        let first = (u32::from(u16::from_be_bytes(upper)) << 16).max(1);
        let settings = settings_from(first, 2);
        let tunnel = |teid| Tunnel { teid, families: Families { v4: true, v6: false } };
        let mut session = Session::default();
        for (id, teid) in (0..).zip([first, first | 0x00FF, first | 0xFF00, first | 0xFFFF]) {
            let local = Local::Tunnel(tunnel(teid));
            let pdr =
                Pdr { precedence: 0, far_id: None, source_interface: 0, local, address: None };
            session.pdrs.insert(id, pdr);
        }
        let teid = first | 0xA55A;
        session.endpoints.insert(0, Endpoint { tunnel: tunnel(teid), address: None });
        trial.table(&settings, &Sessions::from([(Key { peer: 1, seid: 1 }, session)]));
    }
    for name in ["TEID", "endpoint's TEID"] {
        assert!(trial.met.0[name][..2].iter().all(|values| values.len() == 256), "{name}");
    }
    println!("{} tables of {} records", trial.tables, trial.records);
}

/// Tables with records of every kind, drawn at random; and each session's part by itself, which is the same text.
#[test]
#[ignore = "PFCP_LIST names the program"]
fn random_tables_come_back() {
    let mut random = Random::new(9);
    let mut trial = Trial::new();
    for number in 0..100 {
        let limit = random.pick(&[2, 3, 8, 64, 256]);
        let settings = tables::settings(&mut random, number % 2 == 0, limit);
        let sessions = tables::sessions(&mut random, &settings, Filling::Some);
        trial.table(&settings, &sessions);
        if limit > 8 {
            continue;
        }
        let file = trial.folder.write("table", &layout::encode(&settings, &sessions));
        let whole = trial.list(&file, &[]);
        for key in sessions.keys() {
            let (peer, seid) = (key.peer.to_string(), key.seid.to_string());
            let part = trial.list(&file, &["--peer", &peer, "--session", &seid]);
            assert!(whole.contains(&part), "session {seid} of peer {peer}: {part}");
            let head = format!("  session {seid} of peer {peer} (");
            assert!(part.starts_with(&head), "{part}");
            assert_eq!(part.matches("  session ").count(), 1);
        }
    }
    println!("{} tables of {} records", trial.tables, trial.records);
}
