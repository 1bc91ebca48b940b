//! A seeded generator of sequences of calls. It writes its messages by itself and uses none of the
//! readers and writers under test; of the run it sees the live set only, which whoever drives it
//! folds from the replies. So it can drive any implementation of the rules.

pub mod damage;
pub mod draft;
pub mod flaws;
pub mod largest;
pub mod peers;
pub mod plan;
pub mod planner;
pub mod random;
pub mod requests;
pub mod tables;
pub mod traffic;

use std::net::Ipv4Addr;

use crate::ie::LEAST_REPLY_SPACE;
use crate::session::{count_of, Key, Session, Sessions};
use crate::settings::{Peer, Settings, LARGEST_LIMIT, LARGEST_POOL, MOST_ADDRESSES, PEERS};
use draft::{lay_out, Draft, Node};
use plan::{Plan, DELETION, ESTABLISHMENT, MODIFICATION, SET_DELETION};
use planner::Planner;
use random::Random;

/// What a sequence is about.
#[derive(Clone, Copy, PartialEq, Eq, Debug)]
pub enum Flavour {
    /// A pool of a few TEIDs.
    Tight,
    /// A few dozen TEIDs.
    Middle,
    /// Many small sessions.
    Crowd,
    /// As many small sessions as there can be at all.
    Site,
    /// Few sessions with many records.
    Full,
}

impl Flavour {
    /// Whether the table fills up first.
    pub fn is_crowd(self) -> bool {
        matches!(self, Flavour::Crowd | Flavour::Site)
    }
}

/// The frame of one sequence of calls.
#[derive(Clone, Debug)]
pub struct Scenario {
    pub settings: Settings,
    pub calls: usize,
    pub flavour: Flavour,
    /// The peer whose request comes next.
    peer: u8,
    /// Sessions that were deleted, for restoring them.
    graves: Vec<(u64, Session)>,
}

#[derive(Clone, Debug)]
pub struct Call {
    /// The peer that the host names, mostly 1 or 2.
    pub peer: u32,
    pub message: Vec<u8>,
    pub reply_space: usize,
}

pub struct Generator {
    random: Random,
    made: usize,
}

impl Generator {
    pub fn new(seed: u64) -> Generator {
        Generator { random: Random::new(seed), made: 0 }
    }

    pub fn scenario(&mut self) -> Scenario {
        let flavours = [Flavour::Tight, Flavour::Middle, Flavour::Full, Flavour::Crowd];
        // The largest crowd takes longest, so it is rare.
        let (flavour, calls) = match self.made % 64 {
            3 => (Flavour::Site, 500),
            number => (flavours[number % flavours.len()], 250),
        };
        self.made += 1;
        let session_limit = self.session_limit(flavour);
        let (first, size) = self.teids(flavour);
        let (first_address, addresses) = self.addresses(flavour);
        let random = &mut self.random;
        let ipv4 = random.pick(&[[192, 0, 2, 1], [0, 0, 0, 0], [10, 1, 2, 3]]);
        let mut ipv6 = None;
        if random.percent(60) {
            let address: [u8; 16] = std::array::from_fn(|_| random.octet());
            ipv6 = Some(address);
        }
        let peers = match flavour.is_crowd() || random.percent(30) {
            true => peers::generous(random, ipv4, size),
            false => peers::any(random, ipv4, size),
        };
        let settings =
            Settings { ipv4, ipv6, first, size, first_address, addresses, session_limit, peers };
        Scenario { settings, calls, flavour, peer: 1, graves: vec![] }
    }

    /// A crowd fills its table. The others have room enough for their SEIDs, or far too little.
    fn session_limit(&mut self, flavour: Flavour) -> u16 {
        self.random.pick(match flavour {
            Flavour::Tight => &[2, 3, 4, 24, 24, 24],
            Flavour::Middle => &[2, 5, 10, 24, 24, 64],
            Flavour::Crowd => &[32, 33, 40, 64],
            Flavour::Site => &[LARGEST_LIMIT],
            Flavour::Full => &[2, 3, 12, 12, 12, LARGEST_LIMIT],
        })
    }

    fn teids(&mut self, flavour: Flavour) -> (u32, u32) {
        let random = &mut self.random;
        let size = match flavour {
            Flavour::Tight => random.between(1, 9) as u32,
            Flavour::Middle => random.between(8, 70) as u32,
            Flavour::Crowd => random.pick(&[200, 1000, LARGEST_POOL - 1, LARGEST_POOL]),
            Flavour::Site => LARGEST_POOL,
            Flavour::Full => random.pick(&[40, 64, 65, LARGEST_POOL]),
        };
        let first = match random.below(4) {
            0 => 1,
            1 => u32::MAX - (size - 1),
            2 => 4096,
            _ => 1 + random.below(1 << 31) as u32,
        };
        (first, size)
    }

    fn addresses(&mut self, flavour: Flavour) -> (Ipv4Addr, u32) {
        let random = &mut self.random;
        let addresses = match flavour {
            Flavour::Tight => random.between(1, 3) as u32,
            Flavour::Middle => random.between(2, 20) as u32,
            Flavour::Crowd => random.pick(&[30, 64, MOST_ADDRESSES - 1, MOST_ADDRESSES]),
            Flavour::Site => MOST_ADDRESSES,
            Flavour::Full => random.pick(&[1, 8, 65, MOST_ADDRESSES]),
        };
        let first = match random.below(4) {
            0 => 0,
            1 => u32::MAX - (addresses - 1),
            2 => 0x0A2D_0001,
            _ => random.below(1 << 31) as u32,
        };
        (first.into(), addresses)
    }

    /// Settings that are not allowed, by one number alone: the first ones past an edge, or far off.
    /// The session limit is given as it is, for it may have more than two octets.
    pub fn refused(&mut self, allowed: &Settings) -> (Settings, u32) {
        let mut settings = allowed.clone();
        let mut limit = u32::from(settings.session_limit);
        let random = &mut self.random;
        let past_end = |first: u32| (u32::MAX - first).saturating_add(2);
        // With no dues at all any size is at fault by itself.
        let no_dues = |peer: Peer| Peer { guarantee: 0, limit: 0, ..peer };
        match random.below(9) {
            0 => settings.first = 0,
            1 => {
                settings.size = random.pick(&[0, LARGEST_POOL + 1, u32::MAX]);
                settings.peers = settings.peers.map(no_dues);
            }
            2 => settings.addresses = random.pick(&[0, MOST_ADDRESSES + 1, u32::MAX]),
            3 => {
                settings.first = u32::MAX - random.below(LARGEST_POOL as usize - 1) as u32;
                settings.size = past_end(settings.first);
                settings.peers = settings.peers.map(no_dues);
            }
            4 => {
                let first = u32::MAX - random.below(MOST_ADDRESSES as usize - 1) as u32;
                settings.first_address = first.into();
                settings.addresses = past_end(first);
            }
            5 => {
                let past = u32::from(LARGEST_LIMIT) + 1;
                limit = random.pick(&[0, 1, past, 0x1_0000, 0x1_0002, u32::MAX]);
            }
            _ => settings.peers = peers::refused(random, settings.peers, settings.size),
        }
        (settings, limit)
    }

    /// The next call of a sequence, for the sessions that live now.
    pub fn call(&mut self, scenario: &mut Scenario, live: &Sessions) -> Call {
        let reply_space = match self.random.below(10) {
            0 => self.random.between(LEAST_REPLY_SPACE, 4096),
            _ => LEAST_REPLY_SPACE,
        };
        scenario.peer = self.random.pick(&PEERS);
        // A crowd has to gather first, of both peers.
        let has_room = |peer: u8| !scenario.settings.is_full(count_of(live, peer));
        let gathering = scenario.flavour.is_crowd() && PEERS.into_iter().any(has_room);
        let eager = if scenario.flavour == Flavour::Site { 95 } else { 60 };
        if gathering && self.random.percent(eager) {
            scenario.peer = PEERS.into_iter().rfind(|peer| has_room(*peer)).unwrap_or(1);
            let message = self.sound(scenario, live).octets();
            return Call { peer: scenario.peer.into(), message, reply_space };
        }
        let mut call = self.any_call(scenario, live, reply_space);
        if self.random.percent(2) {
            call.peer = self.random.pick(&[0, 3, 0x101, 0x0100_0000, u32::MAX]);
        }
        call
    }

    /// A call of the scenario's peer, of any kind.
    fn any_call(&mut self, scenario: &mut Scenario, live: &Sessions, reply_space: usize) -> Call {
        let peer = u32::from(scenario.peer);
        let message = match self.random.below(100) {
            0..=2 => {
                let message = self.sound(scenario, live).octets();
                let reply_space = self.random.pick(&[0, 1, 16, 1024, 1278, 1279]);
                return Call { peer, message, reply_space };
            }
            3..=5 => self.of_edge_length(scenario, live),
            6..=9 => self.with_wrong_header(scenario, live),
            10..=11 => {
                let count = self.random.below(80);
                self.random.octets(count)
            }
            12..=14 => self.soup(live),
            15..=17 => self.with_octets_changed(scenario, live),
            18..=52 => self.damaged(scenario, live),
            53..=78 => self.flawed(scenario, live).octets(),
            _ => self.sound(scenario, live).octets(),
        };
        Call { peer, message, reply_space }
    }

    fn planner<'a>(&'a mut self, scenario: &'a Scenario, live: &'a Sessions) -> Planner<'a> {
        let (settings, flavour, peer) = (&scenario.settings, scenario.flavour, scenario.peer);
        Planner { random: &mut self.random, settings, live, flavour, peer }
    }

    /// A plan that fits the live sessions.
    fn plan(&mut self, scenario: &mut Scenario, live: &Sessions) -> Plan {
        let graves = scenario.graves.clone();
        let mut planner = self.planner(scenario, live);
        let Some(seid) = planner.live_seid() else { return planner.establishment() };
        let nearly_full = planner.settings.is_full(count_of(live, planner.peer) + 2);
        // Of a hundred: establishments, modifications, restorations; the rest are deletions, one by
        // one or by sets.
        let (establishments, modifications, restorations) = match planner.flavour {
            Flavour::Tight => (32, 40, 15),
            Flavour::Middle => (28, 45, 15),
            Flavour::Crowd | Flavour::Site if nearly_full => (40, 12, 40),
            Flavour::Crowd => (66, 22, 11),
            Flavour::Site => (85, 5, 10),
            Flavour::Full => (12, 62, 18),
        };
        let chance = planner.random.below(100);
        if chance < establishments {
            planner.establishment()
        } else if chance < establishments + modifications {
            planner.modification(seid)
        } else if chance < establishments + modifications + restorations {
            planner.restoration(&graves)
        } else if planner.random.percent(50) {
            planner.set_deletion()
        } else {
            let plan = planner.deletion(seid);
            let key = Key { peer: scenario.peer, seid };
            scenario.graves.push((seid, live[&key].clone()));
            if scenario.graves.len() > 8 {
                scenario.graves.remove(0);
            }
            plan
        }
    }

    /// A sound request, sometimes with elements that are to be skipped.
    fn sound(&mut self, scenario: &mut Scenario, live: &Sessions) -> Draft {
        let plan = self.plan(scenario, live);
        let noise = self.random.percent(50);
        let mut draft = lay_out(&plan, &mut self.random, noise);
        if noise {
            for _ in 0..self.random.below(5) {
                damage::add_skipped(&mut draft, &mut self.random);
            }
        }
        draft
    }

    /// A request against a rule of stage 4 or 5, or two.
    fn flawed(&mut self, scenario: &mut Scenario, live: &Sessions) -> Draft {
        let mut plan = match self.random.percent(25) {
            true => {
                let graves = scenario.graves.clone();
                self.planner(scenario, live).restoration(&graves)
            }
            false => self.plan(scenario, live),
        };
        let twice = self.random.percent(40);
        let mut planner = self.planner(scenario, live);
        planner.add_flaw(&mut plan);
        if twice {
            planner.add_flaw(&mut plan);
        }
        if self.random.percent(50) {
            self.random.shuffle(&mut plan.items);
        }
        let noise = self.random.percent(20);
        lay_out(&plan, &mut self.random, noise)
    }

    fn damaged(&mut self, scenario: &mut Scenario, live: &Sessions) -> Vec<u8> {
        let plan = match self.random.below(10) {
            0..=1 => self.plan(scenario, live),
            _ => {
                let mut planner = self.planner(scenario, live);
                let kind = match planner.random.below(20) {
                    0..=6 => ESTABLISHMENT,
                    7..=15 => MODIFICATION,
                    16 => DELETION,
                    _ => SET_DELETION,
                };
                let unknown = planner.random.percent(11);
                let seid = match (kind, planner.live_seid()) {
                    (MODIFICATION | DELETION, Some(seid)) if !unknown => seid,
                    _ => planner.unused_seid(),
                };
                planner.rich(kind, seid)
            }
        };
        let mut draft = lay_out(&plan, &mut self.random, false);
        if plan.message_type == ESTABLISHMENT && !draft.nodes.iter().any(|n| n.ie_type == 186) {
            draft.nodes.insert(0, Node::leaf(186, vec![0]));
        }
        for _ in 0..self.random.pick(&[1, 1, 1, 1, 2, 3]) {
            damage::damage(&mut draft, &mut self.random);
        }
        draft.octets()
    }

    /// Around the largest message: filled up with a vendor element.
    fn of_edge_length(&mut self, scenario: &mut Scenario, live: &Sessions) -> Vec<u8> {
        let mut draft = self.sound(scenario, live);
        let length = draft.octets().len();
        let wanted = self.random.pick(&[2047, 2048, 2048, 2049, 2050, 2500, 5000]);
        if length + 4 <= wanted {
            let filling = vec![0; wanted - length - 4];
            draft.nodes.push(Node::leaf(50000, filling));
        }
        draft.octets()
    }

    fn with_wrong_header(&mut self, scenario: &mut Scenario, live: &Sessions) -> Vec<u8> {
        let mut draft = match self.random.percent(25) {
            true => {
                let plan = self.planner(scenario, live).set_deletion();
                lay_out(&plan, &mut self.random, false)
            }
            false => self.sound(scenario, live),
        };
        match self.random.below(8) {
            0 => draft.first_octet ^= 1,
            7 => {
                // The header of the other length, with its S; or a set deletion with a SEID.
                draft.seid = match draft.seid {
                    Some(_) => None,
                    None => Some(1),
                };
                draft.first_octet ^= 1;
                if self.random.percent(50) {
                    draft.message_type = SET_DELETION;
                }
            }
            1 => draft.first_octet |= 4,
            2 => {
                draft.first_octet = draft.first_octet & 0x1F | self.random.pick(&[0, 2, 3, 7]) << 5
            }
            3 => draft.length_shift = self.random.pick(&[-16, -4, -1, 1, 4, 256]),
            4 => draft.message_type = self.random.pick(&[1, 5, 49, 51, 53, 55, 56, 0, 255]),
            5 if draft.seid.is_some() => {
                draft.seid = Some(self.random.pick(&[0, 12345, u64::MAX - 1]));
            }
            _ => {
                let mut message = draft.octets();
                let some = self.random.below(17);
                let whole = if draft.seid.is_some() { 16 } else { 8 };
                message.truncate(self.random.pick(&[whole - 1, whole, some, some]));
                // The length of what is left, so that only its shortness is wrong.
                if self.random.percent(50) && message.len() >= 4 {
                    let length = (message.len() - 4) as u16;
                    message[2..4].copy_from_slice(&length.to_be_bytes());
                }
                return message;
            }
        }
        draft.octets()
    }

    /// A sound message with a few bits flipped or cut short, mostly with its length set right.
    fn with_octets_changed(&mut self, scenario: &mut Scenario, live: &Sessions) -> Vec<u8> {
        let mut message = match self.random.percent(50) {
            true => self.sound(scenario, live).octets(),
            false => self.flawed(scenario, live).octets(),
        };
        let header = if message[1] == SET_DELETION { 8 } else { 16 };
        for _ in 0..self.random.below(4) {
            let first = if message.len() > header { header } else { 0 };
            let at = self.random.between(first, message.len() - 1);
            message[at] ^= 1 << self.random.below(8);
        }
        if self.random.percent(40) {
            let length = self.random.between(header, message.len());
            message.truncate(length);
        }
        if self.random.percent(90) {
            let length = (message.len() - 4) as u16;
            message[2..4].copy_from_slice(&length.to_be_bytes());
        }
        message
    }

    /// A right header and random elements, most of them of types that the rules name.
    fn soup(&mut self, live: &Sessions) -> Vec<u8> {
        let seids: Vec<u64> = live.keys().map(|key| key.seid).collect();
        let seid = if seids.is_empty() { 1 } else { self.random.pick(&seids) };
        let message_type =
            self.random.pick(&[ESTABLISHMENT, MODIFICATION, MODIFICATION, DELETION, SET_DELETION]);
        let seid = (message_type != SET_DELETION).then_some(seid);
        let nodes = self.soup_nodes(3);
        Draft {
            first_octet: 0x20 | u8::from(seid.is_some()),
            message_type,
            seid,
            sequence: 7,
            spare: 0,
            length_shift: 0,
            nodes,
        }
        .octets()
    }

    fn soup_nodes(&mut self, depth: usize) -> Vec<Node> {
        let types = [
            1, 1, 2, 2, 9, 15, 20, 21, 29, 56, 56, 57, 65, 93, 108, 127, 129, 130, 131, 186, 40000,
        ];
        let mut nodes = Vec::new();
        for _ in 0..self.random.below(6) {
            let ie_type = self.random.pick(&types);
            let group = [1, 2, 9, 15, 127, 130].contains(&ie_type) && depth > 0;
            let mut node = match group {
                true => Node::group(ie_type, self.soup_nodes(depth - 1)),
                false => {
                    let count = self.random.pick(&[0, 1, 2, 4, 5, 8, 13]);
                    Node::leaf(ie_type, self.random.octets(count))
                }
            };
            if self.random.percent(4) {
                node.length_shift = self.random.pick(&[-2, -1, 1, 3]);
            }
            nodes.push(node);
        }
        nodes
    }
}
