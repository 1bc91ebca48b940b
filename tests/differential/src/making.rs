//! Making tables: the length of each session limit, settings at the edges, and tables of other lengths.

use std::net::Ipv4Addr;

use second::generate::Generator;
use second::layout;
use second::session::Sessions;
use second::settings::{Peer, Settings};

use crate::run::{Lent, Run, FILLING};

/// Session limits and the lengths of their tables; 0 where a limit is not allowed. The low two octets
/// of the last ones would be.
const LENGTHS: [(u32, usize); 14] = [
    (0, 0),
    (1, 0),
    (2, 1273),
    (3, 1877),
    (5, 3085),
    (64, 38_721),
    (65, 39_325),
    (255, 154_085),
    (256, 154_689),
    (257, 0),
    (u32::MAX, 0),
    (0x1_0000, 0),
    (0x1_0002, 0),
    (0x8000_0040, 0),
];

/// Guarantees and limits around every edge of a pool of eight.
const DUES: [(u32, u32); 14] = [
    (0, 0),
    (0, 1),
    (0, 8),
    (0, 9),
    (1, 0),
    (3, 2),
    (3, 3),
    (3, 8),
    (5, 5),
    (5, 8),
    (6, 8),
    (8, 8),
    (9, 9),
    (u32::MAX, u32::MAX),
];

/// What a table is to be made of.
#[derive(Clone, Debug)]
struct Wish {
    ipv6_length: usize,
    teids: (u32, u32),
    addresses: (Ipv4Addr, u32),
    limit: u32,
    peers: [Peer; 2],
    table_length: usize,
}

impl Wish {
    /// An allowed one.
    fn new(limit: u16) -> Wish {
        Wish {
            ipv6_length: 0,
            teids: (1, 1),
            addresses: (Ipv4Addr::new(10, 0, 0, 0), 254),
            limit: limit.into(),
            peers: [1, 2].map(|octet| peer(octet, (0, 0))),
            table_length: layout::length(limit),
        }
    }
}

fn peer(octet: u8, (guarantee, limit): (u32, u32)) -> Peer {
    Peer { address: [10, 0, 0, octet], guarantee, limit }
}

impl Run<'_> {
    pub(crate) fn made_tables(&mut self) {
        for (limit, length) in LENGTHS {
            let told = self.product.table_length(limit);
            let right = told == length && told == layout::length_for(limit);
            self.report.check(right, || format!("a table length of {told} for {limit}"));
        }
        for limit in 0..=1000 {
            let told = self.product.table_length(limit);
            let right = told == layout::length_for(limit);
            self.report.check(right, || format!("a table length of {told} for {limit}"));
        }
        self.made_of_teids();
        self.made_of_addresses();
        self.made_of_limits();
        self.made_of_peers();
    }

    /// Every pair of these dues, and addresses that are equal, near to each other and the unit's.
    fn made_of_peers(&mut self) {
        let wish = || Wish { teids: (4096, 8), ..Wish::new(5) };
        for (first, second) in DUES.into_iter().flat_map(|one| DUES.map(|two| (one, two))) {
            self.one_making(Wish { peers: [peer(1, first), peer(2, second)], ..wish() });
            self.one_making(Wish { peers: [peer(3, first), peer(3, second)], ..wish() });
        }
        let addresses = [[0; 4], [255; 4], [10, 0, 0, 1], [10, 0, 0, 2], [11, 0, 0, 1]];
        for (first, second) in addresses.into_iter().flat_map(|a| addresses.map(|b| (a, b))) {
            let one = |address| Peer { address, ..peer(1, (1, 8)) };
            self.one_making(Wish { peers: [one(first), one(second)], ..wish() });
        }
        for size in [1, 65_535, 65_536] {
            for (first, second) in [(size, 0), (size, 1), (size / 2, size - size / 2), (0, size)] {
                let peers = [peer(1, (first, size)), peer(2, (second, size))];
                self.one_making(Wish { teids: (1, size), peers, ..Wish::new(5) });
            }
        }
    }

    fn made_of_teids(&mut self) {
        let last = u32::MAX;
        let teids = [(0, 1), (1, 0), (1, 1), (1, 65_536), (1, 65_537), (4096, last), (last, 1)];
        let at_the_end = [(last, 2), (last - 65_535, 65_536), (last - 65_534, 65_536)];
        let length = layout::length(5);
        for teids in teids.into_iter().chain(at_the_end) {
            for ipv6_length in [0, 1, 15, 16, 17] {
                for table_length in [0, 1, length - 1, length, length + 1] {
                    self.one_making(Wish { ipv6_length, teids, table_length, ..Wish::new(5) });
                }
            }
        }
    }

    fn made_of_addresses(&mut self) {
        let last = u32::MAX;
        let addresses = [(0, 0), (0, 1), (0, 1024), (0, 1025), (7, last), (last, 0), (last, 1)];
        let at_the_end = [(last, 2), (last - 1023, 1024), (last - 1022, 1024), (last - 1022, 1023)];
        let length = layout::length(5);
        for (first, count) in addresses.into_iter().chain(at_the_end) {
            let addresses = (Ipv4Addr::from(first), count);
            for table_length in [length - 1, length] {
                let ipv6_length = 16;
                self.one_making(Wish { ipv6_length, addresses, table_length, ..Wish::new(5) });
            }
        }
    }

    /// Every limit with its own length, with another's, and with a slot or an octet more or less.
    fn made_of_limits(&mut self) {
        for limit in [2, 3, 5, 64, 65, 255, 256] {
            let length = layout::length(limit);
            let near = [length - 1, length, length + 1, length - layout::SLOT];
            let far = [0, layout::SLOTS, length + layout::SLOT, layout::length(limit % 256 + 2)];
            for table_length in near.into_iter().chain(far) {
                self.one_making(Wish { table_length, ..Wish::new(limit) });
            }
        }
        for (limit, _) in LENGTHS.into_iter().filter(|(_, length)| *length == 0) {
            // As long as the limit would say, or its low two octets; and of an allowed limit.
            let said = layout::SLOTS + layout::SLOT * limit.min(257) as usize;
            let low = layout::length(limit as u16 % 257);
            for table_length in [0, said, low, layout::length(2), layout::length(64)] {
                self.one_making(Wish { limit, table_length, ..Wish::new(2) });
            }
        }
    }

    /// Settings that are not allowed by one number alone, for a table of the right length.
    pub(crate) fn refused_making(&mut self, generator: &mut Generator, allowed: &Settings) {
        let (other, limit) = generator.refused(allowed);
        let ipv6_length = if other.ipv6.is_some() { 16 } else { 0 };
        let wish = Wish {
            ipv6_length,
            teids: (other.first, other.size),
            addresses: (other.first_address, other.addresses),
            limit,
            peers: other.peers,
            table_length: layout::length(allowed.session_limit),
        };
        let made = self.one_making(wish.clone());
        self.report.check(made == 1, || format!("made {made}: {wish:?}"));
    }

    /// One call: the table that it makes, or that a refusal writes nothing. Gives what the call gave.
    fn one_making(&mut self, wish: Wish) -> u32 {
        let (ipv4, ipv6) = ([10, 0, 0, 1], &[7_u8; 17][..wish.ipv6_length]);
        let Wish { teids, addresses, limit, peers, table_length, .. } = wish;
        let mut table = Lent::filled(table_length);
        let made =
            self.product.make_table(table.lend(), ipv4, ipv6, teids, addresses, (limit, peers));
        let allowed = Settings::make(ipv4, ipv6, teids, addresses, limit, peers);
        let right = match allowed.filter(|_| table_length == layout::length_for(limit)) {
            Some(settings) => {
                made == 0 && table.content() == layout::encode(&settings, &Sessions::new())
            }
            None => made == 1 && table.content().iter().all(|octet| *octet == FILLING),
        };
        self.report.check(right && table.guards_hold(), || format!("made {made}: {wish:?}"));
        made
    }
}
