//! The restoration requests that a product writes, each compared with the second implementation's,
//! and what it refuses to write.

use second::generate::tables::{self, Filling};
use second::layout;
use second::restoration::{self, Envelope};
use second::session::{Key, Sessions};
use second::settings::Settings;

use crate::run::{Lent, Run};

/// Tables drawn at random, before the sequences, and their session limits.
const TABLES: usize = 200;
const LIMITS: [u16; 5] = [64, 5, 64, 2, 100];

/// What is asked for: a place, the control plane's addresses and a space.
struct Wish<'a> {
    place: usize,
    ipv4: &'a [u8],
    ipv6: &'a [u8],
    space: usize,
}

impl Run<'_> {
    /// Every place of tables drawn at random.
    pub(crate) fn written_of_random_tables(&mut self) {
        for number in 0..TABLES {
            let limit = LIMITS[number % LIMITS.len()];
            let settings = tables::settings(&mut self.random, number % 3 > 0, limit);
            let filling = if number % 20 == 0 { Filling::Full } else { Filling::Some };
            let sessions = tables::sessions(&mut self.random, &settings, filling);
            self.written_requests(&settings, &sessions);
        }
    }

    /// Every place of a sound table, and places past its last session.
    pub(crate) fn written_requests(&mut self, settings: &Settings, sessions: &Sessions) {
        if self.product.write_restoration.is_none() {
            return;
        }
        let mut table = Lent::new(&layout::encode(settings, sessions));
        for (place, (key, session)) in sessions.iter().enumerate() {
            let Key { peer, seid } = *key;
            let sequence = place as u32 + 1;
            let envelope =
                Envelope { header_seid: 0, sequence, ..Envelope::any(&mut self.random, seid) };
            let expected = restoration::request(settings, seid, session, &envelope);
            let expected = expected.expect("a live session can be restored");
            let (ipv4, ipv6) = octets_of(&envelope);
            let length = expected.len();
            let wish = |space| Wish { place, ipv4: &ipv4, ipv6: &ipv6, space };
            let more = self.random.pick(&[0, 1, 100, 2048]);
            self.one_wish(&mut table, wish(length + more), (0, peer.into()), &expected);
            let less = self.random.pick(&[1, 2, length]);
            self.one_wish(&mut table, wish(length - less), (4, 0), &[]);
            self.no_address(&mut table, place);
            self.report.written += 1;
        }
        let limit = usize::from(settings.session_limit);
        for place in [sessions.len(), sessions.len() + 1, limit, limit + 1, usize::MAX] {
            if place >= sessions.len() {
                let wish = self.any_wish(place);
                self.one_wish(&mut table, wish, (2, 0), &[]);
            }
        }
    }

    /// Any place of a broken table.
    pub(crate) fn nothing_written(&mut self, content: &[u8]) {
        if self.product.write_restoration.is_none() {
            return;
        }
        let place = self.random.pick(&[0, 1, 63, 64, 255, 256, usize::MAX]);
        let wish = self.any_wish(place);
        self.one_wish(&mut Lent::new(content), wish, (1, 0), &[]);
    }

    /// A place of a sound table, with no address or with one of another length.
    fn no_address(&mut self, table: &mut Lent, place: usize) {
        let (v4, v6) = self.random.pick(&[(0, 0), (3, 0), (5, 16), (0, 4), (4, 15), (16, 0)]);
        let space = self.random.pick(&[0, 10, 2048]);
        self.one_wish(
            table,
            Wish { place, ipv4: &[1; 16][..v4], ipv6: &[2; 16][..v6], space },
            (3, 0),
            &[],
        );
    }

    fn any_wish(&mut self, place: usize) -> Wish<'static> {
        let (v4, v6) = self.random.pick(&[(0, 0), (4, 0), (0, 16), (4, 16), (2, 2)]);
        let space = self.random.pick(&[0, 10, 2048]);
        Wish { place, ipv4: &[1; 16][..v4], ipv6: &[2; 16][..v6], space }
    }

    /// One call: its outcome and the peer that it tells, the octets that it writes, and that nothing else
    /// is written.
    fn one_wish(&mut self, table: &mut Lent, wish: Wish, told: (u32, u32), expected: &[u8]) {
        let before = table.content().to_vec();
        let mut space = Lent::filled(wish.space);
        let Wish { place, ipv4, ipv6, .. } = wish;
        let (outcome, used, peer) =
            self.product.write_restoration(table.content(), place, ipv4, ipv6, space.lend());
        let given = (outcome, peer);
        let right = given == told
            && used == expected.len()
            && space.content()[..used.min(wish.space)] == *expected
            && space.is_filled_from(used);
        self.report.check(right, || {
            format!("the request at place {place}: {given:?} for {told:?}, {used} octets")
        });
        let unchanged = table.content() == before && table.guards_hold();
        self.report.check(unchanged, || format!("place {place}: the table is written to"));
    }
}

fn octets_of(envelope: &Envelope) -> (Vec<u8>, Vec<u8>) {
    let ipv4 = envelope.ipv4.map_or(vec![], |octets| octets.to_vec());
    let ipv6 = envelope.ipv6.map_or(vec![], |octets| octets.to_vec());
    (ipv4, ipv6)
}
