//! 02 (vi): "A bigger site." Sentence by sentence, and the readings of it.

mod common;

use common::*;
use second::generate::largest;
use second::layout;
use second::restoration::{self, Envelope, LONGEST};
use second::session::{records_hold, Session, Sessions};
use second::settings::Settings;
use second::unit::Unit;

const LIMITS: [u16; 6] = [2, 3, 5, 64, 255, 256];

fn small(seid: u64) -> Vec<u8> {
    establishment(seid, &[create_pdr(1, &[])])
}

/// "The session limit [..] becomes a setting", with 02 (xiv) "now 2 to 256"
#[test]
fn allowed_limits() {
    let made = |limit| Settings::make(IPV4, &[], (1, 1), (POOL, 1), limit, peers(1));
    for limit in LIMITS {
        assert_eq!(made(limit.into()).unwrap().session_limit, limit);
    }
    // The last two would be allowed by their low octets alone.
    for limit in [0, 1, 257, 65_535, u32::MAX, 65_538, 65_792] {
        assert_eq!(made(limit), None);
    }
}

/// "from which the table's length follows"
#[test]
fn length_by_limit() {
    let lengths = [2, 3, 64, 255, 256].map(layout::length_for);
    assert_eq!(lengths, [1273, 1877, 38_721, 154_085, 154_689]);
    assert_eq!([0, 1, 257, 65_536, 65_538, u32::MAX].map(layout::length_for), [0; 6]);
}

/// The limit is "also in cause 75", by halves for each peer: up to it every establishment is accepted,
/// past it none is, a restoration no more than another.
#[test]
fn cause_75_exactly_at_the_limit() {
    for (session_limit, limit) in LIMITS.map(|limit| (u32::from(limit), u64::from(limit / 2))) {
        let mut unit = unit_with_limit(session_limit, (4096, 4));
        for seid in 1..=limit {
            assert_eq!(cause(&mut unit, &small(seid)), 1, "session {seid} of {limit}");
        }
        let new = limit + 1;
        assert_eq!(cause(&mut unit, &small(new)), 75);
        assert_eq!(cause(&mut unit, &restoration(new, &[])), 75);
        assert_eq!(cause(&mut unit, &small(1)), 64);
        // What takes no further place is no matter of the limit.
        assert_eq!(cause(&mut unit, &modification(1, &[create_pdr(2, &[choose()])])), 1);
        assert_eq!(cause(&mut unit, &deletion(limit, &[])), 1);
        assert_eq!(cause(&mut unit, &restoration(new, &[])), 1);
        assert_eq!(cause(&mut unit, &small(limit)), 75);
        assert_eq!(unit.sessions().len() as u64, limit);
    }
}

/// Down the causes' table: 73 comes before it and 79 after it.
#[test]
fn order_of_75() {
    let mut unit = unit_with_limit(2, (4096, 4));
    assert_eq!(cause(&mut unit, &small(1)), 1);
    let names_none = create_pdr(1, &[endpoint_id(9)]);
    assert_eq!(cause(&mut unit, &establishment(2, &[names_none])), 73);
    for count in 1..=4 {
        let created = create_pdr(1 + count, &[choose_address()]);
        assert_eq!(cause(&mut unit, &modification(1, &[created])), 1);
    }
    assert_eq!(unit.free_addresses(), 0);
    assert_eq!(cause(&mut unit, &establishment(2, &[create_pdr(1, &[choose_address()])])), 75);
}

/// A table with so many sessions of each peer.
fn table(limit: u16, sessions: u64) -> Vec<u8> {
    let settings = Settings::make(IPV4, &[], (1, 1), (POOL, 1), limit.into(), peers(1)).unwrap();
    let of_both = (1..=sessions).flat_map(|seid| [key(seid), key2(seid)]);
    let all: Sessions = of_both.map(|key| (key, Session::default())).collect();
    layout::encode(&settings, &all)
}

fn with_limit(table: &[u8], limit: u16) -> Vec<u8> {
    let mut changed = table.to_vec();
    changed[37..39].copy_from_slice(&limit.to_be_bytes());
    changed
}

/// The number of addresses, the limit and the first octet of the peers after them.
#[test]
fn octets_of_the_limit() {
    let table = table(256, 3);
    assert_eq!(table[33..40], [0, 0, 0, 1, 1, 0, 192]);
    assert_eq!(table[63..65], [0, 6]);
}

/// "A table whose limit and length disagree is broken."
#[test]
fn tables_of_another_length() {
    for limit in LIMITS {
        let good = table(limit, 1);
        assert!(layout::sound(&good).is_ok());
        let why = |octets: &[u8]| layout::sound(octets).unwrap_err();
        let other_length = "another length than its session limit's";
        for other in LIMITS.into_iter().filter(|other| *other != limit) {
            assert_eq!(why(&with_limit(&good, other)), other_length);
        }
        for other in [0, 1, 257, u16::MAX] {
            assert_eq!(why(&with_limit(&good, other)), "a session limit that is not allowed");
        }
        let slot_more = [good.clone(), vec![0; 604]].concat();
        assert_eq!(why(&slot_more), other_length);
        assert_eq!(why(&[good.clone(), vec![0]].concat()), other_length);
        assert_eq!(why(&good[..good.len() - 1]), other_length);
        assert_eq!(why(&good[..good.len() - 604]), other_length);
        assert_eq!(why(&good[..64]), "a length under that of its settings");
        // With the limit of its length it is sound again, unless that is none.
        let settings_of = |octets: &[u8]| layout::sound(octets).map(|(settings, _)| settings);
        let next = settings_of(&with_limit(&slot_more, limit + 1));
        assert_eq!(
            next.map(|settings| settings.session_limit).ok(),
            match limit {
                256 => None,
                _ => Some(limit + 1),
            }
        );
    }
}

/// More sessions than the limit, with room for as many as the limit or for all of them.
#[test]
fn tables_of_too_many_sessions() {
    let full = table(6, 3);
    let less = with_limit(&full[..full.len() - 604], 5);
    assert_eq!(layout::sound(&less).unwrap_err(), "more sessions than its session limit");
    let mut counted = table(4, 2);
    counted[64] = 5;
    assert_eq!(layout::sound(&counted).unwrap_err(), "more sessions than its session limit");
    let (settings, sessions) = layout::sound(&full).unwrap();
    assert_eq!(records_hold(&settings, &sessions), Ok(()));
    assert!(records_hold(&Settings { session_limit: 5, ..settings }, &sessions).is_err());
}

/// 256 sessions with everything that they can hold: 6,144 TEIDs by CHOOSE, each the lowest free.
#[test]
fn the_largest_site() {
    let mut unit = unit_with_limit(256, (1, 65_536));
    for number in 0..256_u32 {
        let (peer, seid) = (1 + number % 2, 1 + number / 2);
        let first = 1 + 24 * number;
        let endpoints = (0..8).map(|id| create_endpoint(id, &[5]));
        let parts: Vec<Vec<u8>> =
            endpoints.chain((0..16).map(|id| create_pdr(id, &[choose()]))).collect();
        let answer = reply_to(peer, &mut unit, &establishment(seid.into(), &parts));
        let pdrs: Vec<(u16, u32)> = (0..16).map(|id| (id, first + 8 + u32::from(id))).collect();
        let ends: Vec<(u16, u32)> = (0..8).map(|id| (id, first + u32::from(id))).collect();
        assert_eq!((created(&answer, 8), created(&answer, 128)), (pdrs, ends));
    }
    assert_eq!(unit.free_count(), 65_536 - 6144);
    let map = unit.taken_map();
    assert!(map.iter().enumerate().all(|(at, word)| *word == if at < 96 { u64::MAX } else { 0 }));
    assert_eq!([1, 2].map(|peer| cause_for(peer, &mut unit, &small(129))), [75; 2]);
    // Past 96 full words.
    let exchanged = modification(9, &[remove_pdr(3), create_pdr(77, &[choose()])]);
    assert_eq!(created(&reply(&mut unit, &exchanged), 8), [(77, 1 + 6144)]);
}

/// The last TEID of a full pool: none is left after it, and it alone is free once it goes.
#[test]
fn the_last_teid_of_the_largest_pool() {
    let mut unit = unit_with_limit(4, (1, 65_536));
    let given = |id, teid| create_pdr(id, &[ie(21, &given_v4(teid))]);
    assert_eq!(cause(&mut unit, &restoration(1, &[given(1, 65_537)])), 73);
    assert_eq!(cause(&mut unit, &restoration(1, &[given(1, 65_536), given(2, 1)])), 1);
    assert_eq!(unit.free_count(), 65_534);
    let answer = reply(&mut unit, &establishment(2, &[create_pdr(1, &[choose()])]));
    assert_eq!(created(&answer, 8), [(1, 2)]);
    assert_eq!(cause(&mut unit, &modification(1, &[remove_pdr(1)])), 1);
    assert_eq!((unit.free_count(), unit.taken_map()[1023]), (65_534, 0));
}

/// The largest table of a limit is full, sound, and restored by requests of the longest length.
#[test]
fn largest_tables() {
    for limit in LIMITS {
        let (settings, sessions) = (largest::settings(limit), largest::sessions(limit));
        let octets = layout::encode(&settings, &sessions);
        assert_eq!(octets.len(), 65 + 604 * usize::from(limit));
        assert_eq!(layout::sound(&octets), Ok((settings.clone(), sessions.clone())));
        assert_eq!(sessions.len(), 2 * usize::from(limit / 2));
        let mut unit = Unit::new(settings.clone()).unwrap();
        let envelope = Envelope { header_seid: 0, sequence: 1, ipv4: Some(IPV4), ipv6: Some(IPV6) };
        for (key, session) in &sessions {
            let message = restoration::request(&settings, key.seid, session, &envelope).unwrap();
            assert_eq!(message.len(), LONGEST);
            assert_eq!(cause_for(key.peer.into(), &mut unit, &message), 1);
        }
        assert_eq!(*unit.sessions(), sessions);
        assert_eq!((unit.free_count(), unit.free_addresses()), (0, 0));
    }
}
