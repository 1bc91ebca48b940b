//! 02 (xiv): "Two control planes, each with its due." Sentence by sentence, and the readings of it.

mod common;

use common::*;
use second::generate::random::Random;
use second::generate::tables::{self, Filling};
use second::ie::LEAST_REPLY_SPACE;
use second::layout;
use second::live::LiveSet;
use second::repeats::{request_once, Way};
use second::restoration::{self, Envelope};
use second::session::{
    holders, place_of, records_hold, Families, Key, Local, Pdr, Session, Sessions, Tunnel,
};
use second::settings::{Peer, Settings};
use second::unit::{Outcome, Unit};

const ADDRESSES: [[u8; 4]; 2] = [[198, 51, 100, 1], [198, 51, 100, 2]];

/// Guarantee and limit of each peer.
type Dues = [(u32, u32); 2];

/// The worked example: a pool of 8, guarantees 3 and 3, limits 8 and 5.
const EXAMPLE: Dues = [(3, 8), (3, 5)];

fn settings_of(size: u32, session_limit: u32, dues: Dues) -> Option<Settings> {
    let peer =
        |at: usize| Peer { address: ADDRESSES[at], guarantee: dues[at].0, limit: dues[at].1 };
    let peers = [peer(0), peer(1)];
    Settings::make(IPV4, &[], (4096, size), (POOL, 2), session_limit, peers)
}

fn shared(size: u32, dues: Dues) -> Unit {
    Unit::new(settings_of(size, SESSION_LIMIT, dues).unwrap()).unwrap()
}

/// An establishment that takes so many TEIDs.
fn taking(seid: u64, teids: u16) -> Vec<u8> {
    let pdrs: Vec<Vec<u8>> = (1..=teids).map(|id| create_pdr(id, &[choose()])).collect();
    match teids {
        0 => establishment(seid, &[create_pdr(1, &[])]),
        _ => establishment(seid, &pdrs),
    }
}

/// A restoration that names these TEIDs, each in a PDR of its own.
fn naming(seid: u64, teids: &[u32]) -> Vec<u8> {
    let pdr = |(id, teid): (u16, &u32)| create_pdr(id, &[ie(21, &given_v4(*teid))]);
    restoration(seid, &(1..).zip(teids).map(pdr).collect::<Vec<_>>())
}

/// Whether a peer may take so many more TEIDs, by a request and by a restoration alike.
fn may_take(unit: &Unit, peer: u32, teids: u16) -> bool {
    let cause = |message: &[u8]| cause_for(peer, &mut unit.clone(), message);
    let taken = second::session::distinct_teids(unit.sessions());
    let free: Vec<u32> = unit.settings().pool().filter(|teid| !taken.contains(teid)).collect();
    let chosen = cause(&taking(99, teids));
    assert!(chosen == 1 || chosen == 75);
    if free.len() >= usize::from(teids) {
        assert_eq!(cause(&naming(99, &free[..usize::from(teids)])), chosen, "by a restoration");
    }
    chosen == 1
}

/// The most TEIDs that a peer may take at once.
fn most(unit: &Unit, peer: u32) -> u16 {
    let room: Vec<bool> = (0..=16).map(|teids| may_take(unit, peer, teids)).collect();
    let most = room.iter().filter(|may| **may).count() as u16 - 1;
    assert!(room.iter().enumerate().all(|(teids, may)| *may == (teids <= usize::from(most))));
    most
}

#[test]
fn the_worked_example() {
    let mut unit = shared(8, EXAMPLE);
    assert_eq!((most(&unit, 1), most(&unit, 2)), (5, 5));
    // The first peer takes five and is refused the sixth.
    let answer = reply_to(1, &mut unit, &taking(1, 5));
    assert_eq!(
        created(&answer, 8).iter().map(|pair| pair.1).collect::<Vec<_>>(),
        [4096, 4097, 4098, 4099, 4100]
    );
    assert_eq!((most(&unit, 1), most(&unit, 2)), (0, 3));
    assert_eq!(cause_for(1, &mut unit, &modification(1, &[create_pdr(6, &[choose()])])), 75);
    // The second still gets its three, with the same SEID.
    let answer = reply_to(2, &mut unit, &taking(1, 3));
    assert_eq!(created(&answer, 8), [(1, 4101), (2, 4102), (3, 4103)]);
    assert_eq!((unit.free_count(), most(&unit, 1), most(&unit, 2)), (0, 0, 0));
    assert_eq!((unit.peer_count(1), unit.peer_count(2)), (Some((1, 5)), Some((1, 3))));
    assert_eq!(unit.sessions().keys().copied().collect::<Vec<_>>(), [key(1), key2(1)]);
    // Restoring both in any order, each under its peer.
    let settings = unit.settings().clone();
    let envelope = Envelope { header_seid: 0, sequence: 1, ipv4: Some(IPV4), ipv6: None };
    for order in [[key(1), key2(1)], [key2(1), key(1)]] {
        let mut fresh = Unit::new(settings.clone()).unwrap();
        for at in order {
            let session = &unit.sessions()[&at];
            let message = restoration::request(&settings, at.seid, session, &envelope).unwrap();
            assert_eq!(cause_for(at.peer.into(), &mut fresh, &message), 1);
        }
        assert_eq!(fresh, unit);
    }
}

/// "the peer's holdings at entry plus its need pass its limit"
#[test]
fn limits() {
    for limit in 0..=6 {
        let mut unit = shared(8, [(0, limit), (0, 8)]);
        assert_eq!(u32::from(most(&unit, 1)), limit);
        if limit > 1 {
            assert_eq!(cause_for(1, &mut unit, &taking(1, 2)), 1);
            assert_eq!(u32::from(most(&unit, 1)), limit - 2);
            // What the other holds is not counted.
            assert_eq!(cause_for(2, &mut unit, &taking(1, 1)), 1);
            assert_eq!(u32::from(most(&unit, 1)), limit - 2);
        }
    }
}

/// "all holdings at entry, the need, and the other peer's unused guarantee together pass the pool"
#[test]
fn unused_guarantees() {
    for guarantee in 0..=8 {
        let mut unit = shared(8, [(0, 8), (guarantee, 8)]);
        let left = |unit: &Unit| u32::from(most(unit, 1));
        assert_eq!(left(&unit), 8 - guarantee);
        // As the other uses its guarantee, what is left for the first stays; past it, it falls.
        for held in 1..=8 {
            assert_eq!(cause_for(2, &mut unit, &taking(u64::from(held), 1)), 1);
            assert_eq!(left(&unit), 8 - guarantee.max(held));
        }
    }
}

/// "whatever the other does, a need that with the peer's holdings at entry is within its guarantee is
/// never refused for want of TEIDs, and no peer holds more than its limit": every pair of dues of a
/// small pool, with the other taking all that it can get first, in the middle, and last.
#[test]
fn promises_of_small_pools() {
    let size = 4;
    let mut tried = 0;
    for (first, second) in all_dues(size).flat_map(|a| all_dues(size).map(move |b| (a, b))) {
        let Some(settings) = settings_of(size, 8, [first, second]) else {
            assert!(first.0 + second.0 > size);
            continue;
        };
        for before in 0..=first.0 {
            let mut unit = Unit::new(settings.clone()).unwrap();
            assert_eq!(cause_for(1, &mut unit, &taking(1, before as u16)), 1);
            let greedy = most(&unit, 2);
            assert_eq!(u32::from(greedy), second.1.min(size - first.0));
            assert_eq!(cause_for(2, &mut unit, &taking(1, greedy)), 1);
            assert_eq!(cause_for(1, &mut unit, &taking(2, (first.0 - before) as u16)), 1);
            assert_eq!(unit.peer_count(1).map(|counts| counts.1), Some(first.0));
            assert_eq!(records_hold(&settings, unit.sessions()), Ok(()));
            tried += 1;
        }
    }
    assert!(tried > 100, "{tried}");
}

/// Every guarantee and limit that a pool of this size allows a peer.
fn all_dues(size: u32) -> impl Iterator<Item = (u32, u32)> {
    (0..=size).flat_map(move |guarantee| (guarantee..=size).map(move |limit| (guarantee, limit)))
}

/// "Each peer has a guaranteed number of TEIDs and a limit from that to the pool size; the two
/// guarantees together don't exceed the pool." Guarantee and limit of 0 are allowed.
#[test]
fn allowed_dues() {
    let allowed = |dues: Dues| settings_of(8, 64, dues).is_some();
    assert!(allowed([(0, 0), (0, 0)]) && allowed([(8, 8), (0, 0)]) && allowed([(3, 8), (5, 5)]));
    assert!(!allowed([(3, 2), (0, 8)]) && !allowed([(0, 8), (3, 2)]) && !allowed([(1, 0), (0, 0)]));
    assert!(!allowed([(0, 9), (0, 8)]) && !allowed([(0, 8), (0, 9)]));
    assert!(!allowed([(4, 8), (5, 8)]) && !allowed([(8, 8), (1, 1)]));
    // No sum or number wraps around.
    assert!(!allowed([(u32::MAX, u32::MAX), (1, 8)]) && !allowed([(0, u32::MAX), (0, 0)]));
    let whole = Settings { size: 65_536, ..settings_of(8, 64, EXAMPLE).unwrap() };
    let of = |first, second| Settings {
        peers: [
            Peer { guarantee: first, limit: 65_536, ..whole.peers[0] },
            Peer { guarantee: second, limit: 65_536, ..whole.peers[1] },
        ],
        ..whole.clone()
    };
    assert!(of(65_536, 0).are_allowed() && of(32_768, 32_768).are_allowed());
    assert!(!of(65_536, 1).are_allowed() && !of(32_768, 32_769).are_allowed());
}

/// "(the two differ)"; a peer's address may be the unit's.
#[test]
fn allowed_addresses() {
    let good = settings_of(8, 64, EXAMPLE).unwrap();
    let with = |first, second| {
        let mut settings = good.clone();
        settings.peers[0].address = first;
        settings.peers[1].address = second;
        settings.are_allowed()
    };
    assert!(with(IPV4, [0; 4]) && with([0; 4], IPV4) && with([255; 4], [255, 255, 255, 254]));
    assert!(!with(IPV4, IPV4) && !with([0; 4], [0; 4]) && !with(ADDRESSES[0], ADDRESSES[0]));
}

/// "used in its replies' Node ID and F-SEID": in every reply that has them; F-TEIDs carry the unit's.
#[test]
fn addresses_in_replies() {
    let node_id = |reply: &[u8]| elements(reply).into_iter().find(|(ie_type, _)| *ie_type == 60);
    for (peer, address) in [(1, ADDRESSES[0]), (2, ADDRESSES[1])] {
        let mut unit = shared(8, EXAMPLE);
        let expected = Some((60, [vec![0], address.to_vec()].concat()));
        let accepted = reply_to(peer, &mut unit, &taking(7, 1));
        assert_eq!(node_id(&accepted), expected);
        let f_seid = elements(&accepted).into_iter().find(|(ie_type, _)| *ie_type == 57).unwrap().1;
        assert_eq!(f_seid, [vec![2, 0, 0, 0, 0, 0, 0, 0, 7], address.to_vec()].concat());
        let group = elements(&accepted).into_iter().find(|(ie_type, _)| *ie_type == 8).unwrap().1;
        assert_eq!(group[group.len() - 4..], IPV4);
        let refused =
            [taking(7, 1), establishment(8, &[]), taking(8, 9), establishment(8, &[vec![0]])];
        for message in refused {
            let refusal = reply_to(peer, &mut unit, &message);
            assert_ne!(verdict(&refusal).0, 1);
            assert_eq!(node_id(&refusal), expected);
        }
        assert_eq!(node_id(&reply_to(peer, &mut unit, &restoration(9, &[]))), expected);
        for message in [set_deletion(&[fq_csid(5, 1)]), set_deletion(&[ie(65, &[])])] {
            assert_eq!(node_id(&reply_to(peer, &mut unit, &message)), expected);
        }
        assert_eq!(node_id(&reply_to(peer, &mut unit, &modification(7, &[]))), None);
    }
}

/// "any other number is outcome 7, tested first, nothing written"
#[test]
fn no_such_peer() {
    let mut unit = shared(8, EXAMPLE);
    assert_eq!(cause_for(1, &mut unit, &taking(1, 2)), 1);
    let before = unit.clone();
    let mut store = vec![];
    let messages = [deletion(1, &[]), vec![], vec![0; 3000], message(56, 1, 1, &[])];
    for peer in [0, 3, 4, 255, 257, 258, 65_537, 1 << 31, u32::MAX] {
        for message in &messages {
            for space in [0, 16, LEAST_REPLY_SPACE] {
                let nothing = Outcome { number: 7, reply_length: 0, place: 0 };
                let mut reply = vec![0xEE; space];
                assert_eq!(unit.request(peer, message, &mut reply), nothing);
                let once = request_once(&mut unit, peer, &mut store, message, &mut reply);
                assert_eq!(once, (Way::NoPeer, nothing));
                assert!(reply.iter().all(|octet| *octet == 0xEE));
            }
        }
        assert_eq!(unit.peer_count(peer), None);
    }
    assert_eq!((unit, store), (before, vec![]));
}

/// "equal SEIDs may live on both": each peer's requests reach its own sessions only.
#[test]
fn equal_seids() {
    let mut unit = shared(8, [(0, 8); 2]);
    assert_eq!(cause_for(1, &mut unit, &taking(5, 1)), 1);
    assert_eq!(cause_for(2, &mut unit, &modification(5, &[])), 65);
    assert_eq!(cause_for(2, &mut unit, &deletion(5, &[])), 65);
    assert_eq!(cause_for(2, &mut unit, &taking(5, 2)), 1);
    assert_eq!(cause_for(1, &mut unit, &taking(5, 1)), 64);
    assert_eq!(cause_for(2, &mut unit, &taking(5, 1)), 64);
    assert_eq!(cause_for(2, &mut unit, &modification(5, &[remove_pdr(2)])), 1);
    assert_eq!(cause_for(1, &mut unit, &modification(5, &[remove_pdr(2)])), 73);
    assert_eq!(unit.sessions()[&key(5)].pdrs.len(), 1);
    assert_eq!(cause_for(1, &mut unit, &deletion(5, &[])), 1);
    assert_eq!(unit.sessions().keys().copied().collect::<Vec<_>>(), [key2(5)]);
    assert_eq!(unit.free_count(), 7);
}

/// TEIDs and pool addresses are apart over both peers; addresses "stay first come, first served".
#[test]
fn what_both_share() {
    let mut unit = shared(8, [(0, 8), (3, 8)]);
    let addressed = |id| create_pdr(id, &[choose(), choose_address()]);
    assert_eq!(cause_for(1, &mut unit, &establishment(1, &[addressed(1)])), 1);
    // One that the other peer's session holds is 73 in a restoration.
    assert_eq!(cause_for(2, &mut unit, &naming(1, &[4096])), 73);
    let restored = |address| restoration(1, &[create_pdr(1, &[ie(93, &given_address(address))])]);
    assert_eq!(cause_for(2, &mut unit, &restored(POOL)), 73);
    assert_eq!(cause_for(2, &mut unit, &naming(1, &[4097])), 1);
    // The second address goes to the first peer, and no guarantee keeps one for the second.
    assert_eq!(cause_for(1, &mut unit, &modification(1, &[addressed(2)])), 1);
    assert_eq!(unit.free_addresses(), 0);
    assert_eq!(cause_for(2, &mut unit, &modification(1, &[addressed(2)])), 79);
}

/// "Sessions, set deletions [..] are kept by peer".
#[test]
fn set_deletions_by_peer() {
    let card = |peer, unit: &mut Unit, seid| {
        let message = establishment(seid, &[create_pdr(1, &[choose()]), fq_csid(5, 1)]);
        assert_eq!(cause_for(peer, unit, &message), 1);
    };
    let mut unit = shared(8, [(0, 8); 2]);
    for (peer, seid) in [(1, 1), (1, 2), (2, 1), (2, 3)] {
        card(peer, &mut unit, seid);
    }
    let mut live = LiveSet { sessions: unit.sessions().clone() };
    let message = set_deletion(&[fq_csid(5, 1)]);
    let answer = reply_to(2, &mut unit, &message);
    assert_eq!(verdict(&answer).0, 1);
    assert_eq!(unit.sessions().keys().copied().collect::<Vec<_>>(), [key(1), key(2)]);
    assert_eq!(live.follow(2, &message, 0, &answer), Ok(()));
    assert_eq!(live.sessions, *unit.sessions());
    assert_eq!(unit.free_count(), 6);
    assert_eq!(cause_for(1, &mut unit, &message), 1);
    assert!(unit.sessions().is_empty());
}

/// "with half the session limit (now 2 to 256) each, rounded down": limit 3 gives 1 each.
#[test]
fn halves() {
    for (limit, half) in [(2, 1), (3, 1), (4, 2), (5, 2), (64, 32), (255, 127), (256, 128)] {
        let mut unit = Unit::new(settings_of(8, limit, [(0, 8); 2]).unwrap()).unwrap();
        for peer in [2, 1] {
            for seid in 1..=half {
                assert_eq!(cause_for(peer, &mut unit, &taking(seid, 0)), 1);
            }
            assert_eq!(cause_for(peer, &mut unit, &taking(half + 1, 0)), 75);
            assert_eq!(cause_for(peer, &mut unit, &restoration(half + 1, &[])), 75);
        }
        assert_eq!(unit.sessions().len() as u64, 2 * half);
        assert_eq!(cause_for(1, &mut unit, &deletion(1, &[])), 1);
        assert_eq!(cause_for(2, &mut unit, &taking(half + 1, 0)), 75);
        assert_eq!(cause_for(1, &mut unit, &taking(half + 1, 0)), 1);
    }
}

/// "A request needing TEIDs": one that needs none is never refused for them. CHOOSE IDs that are equal
/// count once, and so do TEIDs that a restoration names several times.
#[test]
fn needs() {
    let mut unit = shared(8, [(2, 2), (6, 6)]);
    assert_eq!(most(&unit, 1), 2);
    let pdr = |id, choose_id: u8| create_pdr(id, &[common::choose_id(choose_id)]);
    let of_three = [pdr(1, 7), pdr(2, 7), create_endpoint(1, &[5])];
    assert_eq!(cause_for(1, &mut unit.clone(), &establishment(1, &of_three)), 1);
    let of_four = [pdr(1, 7), pdr(2, 8), create_endpoint(1, &[5])];
    assert_eq!(cause_for(1, &mut unit.clone(), &establishment(1, &of_four)), 75);
    let given = |teid| ie(21, &given_v4(teid));
    let of_two = [
        create_pdr(1, &[given(4096)]),
        create_pdr(2, &[given(4096)]),
        create_endpoint(1, &given_v4(4100)),
        create_pdr(3, &[endpoint_id(1)]),
    ];
    assert_eq!(cause_for(1, &mut unit.clone(), &restoration(1, &of_two)), 1);
    let of_three = [&of_two[..], &[create_pdr(4, &[given(4103)])]].concat();
    assert_eq!(cause_for(1, &mut unit.clone(), &restoration(1, &of_three)), 75);
    // At its limit, and with all of the pool taken or kept.
    assert_eq!(cause_for(1, &mut unit, &restoration(1, &of_two)), 1);
    assert_eq!(cause_for(1, &mut unit, &taking(2, 0)), 1);
    assert_eq!(cause_for(1, &mut unit, &restoration(3, &[])), 1);
    assert_eq!(cause_for(1, &mut unit, &modification(1, &[create_pdr(9, &[choose_address()])])), 1);
    // "A TEID freed by a request is free from the next call on (H)."
    let exchange = modification(1, &[remove_endpoint(1), create_pdr(7, &[choose()])]);
    assert_eq!(cause_for(1, &mut unit, &exchange), 75);
    assert_eq!(cause_for(1, &mut unit, &modification(1, &[remove_endpoint(1)])), 1);
    assert_eq!(cause_for(1, &mut unit, &modification(1, &[create_pdr(7, &[choose()])])), 1);
}

/// 75 stands where it stood: after 73 and before 79.
#[test]
fn order_of_75() {
    let mut unit = shared(8, [(0, 1), (0, 8)]);
    let both =
        |pdi: &[Vec<u8>]| establishment(1, &[create_pdr(1, pdi), create_pdr(2, &[choose()])]);
    assert_eq!(cause_for(1, &mut unit, &both(&[choose(), endpoint_id(3)])), 73);
    for seid in [1, 2] {
        let message = establishment(seid, &[create_pdr(1, &[choose_address()])]);
        assert_eq!(cause_for(2, &mut unit, &message), 1);
    }
    assert_eq!(cause_for(1, &mut unit, &both(&[choose(), choose_address()])), 75);
    let one = establishment(1, &[create_pdr(1, &[choose(), choose_address()])]);
    assert_eq!(cause_for(1, &mut unit, &one), 79);
}

/// A session with so many TEIDs from one on.
fn holding(teids: std::ops::Range<u32>) -> Session {
    let families = Families { v4: true, v6: false };
    let pdr = |teid| Pdr {
        precedence: 1,
        far_id: None,
        source_interface: 0,
        local: Local::Tunnel(Tunnel { teid, families }),
        address: None,
    };
    let pdrs = (1..).zip(teids).map(|(id, teid)| (id, pdr(teid))).collect();
    Session { pdrs, ..Session::default() }
}

/// "A table is broken past a peer's limit of TEIDs or its half of the sessions, or when each peer's
/// holdings or guarantee, whichever is more, together pass the pool."
#[test]
fn broken_tables() {
    let settings = settings_of(8, 4, [(3, 7), (3, 6)]).unwrap();
    let why = |first: u32, second: u32| {
        let sessions = Sessions::from([
            (key(1), holding(4096..4096 + first)),
            (key2(1), holding(4104 - second..4104)),
        ]);
        layout::sound(&layout::encode(&settings, &sessions)).err()
    };
    let dues = Some("holdings and guarantees that together pass the pool".to_string());
    for (first, second) in (0..=8).flat_map(|a: u32| (0..=8 - a).map(move |b| (a, b))) {
        let expected = match (first, second) {
            (8.., _) => Some("peer 1: more TEIDs than its limit".to_string()),
            (_, 7..) => Some("peer 2: more TEIDs than its limit".to_string()),
            _ if first.max(3) + second.max(3) > 8 => dues.clone(),
            _ => None,
        };
        assert_eq!(why(first, second), expected, "{first} and {second}");
    }
    let of = |keys: &[Key]| {
        let sessions: Sessions = keys.iter().map(|key| (*key, Session::default())).collect();
        layout::sound(&layout::encode(&settings, &sessions)).err()
    };
    assert_eq!(of(&[key(1), key(2), key2(1), key2(2)]), None);
    assert_eq!(of(&[key(1), key(2), key(3)]), Some("peer 1: more sessions than its half".into()));
    assert_eq!(
        of(&[key2(1), key2(2), key2(3)]),
        Some("peer 2: more sessions than its half".into())
    );
    for peer in [0, 3, 255] {
        let neither = format!("session 1 of peer {peer}: a peer that is neither 1 nor 2");
        assert_eq!(of(&[Key { peer, seid: 1 }]), Some(neither));
    }
}

/// Settings that are not allowed break a table; each of the 24 octets of the peers counts.
#[test]
fn broken_settings() {
    let settings = settings_of(8, 4, EXAMPLE).unwrap();
    let good = layout::encode(&settings, &Sessions::new());
    assert_eq!(
        good[39..63],
        hex("C6 33 64 01 00 00 00 03 00 00 00 08 C6 33 64 02 00 00 00 03 00 00 00 05")
    );
    assert_eq!(good[63..65], [0, 0]);
    let sound = |at: usize, octet: u8| {
        let mut table = good.clone();
        table[at] = octet;
        layout::sound(&table).is_ok()
    };
    let other = |octet, settings: &Settings| {
        let mut settings = settings.clone();
        settings.peers[1].address[3] = octet;
        settings.are_allowed()
    };
    // The last octet of an address, of a guarantee and of a limit, and each one's first.
    assert!((0..=255).all(|octet| sound(54, octet) == other(octet, &settings)) && !sound(54, 1));
    assert!((0..=255).all(|octet| sound(46, octet) == (octet <= 5)));
    assert!((0..=255).all(|octet| sound(50, octet) == (3..=8).contains(&octet)));
    assert!((0..=255).all(|octet| sound(58, octet) == (octet <= 5)));
    assert!((0..=255).all(|octet| sound(62, octet) == (3..=8).contains(&octet)));
    assert!([43, 47, 55, 59].into_iter().all(|at| sound(at, 0) && !sound(at, 1)));
    assert!([39, 51].into_iter().all(|at| sound(at, 0)));
}

/// "Records stand in ascending order of peer, then as in 01."
#[test]
fn order_in_a_table() {
    let settings = settings_of(8, 6, [(0, 8); 2]).unwrap();
    let keys = [key(2), key(u64::MAX), key2(1), key2(2)];
    let sessions: Sessions = keys.into_iter().map(|key| (key, Session::default())).collect();
    let table = layout::encode(&settings, &sessions);
    assert_eq!(table.len(), 65 + 6 * 604);
    let slot = |place: usize| &table[65 + 604 * place..65 + 604 * (place + 1)];
    for (place, key) in keys.into_iter().enumerate() {
        assert_eq!(slot(place)[0], key.peer);
        assert_eq!(slot(place)[1..9], key.seid.to_be_bytes());
        assert_eq!(place_of(&sessions, key), Some(place));
    }
    assert_eq!(place_of(&sessions, key2(u64::MAX)), None);
    assert_eq!(layout::sound(&table), Ok((settings, sessions)));
    for (first, second) in [(0, 1), (1, 2), (0, 2), (2, 3)] {
        let mut swapped = table.clone();
        let (one, two) = (slot(first).to_vec(), slot(second).to_vec());
        swapped[65 + 604 * first..65 + 604 * (first + 1)].copy_from_slice(&two);
        swapped[65 + 604 * second..65 + 604 * (second + 1)].copy_from_slice(&one);
        assert!(layout::sound(&swapped).is_err(), "{first} and {second}");
        let mut twice = table.clone();
        twice[65 + 604 * second..65 + 604 * (second + 1)].copy_from_slice(&one);
        assert!(layout::sound(&twice).is_err(), "{first} twice");
    }
    // A session's records follow nine octets of its key and three counts.
    let mut one = Sessions::new();
    one.insert(key2(7), holding(4096..4098));
    let table = layout::encode(&settings_of(8, 6, [(0, 8); 2]).unwrap(), &one);
    assert_eq!(table[65..80], hex("02 00 00 00 00 00 00 00 07 02 00 00 00 01 00"));
    assert_eq!(holders(&one).get(&4097), Some(&0));
}

/// "Demand 3 [..] read over the pairs of peer and SEID, each request with its peer and each restoration
/// under its session's": random tables are restored in any order; under the other peer it is another
/// session.
#[test]
fn restorations_under_their_peers() {
    let mut random = Random::new(3);
    for number in 0..30 {
        let limit = [2, 3, 5, 12][number % 4];
        let settings = tables::settings(&mut random, number % 2 == 1, limit);
        let sessions = tables::sessions(&mut random, &settings, Filling::Some);
        let mut keys: Vec<Key> = sessions.keys().copied().collect();
        random.shuffle(&mut keys);
        let mut unit = Unit::new(settings.clone()).unwrap();
        for at in keys {
            let envelope = Envelope::any(&mut random, at.seid);
            let message =
                restoration::request(&settings, at.seid, &sessions[&at], &envelope).unwrap();
            let mut elsewhere = unit.clone();
            assert_eq!(cause_for(at.peer.into(), &mut unit, &message), 1);
            // The other peer may have room for it, and it is its own then.
            let other = Key { peer: 3 - at.peer, ..at };
            if cause_for(other.peer.into(), &mut elsewhere, &message) == 1 {
                assert!(elsewhere.sessions().contains_key(&other));
                assert!(!elsewhere.sessions().contains_key(&at));
            }
        }
        assert_eq!(*unit.sessions(), sessions);
    }
}

/// The live set is over pairs: an accepted call for no peer, or for a session of the other peer only,
/// tells of a fault in whoever replied.
#[test]
fn live_set_over_pairs() {
    let mut live = LiveSet::new();
    let accepted = message(51, 1, 1, &[ie(19, &[1])]);
    assert!(live.follow(3, &restoration(1, &[]), 0, &accepted).is_err());
    assert_eq!(live.follow(3, &restoration(1, &[]), 7, &[]), Ok(()));
    assert_eq!(live, LiveSet::new());
    assert_eq!(live.follow(2, &restoration(1, &[]), 0, &accepted), Ok(()));
    let before = live.clone();
    let deleted = message(55, 1, 1, &[ie(19, &[1])]);
    assert!(live.follow(1, &deletion(1, &[]), 0, &deleted).is_err());
    assert_eq!(live, before);
    assert_eq!(live.follow(1, &restoration(1, &[]), 0, &accepted), Ok(()));
    assert_eq!(live.follow(2, &deletion(1, &[]), 0, &deleted), Ok(()));
    assert_eq!(live.sessions.keys().copied().collect::<Vec<_>>(), [key(1)]);
}

/// "stores of repeats are kept by peer (outcome 1 looks at the named peer's store)": equal octets of
/// the other peer are a request of their own, and each peer counts its own numbers.
#[test]
fn stores_by_peer() {
    let mut unit = shared(8, [(0, 8); 2]);
    let mut stores = [vec![], vec![]];
    let mut ask = |peer: u32, message: &[u8]| {
        let mut space = vec![0; LEAST_REPLY_SPACE];
        let store = &mut stores[peer as usize - 1];
        let (way, outcome) = request_once(&mut unit, peer, store, message, &mut space);
        space.truncate(outcome.reply_length);
        (way, space)
    };
    let numbered =
        |number, seid| message(50, 0, number, &[f_seid(seid), create_pdr(1, &[choose()])]);
    let (way, first) = ask(1, &numbered(100, 1));
    assert_eq!((way, created(&first, 8)), (Way::Engine, vec![(1, 4096)]));
    let (way, second) = ask(2, &numbered(100, 1));
    assert_eq!((way, created(&second, 8)), (Way::Engine, vec![(1, 4097)]));
    assert_eq!(ask(1, &numbered(100, 1)), (Way::Repeat, first));
    assert_eq!(ask(2, &numbered(100, 1)), (Way::Repeat, second));
    assert_eq!(ask(1, &numbered(200, 2)).0, Way::Engine);
    assert_eq!(ask(2, &numbered(150, 2)).0, Way::Engine);
    assert_eq!(ask(1, &numbered(150, 3)).0, Way::Dropped);
    assert_eq!(ask(2, &numbered(200, 2)).0, Way::Engine);
}
