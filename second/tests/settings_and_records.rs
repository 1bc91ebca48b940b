//! Document 01 "Settings and table", with the readings of it.

mod common;

use common::*;
use second::session::{
    records_hold, Endpoint, Families, Key, Local, Pdr, Session, Sessions, Tunnel,
};
use second::settings::Settings;
use second::unit::Unit;

#[test]
fn allowed_settings() {
    let made = |ipv6: &[u8], first, size| {
        let peers = peers(size);
        Settings::make([0; 4], ipv6, (first, size), (POOL, 1), SESSION_LIMIT, peers).is_some()
    };
    assert!(made(&[], 1, 1));
    assert!(made(&[0; 16], 1, 65_536));
    assert!(!made(&[0; 15], 1, 1) && !made(&[0; 17], 1, 1) && !made(&[0; 4], 1, 1));
    assert!(!made(&[], 0, 1));
    assert!(!made(&[], 1, 0) && !made(&[], 1, 65_537) && !made(&[], 1, u32::MAX));
    assert!(made(&[], u32::MAX, 1) && !made(&[], u32::MAX, 2));
    assert!(made(&[], u32::MAX - 65_535, 65_536) && !made(&[], u32::MAX - 65_534, 65_536));
    let good = unit(1, 1).settings().clone();
    assert!(Unit::new(Settings { first: 0, ..good.clone() }).is_none());
    assert!(Unit::new(Settings { addresses: 0, ..good.clone() }).is_none());
    assert!(Unit::new(Settings { size: 65_537, ..good.clone() }).is_none());
    assert!(Unit::new(Settings { session_limit: 0, ..good.clone() }).is_none());
    assert!(Unit::new(Settings { session_limit: 1, ..good.clone() }).is_none());
    assert!(Unit::new(Settings { session_limit: 257, ..good }).is_none());
}

/// "a pool of 1 to 1,024 addresses in the settings (first, size; last at most 255.255.255.255)"
#[test]
fn allowed_pools_of_addresses() {
    let made = |first: [u8; 4], size| {
        let (addresses, peers) = ((first.into(), size), peers(1));
        Settings::make(IPV4, &[], (1, 1), addresses, SESSION_LIMIT, peers).is_some()
    };
    assert!(made([0; 4], 1) && made([0; 4], 1024) && made(IPV4, 3));
    assert!(!made([0; 4], 0) && !made([0; 4], 1025) && !made([0; 4], u32::MAX));
    assert!(made([255; 4], 1) && !made([255; 4], 2) && !made([255; 4], 0));
    assert!(made([255, 255, 252, 0], 1024) && !made([255, 255, 252, 1], 1024));
}

#[test]
fn ids_of_zero_are_allowed() {
    let mut unit = unit(1, 4);
    let pdi = group(2, &[source(0), endpoint_id(0)]);
    let pdr = group(1, &[pdr_id(0), precedence(0), pdi, far(0)]);
    assert_eq!(cause(&mut unit, &establishment(1, &[pdr, create_endpoint(0, &[5])])), 1);
    let session = &unit.sessions()[&key(1)];
    assert_eq!(session.pdrs[&0].far_id, Some(0));
    assert_eq!(session.pdrs[&0].local, Local::Endpoint(0));
}

#[test]
fn map_of_taken_teids() {
    let mut unit = unit(4096, 65_536);
    assert_eq!(unit.taken_map(), [0; 1024]);
    let given = |id, teid| create_pdr(id, &[ie(21, &given_v4(teid))]);
    let last = 4096 + 65_535;
    let parts = [given(1, 4096), given(2, 4096 + 65), given(3, last), given(4, last)];
    assert_eq!(cause(&mut unit, &restoration(1, &parts)), 1);
    assert_eq!(cause(&mut unit, &restoration(2, &[given(1, 4096 + 64 * 64)])), 1);
    let map = unit.taken_map();
    assert_eq!((map[0], map[1], map[63], map[64], map[1023]), (1, 2, 0, 1, 1 << 63));
    assert_eq!(map.iter().map(|word| word.count_ones()).sum::<u32>(), 4);
    assert_eq!(unit.free_count(), 65_532);
}

/// The rules for records, each broken alone.
#[test]
fn broken_records() {
    let settings =
        Settings::make(IPV4, &[], (10, 10), (POOL, 2), SESSION_LIMIT, peers(10)).unwrap();
    let v4 = Families { v4: true, v6: false };
    let tunnel = |teid| Tunnel { teid, families: v4 };
    let pdr =
        |local| Pdr { precedence: 0, far_id: None, source_interface: 0, local, address: None };
    let endpoint = |tunnel| Endpoint { tunnel, address: None };
    let of = |session: Session| Sessions::from([(key(1), session)]);
    let mut good = Session::default();
    good.pdrs.insert(1, pdr(Local::Tunnel(tunnel(10))));
    good.pdrs.insert(2, pdr(Local::Tunnel(tunnel(10))));
    good.endpoints.insert(1, endpoint(tunnel(19)));
    good.pdrs.insert(3, pdr(Local::Endpoint(1)));
    assert_eq!(records_hold(&settings, &of(good.clone())), Ok(()));
    let broken = |change: &dyn Fn(&mut Session)| {
        let mut session = good.clone();
        change(&mut session);
        assert!(records_hold(&settings, &of(session)).is_err());
    };
    let with_endpoint = |tunnel: Tunnel| {
        broken(&|s| {
            s.endpoints.insert(2, endpoint(tunnel));
        })
    };
    broken(&|s| s.pdrs.get_mut(&2).unwrap().source_interface = 1);
    broken(&|s| s.pdrs.get_mut(&2).unwrap().source_interface = 16);
    broken(&|s| s.endpoints.clear());
    broken(&|s| s.pdrs.extend((10..24).map(|id| (id, pdr(Local::Neither)))));
    // Shared with an endpoint, shared with a PDR, outside the pool on both sides.
    for teid in [19, 10, 20, 9] {
        with_endpoint(tunnel(teid));
    }
    for families in [Families { v4: true, v6: true }, Families { v4: false, v6: false }] {
        with_endpoint(Tunnel { teid: 15, families });
    }
    for other in [key(2), key2(1)] {
        let twice = Sessions::from([(key(1), good.clone()), (other, good.clone())]);
        assert!(records_hold(&settings, &twice).is_err());
    }
    assert!(records_hold(&settings, &Sessions::from([(key(0), Session::default())])).is_err());
}

/// "a restored pool address held by another session is 73 (a table so is broken)"; one outside the
/// pool may be held by several, and the records of one session share freely.
#[test]
fn addresses_of_two_sessions() {
    let settings =
        Settings::make(IPV4, &[], (10, 10), (POOL, 2), SESSION_LIMIT, peers(10)).unwrap();
    let pdr = |address| Pdr {
        precedence: 0,
        far_id: None,
        source_interface: 0,
        local: Local::Neither,
        address,
    };
    let tunnel = Tunnel { teid: 10, families: Families { v4: true, v6: false } };
    let of = |first: [u8; 4], second: [u8; 4]| {
        let (first, second) = (Some(first.into()), Some(second.into()));
        let mut one = Session::default();
        one.pdrs.extend([(1, pdr(first)), (2, pdr(first)), (3, pdr(None))]);
        one.endpoints.insert(1, Endpoint { tunnel, address: first });
        let mut two = Session::default();
        two.pdrs.insert(1, pdr(second));
        let holds = |other: Key| {
            let sessions = Sessions::from([(key(1), one.clone()), (other, two.clone())]);
            records_hold(&settings, &sessions).is_ok()
        };
        // The other session may be this peer's or the other's: it is the same.
        assert_eq!(holds(key(2)), holds(key2(1)));
        holds(key(2))
    };
    assert!(of([10, 45, 0, 0], [10, 45, 0, 1]));
    assert!(!of([10, 45, 0, 0], [10, 45, 0, 0]) && !of([10, 45, 0, 1], [10, 45, 0, 1]));
    assert!(of([10, 45, 0, 2], [10, 45, 0, 2]) && of([10, 44, 255, 255], [10, 44, 255, 255]));
}
