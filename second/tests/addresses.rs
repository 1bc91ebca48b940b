//! 02 (v): "Hand out patients' IPv4 addresses." Sentence by sentence, and the readings of it.

mod common;

use std::net::Ipv4Addr;

use common::*;
use second::element::ue_ip::{self, UeIp};
use second::live::LiveSet;
use second::request::{first_fault, first_place};
use second::unit::Unit;

fn pool(place: u8) -> Ipv4Addr {
    let [a, b, c, d] = POOL.octets();
    Ipv4Addr::new(a, b, c, d + place)
}

const OUTSIDE: Ipv4Addr = Ipv4Addr::new(203, 0, 113, 9);

fn given(address: Ipv4Addr) -> Vec<u8> {
    ie(93, &given_address(address))
}

fn pdr(id: u16, value: &[u8]) -> Vec<u8> {
    create_pdr(id, &[ie(93, value)])
}

fn endpoint(id: u8, f_teid: &[u8], address: Vec<u8>) -> Vec<u8> {
    group(127, &[endpoint_id(id), ie(21, f_teid), address])
}

/// The addresses of a reply's Created groups of this type, by ID; where there is none, nothing.
fn chosen(reply: &[u8], ie_type: u16) -> Vec<(u16, Vec<u16>, Option<Ipv4Addr>)> {
    let mut found = Vec::new();
    for (_, value) in elements(reply).into_iter().filter(|(other, _)| *other == ie_type) {
        let members = elements(&[vec![1; 16], value].concat());
        let id = members[0].1.iter().fold(0, |id, octet| id << 8 | u16::from(*octet));
        let address = members.iter().find(|(t, _)| *t == 93).map(|(_, value)| {
            assert_eq!((value.len(), value[0]), (5, 2));
            Ipv4Addr::new(value[1], value[2], value[3], value[4])
        });
        found.push((id, members.iter().map(|(t, _)| *t).collect(), address));
    }
    found
}

/// "Order: empty 68; V6, CHV6, IPv6D or IP6PL 76, in stage 4, no more read; not just one of V4, CHV4
/// 69; short 68; S/D and bit 8 ignored and written 0."
#[test]
fn values() {
    let cause = |value: &[u8]| ue_ip::read(value).unwrap_err().cause();
    assert_eq!(ue_ip::read(&hex("02 CB 00 71 09")), Ok(UeIp::Given(OUTSIDE)));
    assert_eq!(ue_ip::read(&hex("86 CB 00 71 09 01 02")), Ok(UeIp::Given(OUTSIDE)));
    assert_eq!(ue_ip::read(&hex("10")), Ok(UeIp::Choose));
    assert_eq!(ue_ip::read(&hex("94 FF")), Ok(UeIp::Choose));
    assert_eq!(cause(&[]), 68);
    for flags in [0x00, 0x04, 0x80, 0x12, 0x96] {
        assert_eq!(cause(&[flags]), 69);
    }
    for length in 1..5 {
        assert_eq!(cause(&hex("02 CB 00 71 09")[..length]), 68);
    }
    for flags in [0x01, 0x08, 0x20, 0x40] {
        for others in [0, 0x02, 0x12, 0x96, 0xFF] {
            assert_eq!(ue_ip::read(&[flags | others]), Ok(UeIp::NotServed));
        }
    }
}

#[test]
fn writer() {
    let mut space = [0xEE; 7];
    assert_eq!(ue_ip::write(&UeIp::Given(OUTSIDE), &mut space[..4]), None);
    assert_eq!(ue_ip::write(&UeIp::NotServed, &mut space), None);
    assert_eq!(ue_ip::write(&UeIp::Choose, &mut []), None);
    assert_eq!(space, [0xEE; 7]);
    assert_eq!(ue_ip::write(&UeIp::Given(OUTSIDE), &mut space), Some(5));
    assert_eq!(space, [2, 203, 0, 113, 9, 0xEE, 0xEE]);
    assert_eq!(ue_ip::write(&UeIp::Choose, &mut space), Some(1));
    assert_eq!(space, [0x10, 203, 0, 113, 9, 0xEE, 0xEE]);
}

/// "All CHOOSE IPV4 flags in one request share one address, the lowest free at entry." "A record's one
/// Created group lists what was chosen": 56 21 93, 56 21, 56 93; likewise 131.
#[test]
fn shared_and_listed() {
    let mut unit = unit(4096, 9);
    let message = establishment(
        1,
        &[
            create_pdr(1, &[choose(), choose_address()]),
            create_pdr(2, &[choose_address()]),
            create_pdr(3, &[choose(), given(OUTSIDE)]),
            create_pdr(4, &[given(OUTSIDE)]),
            create_pdr(5, &[]),
            create_pdr(6, &[endpoint_id(8), choose_address()]),
            endpoint(7, &[5], choose_address()),
            endpoint(8, &[5], given(OUTSIDE)),
        ],
    );
    let answer = reply(&mut unit, &message);
    let first = Some(pool(0));
    let pdrs = [
        (1, vec![56, 21, 93], first),
        (2, vec![56, 93], first),
        (3, vec![56, 21], None),
        (6, vec![56, 93], first),
    ];
    assert_eq!(chosen(&answer, 8), pdrs);
    let endpoints = [(7, vec![131, 21, 93], first), (8, vec![131, 21], None)];
    assert_eq!(chosen(&answer, 128), endpoints);
    assert_eq!((unit.free_count(), unit.free_addresses()), (5, 3));
    assert_eq!(unit.address_map(), std::array::from_fn(|word| u64::from(word == 0)));
    // "The live set has the address given, or where one was chosen the one in the record's Created
    // group."
    let mut live = LiveSet::new();
    assert_eq!(live.follow(1, &message, 0, &answer), Ok(()));
    assert_eq!(live.sessions, *unit.sessions());
    assert_eq!(live.sessions[&key(1)].pdrs[&4].address, Some(OUTSIDE));
    assert_eq!(live.sessions[&key(1)].endpoints[&7].address, first);
}

/// A unit whose only address session 1 holds in PDRs 1 and 2 and in endpoint 3.
fn all_taken() -> Unit {
    let mut unit = unit_with_addresses((4096, 4), 1);
    let parts =
        [pdr(1, &[0x10]), pdr(2, &[0x10]), endpoint(3, &[5], choose_address()), fq_csid(5, 1)];
    assert_eq!(cause(&mut unit, &establishment(1, &parts)), 1);
    assert_eq!(unit.free_addresses(), 0);
    unit
}

/// "it is free from the call after the last holder goes"
#[test]
fn freed_with_its_last_holder() {
    let mut unit = all_taken();
    let other = establishment(2, &[pdr(1, &[0x10])]);
    for part in [remove_pdr(2), remove_pdr(1)] {
        assert_eq!(cause(&mut unit, &modification(1, &[part])), 1);
        assert_eq!(cause(&mut unit, &other), 79);
    }
    let both = modification(1, &[remove_endpoint(3), pdr(4, &[0x10])]);
    assert_eq!(cause(&mut unit, &both), 79);
    assert_eq!(cause(&mut unit, &modification(1, &[remove_endpoint(3)])), 1);
    assert_eq!(unit.free_addresses(), 1);
    assert_eq!(cause(&mut unit, &other), 1);
    for gone in [deletion(1, &[]), set_deletion(&[fq_csid(5, 1)])] {
        let mut unit = all_taken();
        assert_eq!(cause(&mut unit, &gone), 1);
        assert_eq!(unit.free_addresses(), 1);
    }
}

/// A CHOOSE takes a new address even where the session holds one, the lowest free at entry.
#[test]
fn a_second_address() {
    let mut unit = unit(4096, 4);
    for seid in 1..=3 {
        assert_eq!(cause(&mut unit, &establishment(seid, &[pdr(1, &[0x10])])), 1);
    }
    assert_eq!(cause(&mut unit, &deletion(2, &[])), 1);
    let answer = reply(&mut unit, &modification(3, &[pdr(2, &[0x10])]));
    assert_eq!(chosen(&answer, 8), [(2, vec![56, 93], Some(pool(1)))]);
    let answer = reply(&mut unit, &modification(3, &[pdr(3, &[0x10])]));
    assert_eq!(chosen(&answer, 8), [(3, vec![56, 93], Some(pool(3)))]);
    assert_eq!(unit.free_addresses(), 0);
}

/// "The control plane may give addresses outside our pool; one inside it is 73 unless restoring"
#[test]
fn given_addresses() {
    let mut unit = all_taken();
    let edges = [Ipv4Addr::new(10, 44, 255, 255), pool(1), OUTSIDE, Ipv4Addr::UNSPECIFIED];
    for (seid, address) in (2..).zip(edges) {
        // Of several sessions, and several times in one.
        let parts = [create_pdr(1, &[given(address)]), create_pdr(2, &[given(OUTSIDE)])];
        assert_eq!(cause(&mut unit, &establishment(seid, &parts)), 1, "{address}");
        assert_eq!(cause(&mut unit, &modification(1, &[create_pdr(40, &[given(address)])])), 1);
        assert_eq!(cause(&mut unit, &modification(1, &[remove_pdr(40)])), 1);
    }
    assert_eq!(unit.free_addresses(), 0);
    // Its own, also, and in an endpoint.
    let inside = create_pdr(9, &[given(pool(0))]);
    assert_eq!(cause(&mut unit, &modification(1, &[inside.clone()])), 73);
    assert_eq!(cause(&mut unit, &establishment(9, &[inside])), 73);
    let parts = [endpoint(9, &[5], given(pool(0)))];
    assert_eq!(cause(&mut unit, &modification(1, &parts)), 73);
}

/// "a restored pool address held by another session is 73"; "CHOOSE inside one is 73"
#[test]
fn restored_addresses() {
    let restored = |seid, address: Ipv4Addr| {
        let parts = [create_pdr(1, &[given(address)]), create_pdr(2, &[given(address)])];
        restoration(seid, &parts)
    };
    let mut unit = unit(4096, 4);
    assert_eq!(cause(&mut unit, &restored(1, pool(3))), 1);
    assert_eq!(unit.free_addresses(), 3);
    assert_eq!(cause(&mut unit, &restored(2, pool(3))), 73);
    assert_eq!(cause(&mut unit, &restored(2, pool(2))), 1);
    assert_eq!(cause(&mut unit, &restored(3, OUTSIDE)), 1);
    assert_eq!(cause(&mut unit, &restored(4, OUTSIDE)), 1);
    assert_eq!(unit.free_addresses(), 2);
    assert_eq!(cause(&mut unit, &restoration(5, &[pdr(1, &[0x10])])), 73);
    let parts = [endpoint(1, &given_v4(4096), choose_address())];
    assert_eq!(cause(&mut unit, &restoration(5, &parts)), 73);
    // 79 never comes in a restoration.
    let mut unit = all_taken();
    assert_eq!(cause(&mut unit, &restoration(5, &[pdr(1, &[0x10])])), 73);
    assert_eq!(cause(&mut unit, &restored(5, pool(0))), 73);
}

/// 76 "in stage 4": in establishments too, down the table 64, 71, 76, 73, 75, 79; and every fault of
/// stage 3 comes before it, also a later one.
#[test]
fn order_of_causes() {
    let strange = pdr(9, &[0x20]);
    let mut unit = all_taken();
    assert_eq!(cause(&mut unit, &establishment(2, &[strange.clone()])), 76);
    assert_eq!(cause(&mut unit, &restoration(2, &[strange.clone()])), 76);
    assert_eq!(cause(&mut unit, &modification(1, &[endpoint(9, &[5], ie(93, &[1]))])), 76);
    assert_eq!(cause(&mut unit, &establishment(1, &[strange.clone()])), 64);
    let parts = [strange.clone(), create_pdr(8, &[ie(21, &given_v4(4096))])];
    assert_eq!(cause(&mut unit, &modification(1, &parts)), 71);
    let parts = [strange.clone(), create_pdr(8, &[given(pool(0))])];
    assert_eq!(cause(&mut unit, &modification(1, &parts)), 76);
    assert_eq!(cause(&mut unit, &restoration(2, &[pdr(1, &[0x10]), strange.clone()])), 76);
    let parts = [pdr(8, &[0x10]), create_pdr(7, &[given(pool(0))])];
    assert_eq!(cause(&mut unit, &modification(1, &parts)), 73);
    let mut parts: Vec<Vec<u8>> = (10..30).map(|id| pdr(id, &[0x10])).collect();
    assert_eq!(cause(&mut unit, &modification(1, &parts)), 75);
    parts.truncate(2);
    assert_eq!(cause(&mut unit, &modification(1, &parts)), 79);
    let later = modification(1, &[strange, pdr(8, &[0])]);
    assert_eq!(verdict(&reply(&mut unit, &later)), (69, Some(93)));
}

/// Faults of 93, where they stand, and where it is not read.
#[test]
fn faults_and_places() {
    let of = |pdi: &[Vec<u8>]| modification(1, &[create_pdr(1, pdi)]);
    let at = |message: &[u8]| (first_fault(message), first_place(message));
    // Header 16, Create PDR 4, PDR ID 6, Precedence 8, PDI 4, Source Interface 5.
    let place = 16 + 4 + 6 + 8 + 4 + 5;
    assert_eq!(at(&of(&[ie(93, &[])])), (Some((68, 93)), Some(place)));
    assert_eq!(at(&of(&[ie(93, &[2, 1, 2, 3])])), (Some((68, 93)), Some(place)));
    assert_eq!(at(&of(&[ie(93, &[4])])), (Some((69, 93)), Some(place)));
    // "A second 93 in one group is 69 before its value is read", also after one that is not served.
    assert_eq!(at(&of(&[ie(93, &[1]), ie(93, &[])])), (Some((69, 93)), Some(place + 5)));
    let message = modification(1, &[group(127, &[ie(93, &[16]), ie(93, &[16])])]);
    assert_eq!(at(&message), (Some((69, 93)), Some(16 + 4 + 5)));
    // At other places it is skipped, and in the PDI of an Update PDR not read.
    let skipped = [
        ie(93, &[]),
        update_pdr(1, &[ie(93, &[]), group(2, &[ie(93, &[]), ie(93, &[])])]),
        group(15, &[pdr_id(2), ie(93, &[])]),
        group(130, &[endpoint_id(2), ie(93, &[])]),
    ];
    assert_eq!(at(&modification(1, &skipped)), (None, None));
    // Its frame is looked at.
    let message = of(&[ie_claiming(93, 6, &[2, 1, 2, 3, 4])]);
    assert_eq!(at(&message), (Some((68, 93)), Some(place)));
}
