//! Document 01, "Worked on paper".

mod common;

use common::*;
use second::element::f_teid::{self, FTeid};
use second::element::fq_csid::{self, FqCsid, NodeId};
use second::session::Families;

const V4: Families = Families { v4: true, v6: false };

fn f_teid_cause(value: &[u8]) -> u8 {
    f_teid::read(value).unwrap_err().cause()
}

#[test]
fn f_teid_values() {
    let choose = FTeid::Choose { families: V4, choose_id: None };
    assert_eq!(f_teid::read(&hex("05")), Ok(choose));
    let with_id = FTeid::Choose { families: V4, choose_id: Some(7) };
    assert_eq!(f_teid::read(&hex("0D 07")), Ok(with_id));
    let given = FTeid::Given { teid: 4096, ipv4: Some([192, 0, 2, 1]), ipv6: None };
    assert_eq!(f_teid::read(&hex("01 00 00 10 00 C0 00 02 01")), Ok(given));
    assert_eq!(f_teid_cause(&hex("04")), 69);
    assert_eq!(f_teid_cause(&hex("09")), 69);
    assert_eq!(f_teid_cause(&hex("0D")), 68);
    assert_eq!(f_teid_cause(&[]), 68);
    assert_eq!(f_teid::read(&hex("F5")), Ok(choose));
    let mut both = vec![3, 0, 0, 16, 0, 192, 0, 2, 1];
    both.extend(IPV6);
    assert_eq!(both.len(), 25);
    let read = FTeid::Given { teid: 4096, ipv4: Some(IPV4), ipv6: Some(IPV6) };
    assert_eq!(f_teid::read(&both), Ok(read));
    assert_eq!(f_teid_cause(&both[..24]), 68);
    both.push(9);
    assert_eq!(f_teid::read(&both), Ok(read));
}

#[test]
fn f_teid_writer() {
    let mut space = [0xEE; 30];
    let both = FTeid::Given { teid: 4096, ipv4: Some(IPV4), ipv6: Some(IPV6) };
    assert_eq!(f_teid::write(&both, &mut space[..24]), None);
    assert_eq!(space, [0xEE; 30]);
    assert_eq!(f_teid::write(&both, &mut space), Some(25));
    assert_eq!(f_teid::read(&space), Ok(both));
    assert_eq!(space[25..], [0xEE; 5]);
    let mut space = [0xEE; 4];
    let none = FTeid::Choose { families: Families { v4: false, v6: false }, choose_id: None };
    assert_eq!(f_teid::write(&none, &mut space), None);
    let none = FTeid::Given { teid: 1, ipv4: None, ipv6: None };
    assert_eq!(f_teid::write(&none, &mut space), None);
    let with_id = FTeid::Choose { families: V4, choose_id: Some(7) };
    assert_eq!(f_teid::write(&with_id, &mut space), Some(2));
    assert_eq!(space, [0x0D, 7, 0xEE, 0xEE]);
}

fn fq_csid_cause(text: &str) -> u8 {
    fq_csid::read(&hex(text)).unwrap_err().cause()
}

#[test]
fn fq_csid_values() {
    let one = FqCsid { node: NodeId::Ipv4([192, 0, 2, 10]), csids: vec![5], node_type: 1 };
    assert_eq!(fq_csid::read(&hex("01 C0 00 02 0A 00 05 01")), Ok(one));
    assert_eq!(fq_csid::read(&hex("00 00 00 00 00 02")), Ok(FqCsid::removal(2)));
    let node = NodeId::Operator { country_and_network: 262_001, number: 5 };
    let operator = FqCsid { node, csids: vec![9], node_type: 5 };
    assert_eq!(fq_csid::read(&hex("21 3F F7 10 05 00 09 05")), Ok(operator));
    assert_eq!(fq_csid_cause("31 C0 00 02 0A 00 05 01"), 69);
    // The wrong type comes before "short".
    assert_eq!(fq_csid_cause("31"), 69);
    assert_eq!(fq_csid_cause("01 C0 00 02 0A 00 05"), 68);
    // 999,999 is F423F, 1,000,000 is F4240.
    assert!(fq_csid::read(&hex("21 F4 23 FF FF 00 09 05")).is_ok());
    assert_eq!(fq_csid_cause("21 F4 24 00 00 00 09 05"), 69);
    assert_eq!(fq_csid_cause("01 C0 00 02 0A 00 05 06"), 69);
    assert!(fq_csid::read(&hex("01 C0 00 02 0A 00 05 F5 77")).is_ok());
}

#[test]
fn fq_csid_writer() {
    let mut space = [0xEE; 40];
    let mut value = FqCsid { node: NodeId::Ipv4(IPV4), csids: vec![], node_type: 1 };
    assert_eq!(fq_csid::write(&value, &mut space), None, "m = 0 and an address");
    value.csids = vec![1; 16];
    assert_eq!(fq_csid::write(&value, &mut space), None, "m = 16");
    value.csids = vec![1; 15];
    assert_eq!(fq_csid::write(&value, &mut space[..35]), None, "too little space");
    value.node_type = 6;
    assert_eq!(fq_csid::write(&value, &mut space), None, "node type 6");
    assert_eq!(space, [0xEE; 40]);
    value.node_type = 5;
    assert_eq!(fq_csid::write(&value, &mut space[..36]), Some(36));
    assert_eq!(fq_csid::read(&space), Ok(value));
    assert_eq!(space[36..], [0xEE; 4]);
    assert_eq!(fq_csid::write(&FqCsid::removal(2), &mut space), Some(6));
    assert_eq!(space[..6], hex("00 00 00 00 00 02"));
    for (country_and_network, number, written) in
        [(999_999, 4095, Some(8)), (1_000_000, 0, None), (0, 4096, None)]
    {
        let node = NodeId::Operator { country_and_network, number };
        let value = FqCsid { node, csids: vec![9], node_type: 5 };
        assert_eq!(fq_csid::write(&value, &mut space), written);
    }
}

/// "Pool 4096, 4097: PDRs 1, 2 with ID 7 and PDR 3 without get 4096, 4096, 4097."
#[test]
fn pool_of_two() {
    let mut unit = unit(4096, 2);
    let first = establishment(
        1,
        &[
            create_pdr(1, &[choose_id(7)]),
            create_pdr(2, &[choose_id(7)]),
            create_pdr(3, &[choose()]),
        ],
    );
    let answer = reply(&mut unit, &first);
    assert_eq!(created(&answer, 8), [(1, 4096), (2, 4096), (3, 4097)]);
    assert_eq!(unit.free_count(), 0);
    // "Another session's CHOOSE: 75."
    assert_eq!(cause(&mut unit, &establishment(2, &[create_pdr(1, &[choose()])])), 75);
    // "Removing PDR 1 keeps 4096; removing PDR 2 too frees it."
    let mut copy = unit.clone();
    assert_eq!(cause(&mut copy, &modification(1, &[remove_pdr(1)])), 1);
    assert_eq!(copy.free_count(), 0);
    assert_eq!(cause(&mut copy, &modification(1, &[remove_pdr(2)])), 1);
    assert_eq!(copy.free_count(), 1);
    let answer = reply(&mut copy, &establishment(2, &[create_pdr(1, &[choose()])]));
    assert_eq!(created(&answer, 8), [(1, 4096)]);
    // "With both taken, removing PDR 3 and creating a CHOOSE PDR together: 75."
    let both = [remove_pdr(3), create_pdr(4, &[choose()])];
    assert_eq!(cause(&mut unit, &modification(1, &both)), 75);
    assert_eq!(cause(&mut unit, &modification(1, &[remove_pdr(3)])), 1);
    let answer = reply(&mut unit, &modification(1, &[create_pdr(4, &[choose()])]));
    assert_eq!(created(&answer, 8), [(4, 4097)]);
}

#[test]
fn deletion_of_an_unknown_session() {
    let whole = hex("21 37 00 11 00 00 00 00 00 00 00 00 00 00 01 00 00 13 00 01 41");
    assert_eq!(reply(&mut unit(4096, 2), &deletion(9, &[])), whole);
}

#[test]
fn first_establishment() {
    let whole = hex("21 33 00 42 00 00 00 00 00 00 00 01 00 00 01 00 \
        00 3C 00 05 00 C0 00 02 01 00 13 00 01 01 \
        00 39 00 0D 02 00 00 00 00 00 00 00 01 C0 00 02 01 \
        00 08 00 13 00 38 00 02 00 01 00 15 00 09 01 00 00 10 00 C0 00 02 01");
    let message = establishment(1, &[create_pdr(1, &[choose()])]);
    assert_eq!(reply(&mut unit(4096, 100), &message), whole);
}

/// "Every session that the table can hold fits one restoration request of at most 1,526 octets", which
/// with addresses "becomes 1,742":
/// the largest one needs exactly that many, and its own reply and that of its establishment fit.
#[test]
fn largest_session() {
    let mut unit = dual_unit(4096, 24);
    let mut parts = Vec::new();
    for id in 0..8 {
        parts.push(group(127, &[endpoint_id(id), ie(21, &[7]), choose_address()]));
    }
    for id in 0..16 {
        let pdi = group(2, &[source(1), ie(21, &[7]), choose_address()]);
        parts.push(group(1, &[pdr_id(id), precedence(9), pdi, far(u32::from(id))]));
    }
    for node_type in 0..6 {
        let mut value = vec![0x11];
        value.extend(IPV6);
        value.extend([0, 9, node_type]);
        parts.push(ie(65, &value));
    }
    let answer = reply(&mut unit, &establishment(77, &parts));
    assert_eq!(verdict(&answer), (1, None));
    assert_eq!(answer.len(), 1191);
    // Endpoints are granted first.
    assert_eq!(created(&answer, 128)[0], (0, 4096));
    assert_eq!(created(&answer, 8)[0], (0, 4104));
    let envelope = second::restoration::Envelope {
        header_seid: 5,
        sequence: 3,
        ipv4: Some([9; 4]),
        ipv6: Some([9; 16]),
    };
    let settings = unit.settings().clone();
    let request =
        second::restoration::request(&settings, 77, &unit.sessions()[&key(77)], &envelope).unwrap();
    assert_eq!(request.len(), 1742);
    let mut fresh = dual_unit(4096, 24);
    assert_eq!(cause(&mut fresh, &request), 1);
    assert_eq!(fresh, unit);
    assert_eq!((fresh.free_count(), fresh.free_addresses()), (0, 3));
}
