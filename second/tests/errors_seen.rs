//! Document 01, "Errors we have seen".

mod common;

use common::*;

#[test]
fn a_choose_id_ends_with_its_request() {
    let mut unit = unit(4096, 10);
    let first = reply(&mut unit, &establishment(1, &[create_pdr(1, &[choose_id(7)])]));
    assert_eq!(created(&first, 8), [(1, 4096)]);
    let second = reply(&mut unit, &modification(1, &[create_pdr(2, &[choose_id(7)])]));
    assert_eq!(created(&second, 8), [(2, 4097)]);
    // Other families or another source interface do not matter across requests either.
    let third = reply(&mut unit, &modification(1, &[create_pdr_from(3, 3, &[choose_id(7)])]));
    assert_eq!(created(&third, 8), [(3, 4098)]);
}

#[test]
fn a_tunnel_stays_with_the_last_of_its_pdrs() {
    let mut unit = unit(4096, 1);
    let parts = [create_pdr(1, &[choose_id(7)]), create_pdr(2, &[choose_id(7)])];
    assert_eq!(cause(&mut unit, &establishment(1, &parts)), 1);
    assert_eq!(cause(&mut unit, &modification(1, &[remove_pdr(2)])), 1);
    assert_eq!(unit.free_count(), 0);
    assert_eq!(cause(&mut unit, &modification(1, &[create_pdr(5, &[choose()])])), 75);
    assert_eq!(cause(&mut unit, &modification(1, &[remove_pdr(1)])), 1);
    assert_eq!(unit.free_count(), 1);
}

#[test]
fn f_seid_flags_stand_the_other_way_round() {
    use second::element::f_seid::{read, FSeid};
    let v4 = hex("02 00 00 00 00 00 00 00 05 0A 00 00 01");
    assert_eq!(read(&v4), Ok(FSeid { seid: 5, ipv4: Some([10, 0, 0, 1]), ipv6: None }));
    // Bit 1 is V6: with an IPv4 address alone it is short.
    let mut v6 = v4.clone();
    v6[0] = 1;
    assert_eq!(read(&v6).unwrap_err().cause(), 68);
    v6.truncate(9);
    v6.extend(IPV6);
    assert_eq!(read(&v6), Ok(FSeid { seid: 5, ipv4: None, ipv6: Some(IPV6) }));
    // IPv4 first.
    let mut both = hex("03 00 00 00 00 00 00 00 05 0A 00 00 01");
    both.extend(IPV6);
    assert_eq!(read(&both), Ok(FSeid { seid: 5, ipv4: Some([10, 0, 0, 1]), ipv6: Some(IPV6) }));
    // "Order: empty 68; no family 69; short 68; SEID 0 69."
    assert_eq!(read(&[]).unwrap_err().cause(), 68);
    assert_eq!(read(&[0xFC]).unwrap_err().cause(), 69);
    assert_eq!(read(&hex("02 00 00 00 00 00 00 00 00 0A 00 00")).unwrap_err().cause(), 68);
    assert_eq!(read(&hex("02 00 00 00 00 00 00 00 00 0A 00 00 01")).unwrap_err().cause(), 69);
}

#[test]
fn nothing_is_half_made_before_a_75() {
    let mut unit = unit(4096, 2);
    assert_eq!(cause(&mut unit, &establishment(1, &[create_pdr(1, &[choose()])])), 1);
    let before = unit.clone();
    let asked = [
        remove_pdr(1),
        create_endpoint(1, &[5]),
        create_pdr(2, &[endpoint_id(1)]),
        create_pdr(3, &[choose()]),
        fq_csid(5, 1),
    ];
    assert_eq!(cause(&mut unit, &modification(1, &asked)), 75);
    assert_eq!(unit, before);
    let asked = [create_pdr(1, &[choose()]), create_pdr(2, &[choose()]), create_pdr(3, &[])];
    assert_eq!(cause(&mut unit, &establishment(2, &asked)), 75);
    assert_eq!(unit, before);
}
