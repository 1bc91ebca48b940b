//! Stages 1 and 4 to 6 and the replies, with the readings of them.

mod common;

use common::*;
use second::unit::Unit;

/// A session 1 with endpoint 1 (named by PDR 1), endpoint 2 (not named), PDR 2 with a tunnel and
/// PDR 3 with neither.
fn started(size: u32) -> Unit {
    let mut unit = dual_unit(4096, size);
    let parts = [
        create_endpoint(1, &[5]),
        create_endpoint(2, &[7]),
        create_pdr(1, &[endpoint_id(1)]),
        create_pdr(2, &[ie(21, &[6])]),
        create_pdr(3, &[]),
        fq_csid(5, 1),
    ];
    assert_eq!(cause(&mut unit, &establishment(1, &parts)), 1);
    unit
}

fn modified(parts: &[Vec<u8>]) -> u8 {
    cause(&mut started(100), &modification(1, parts))
}

fn established(parts: &[Vec<u8>]) -> u8 {
    cause(&mut started(100), &establishment(2, parts))
}

fn restored(parts: &[Vec<u8>]) -> u8 {
    cause(&mut started(100), &restoration(2, parts))
}

#[test]
fn host_outcomes_in_their_order() {
    let mut unit = started(100);
    let mut call = |message: &[u8], space: usize| {
        let mut octets = vec![0xEE; space];
        let outcome = unit.request(1, message, &mut octets);
        if outcome.number != 0 {
            assert_eq!((outcome.reply_length, octets), (0, vec![0xEE; space]));
        }
        outcome.number
    };
    assert_eq!(call(&[0; 3000], 1279), 2);
    assert_eq!(call(&[0; 3000], 1280), 3);
    assert_eq!(call(&[0; 2048], 1280), 4);
    assert_eq!(call(&message(99, 1, 1, &[]), 1280), 5);
    assert_eq!(call(&message(54, 9, 1, &[]), 1280), 0);
    assert_eq!(call(&message(54, 9, 1, &[]), 1279), 2);
}

#[test]
fn stage_1_comes_first() {
    let mut unit = started(100);
    assert_eq!(cause(&mut unit, &modification(9, &[vec![0]])), 65);
    assert_eq!(cause(&mut unit, &deletion(0, &[vec![0]])), 65);
    assert_eq!(cause(&mut unit, &modification(1, &[vec![0]])), 68);
}

#[test]
fn stage_4_runs_down_the_table() {
    // 64 before 71, 71 before 76, 76 before 73, 73 before 75.
    let given = || create_pdr(9, &[ie(21, &given_v4(4096))]);
    let unsupported = || update_pdr(3, &[group(2, &[])]);
    let conflict = || remove_pdr(9);
    assert_eq!(cause(&mut started(100), &establishment(1, &[given()])), 64);
    assert_eq!(modified(&[conflict(), unsupported(), given()]), 71);
    assert_eq!(modified(&[conflict(), unsupported()]), 76);
    let many: Vec<Vec<u8>> = (10..30).map(|id| create_pdr(id, &[])).collect();
    assert_eq!(modified(&[many.concat(), conflict()]), 73);
    assert_eq!(modified(&many), 75);
}

#[test]
fn cause_71_looks_at_every_f_teid() {
    let both = |f_teid: &[u8]| create_pdr(9, &[ie(21, f_teid), endpoint_id(1)]);
    assert_eq!(modified(&[both(&given_v4(4096))]), 71);
    assert_eq!(modified(&[both(&[5])]), 73);
    assert_eq!(modified(&[create_endpoint(9, &given_v4(4096))]), 71);
    assert_eq!(established(&[create_pdr(9, &[]), create_endpoint(9, &given_v4(4096))]), 71);
    assert_eq!(restored(&[create_pdr(9, &[choose()])]), 71);
    assert_eq!(restored(&[create_endpoint(9, &[5])]), 71);
    // An F-TEID in the PDI of an Update PDR is not read.
    assert_eq!(modified(&[update_pdr(3, &[group(2, &[ie(21, &given_v4(4096))])])]), 76);
}

#[test]
fn cause_76_in_modifications_only() {
    assert_eq!(modified(&[ie(129, &[1])]), 76);
    assert_eq!(modified(&[update_pdr(3, &[group(2, &[source(0)])])]), 76);
    assert_eq!(established(&[create_pdr(9, &[]), ie(129, &[1])]), 1);
    assert_eq!(cause(&mut started(100), &deletion(1, &[ie(129, &[1])])), 1);
    // Inside a group 129 is misplaced and skipped.
    assert_eq!(modified(&[group(15, &[pdr_id(3), ie(129, &[])])]), 1);
}

#[test]
fn cause_73_for_ids() {
    let refused: [&[Vec<u8>]; 18] = [
        // twice
        &[remove_pdr(3), remove_pdr(3)],
        &[create_pdr(9, &[]), create_pdr(9, &[])],
        &[update_pdr(3, &[]), update_pdr(3, &[])],
        &[remove_endpoint(2), remove_endpoint(2)],
        &[create_endpoint(9, &[5]), create_endpoint(9, &[5])],
        // a created ID live at entry, removed or not
        &[create_pdr(3, &[])],
        &[create_pdr(3, &[]), remove_pdr(3)],
        &[create_pdr(1, &[]), remove_endpoint(1)],
        &[create_endpoint(2, &[5])],
        &[remove_endpoint(2), create_endpoint(2, &[5])],
        // a removed or updated ID not live at entry, created or not
        &[remove_pdr(9)],
        &[remove_pdr(9), create_pdr(9, &[])],
        &[update_pdr(9, &[])],
        &[create_pdr(9, &[]), update_pdr(9, &[])],
        &[remove_endpoint(9)],
        &[remove_endpoint(9), create_endpoint(9, &[5])],
        // an update of a removed PDR
        &[remove_pdr(3), update_pdr(3, &[])],
        &[update_pdr(3, &[]), remove_pdr(3)],
    ];
    for (number, parts) in refused.iter().enumerate() {
        assert_eq!(modified(parts), 73, "number {number}");
    }
    // PDRs and endpoints are different kinds, and an ID of another verb is no repeat.
    assert_eq!(modified(&[create_endpoint(3, &[5]), update_pdr(3, &[]), remove_pdr(2)]), 1);
}

#[test]
fn cause_73_for_endpoints() {
    assert_eq!(modified(&[create_pdr(9, &[endpoint_id(9)])]), 73);
    assert_eq!(modified(&[create_pdr(9, &[endpoint_id(2)]), remove_endpoint(2)]), 73);
    assert_eq!(modified(&[create_pdr(9, &[endpoint_id(9)]), create_endpoint(9, &[5])]), 1);
    assert_eq!(modified(&[create_pdr(9, &[endpoint_id(2)])]), 1);
    assert_eq!(modified(&[remove_endpoint(2)]), 1);
    // Endpoints of another session are not there.
    assert_eq!(established(&[create_pdr(9, &[endpoint_id(1)])]), 73);
}

#[test]
fn cause_73_for_families_and_choose_ids() {
    let with = |interface, flags, id| create_pdr_from(interface, id, &[ie(21, &[flags, 7])]);
    assert_eq!(established(&[with(0, 0x0D, 1), with(0, 0x0D, 2)]), 1);
    assert_eq!(established(&[with(0, 0x0D, 1), with(0, 0x0E, 2)]), 73);
    assert_eq!(established(&[with(0, 0x0D, 1), with(0, 0x0F, 2)]), 73);
    assert_eq!(established(&[with(0, 0x0D, 1), with(1, 0x0D, 2)]), 73);
    // Without CHID they are their own.
    assert_eq!(established(&[with(0, 5, 1), with(1, 6, 2)]), 1);
    let mut v4_only = unit(4096, 10);
    assert_eq!(cause(&mut v4_only, &establishment(1, &[with(0, 6, 1)])), 73);
    assert_eq!(cause(&mut v4_only, &establishment(1, &[with(0, 7, 1)])), 73);
    let parts = [create_pdr(1, &[]), create_endpoint(1, &[6])];
    assert_eq!(cause(&mut v4_only, &establishment(1, &parts)), 73);
    assert_eq!(cause(&mut v4_only, &restoration(1, &[create_endpoint(1, &given_v6(4096))])), 73);
}

#[test]
fn cause_73_for_restored_tunnels() {
    let pdr = |id, f_teid: &[u8]| create_pdr(id, &[ie(21, f_teid)]);
    // 4096 to 4098 are held by session 1; the pool ends with 4195.
    assert_eq!(restored(&[pdr(1, &given_v4(4195))]), 1);
    assert_eq!(restored(&[pdr(1, &given_v4(4196))]), 73);
    assert_eq!(restored(&[pdr(1, &given_v4(4095))]), 73);
    assert_eq!(restored(&[create_endpoint(1, &given_v4(0))]), 73);
    assert_eq!(restored(&[pdr(1, &given_v4(4096))]), 73);
    assert_eq!(restored(&[create_endpoint(1, &given_v4(4098))]), 73);
    let mut other = given_v4(4195);
    other[8] = 2;
    assert_eq!(restored(&[pdr(1, &other)]), 73);
    let mut other = given_v6(4195);
    other[20] = 2;
    assert_eq!(restored(&[pdr(1, &other)]), 73);
    // Shared by PDRs of one kind only.
    let v4 = || given_v4(4195);
    assert_eq!(restored(&[pdr(1, &v4()), pdr(2, &v4())]), 1);
    assert_eq!(restored(&[pdr(1, &v4()), pdr(2, &given_v6(4195))]), 73);
    assert_eq!(restored(&[pdr(1, &v4()), create_pdr_from(1, 2, &[ie(21, &v4())])]), 73);
    assert_eq!(restored(&[create_endpoint(1, &v4()), create_endpoint(2, &v4())]), 73);
    assert_eq!(restored(&[create_endpoint(1, &v4()), pdr(2, &v4())]), 73);
}

#[test]
fn cause_75_counts_what_would_result() {
    // 3 PDRs live: 13 more fit, 14 do not; with one removed 14 do.
    let pdrs = |count: u16| (10..10 + count).map(|id| create_pdr(id, &[])).collect::<Vec<_>>();
    assert_eq!(modified(&pdrs(14)), 75);
    assert_eq!(modified(&pdrs(13)), 1);
    assert_eq!(modified(&[pdrs(14).concat(), remove_pdr(3)]), 1);
    let endpoints =
        |count: u8| (10..10 + count).map(|id| create_endpoint(id, &[5])).collect::<Vec<_>>();
    assert_eq!(modified(&endpoints(7)), 75);
    assert_eq!(modified(&endpoints(6)), 1);
    assert_eq!(modified(&[endpoints(7).concat(), remove_endpoint(2)]), 1);
}

/// A restoration needs no TEIDs in the sense of 75.
#[test]
fn restoration_into_the_last_teid() {
    let mut unit = unit(4096, 1);
    let pdr = |id| create_pdr(id, &[ie(21, &given_v4(4096))]);
    assert_eq!(cause(&mut unit, &restoration(1, &[pdr(1), pdr(2), pdr(3)])), 1);
    assert_eq!(unit.free_count(), 0);
    assert_eq!(cause(&mut unit, &restoration(2, &[create_pdr(1, &[])])), 1);
    assert_eq!(cause(&mut unit, &establishment(3, &[create_pdr(1, &[])])), 1);
}

#[test]
fn grants_go_to_endpoints_first() {
    let mut unit = unit(4096, 10);
    let parts = [
        create_pdr(5, &[choose_id(9)]),
        create_endpoint(8, &[5]),
        create_pdr(3, &[choose()]),
        create_endpoint(2, &[5]),
        create_pdr(4, &[choose_id(9)]),
        create_pdr(1, &[choose_id(3)]),
    ];
    let answer = reply(&mut unit, &establishment(1, &parts));
    assert_eq!(created(&answer, 128), [(8, 4096), (2, 4097)]);
    assert_eq!(created(&answer, 8), [(5, 4098), (3, 4099), (4, 4098), (1, 4100)]);
    // Created PDRs stand before Created Traffic Endpoints.
    let types: Vec<u16> = elements(&answer).into_iter().map(|(ie_type, _)| ie_type).collect();
    assert_eq!(types, [60, 19, 57, 8, 8, 8, 8, 128, 128]);
    // The lowest free ones, also where they lie apart.
    assert_eq!(cause(&mut unit, &modification(1, &[remove_endpoint(2), remove_pdr(3)])), 1);
    let answer =
        reply(&mut unit, &modification(1, &[create_pdr(9, &[choose()]), create_endpoint(9, &[5])]));
    assert_eq!((created(&answer, 128), created(&answer, 8)), (vec![(9, 4097)], vec![(9, 4099)]));
}

#[test]
fn updates() {
    let mut unit = started(100);
    assert_eq!(cause(&mut unit, &modification(1, &[update_pdr(3, &[far(9)])])), 1);
    assert_eq!(unit.sessions()[&key(1)].pdrs[&3].far_id, Some(9));
    assert_eq!(cause(&mut unit, &modification(1, &[update_pdr(3, &[precedence(6)])])), 1);
    let pdr = &unit.sessions()[&key(1)].pdrs[&3];
    assert_eq!((pdr.far_id, pdr.precedence), (Some(9), 6));
    let before = unit.clone();
    assert_eq!(cause(&mut unit, &modification(1, &[update_pdr(3, &[])])), 1);
    assert_eq!(cause(&mut unit, &modification(1, &[])), 1);
    assert_eq!(unit, before);
    assert_eq!(cause(&mut unit, &modification(1, &[update_pdr(3, &[ie(108, &[])])])), 1);
    assert_eq!(unit.sessions()[&key(1)].pdrs[&3].far_id, None);
}

#[test]
fn fq_csids() {
    let mut unit = started(100);
    let held = |unit: &Unit| unit.sessions()[&key(1)].fq_csids.keys().copied().collect::<Vec<_>>();
    let removal = |node_type| ie(65, &[0, 0, 0, 0, 0, node_type]);
    assert_eq!(cause(&mut unit, &modification(1, &[fq_csid(7, 4), fq_csid(8, 0)])), 1);
    assert_eq!(held(&unit), [0, 1, 4]);
    assert_eq!(cause(&mut unit, &modification(1, &[removal(1), removal(2), fq_csid(9, 4)])), 1);
    assert_eq!(held(&unit), [0, 4]);
    assert_eq!(unit.sessions()[&key(1)].fq_csids[&4].csid, 9);
    assert_eq!(cause(&mut unit, &modification(1, &[ie(65, &[])])), 1);
    assert_eq!(held(&unit), []);
    assert_eq!(cause(&mut unit, &modification(1, &[ie(65, &[])])), 1);
}

#[test]
fn headers_of_replies() {
    let head = |reply: &[u8]| (reply[1], reply[11], reply[12..16].to_vec());
    let mut unit = started(100);
    let mut call = |message: &[u8]| head(&reply(&mut unit, message));
    let sequence = vec![0, 0, 1, 0];
    // Refused establishments and 65: SEID 0. Other refusals: the header's.
    assert_eq!(call(&establishment(1, &[create_pdr(1, &[])])), (51, 0, sequence.clone()));
    assert_eq!(call(&modification(9, &[])), (53, 0, sequence.clone()));
    assert_eq!(call(&modification(1, &[vec![0]])), (53, 1, sequence.clone()));
    assert_eq!(call(&modification(1, &[remove_pdr(9)])), (53, 1, sequence.clone()));
    assert_eq!(call(&modification(1, &[])), (53, 1, sequence.clone()));
    assert_eq!(call(&deletion(1, &[vec![0]])), (55, 1, sequence.clone()));
    assert_eq!(call(&deletion(1, &[])), (55, 1, sequence.clone()));
    // The header SEID of an establishment is ignored; the reply has the F-SEID's.
    let mut message = establishment(5, &[create_pdr(1, &[])]);
    message[4..16].copy_from_slice(&[9, 9, 9, 9, 9, 9, 9, 9, 0xAB, 0xCD, 0xEF, 0x77]);
    assert_eq!(call(&message), (51, 5, vec![0xAB, 0xCD, 0xEF, 0]));
}

#[test]
fn bodies_of_refusals() {
    let mut unit = started(100);
    let missing = reply(&mut unit, &message(50, 0, 2, &[]));
    let whole = hex("21 33 00 20 00 00 00 00 00 00 00 00 00 00 02 00 \
        00 3C 00 05 00 C0 00 02 01 00 13 00 01 42 00 28 00 02 00 01");
    assert_eq!(missing[..4], hex("21 33 00 20"));
    assert_eq!(missing, whole);
    let conflict = reply(&mut unit, &modification(1, &[remove_pdr(9)]));
    assert_eq!(conflict[16..], hex("00 13 00 01 49"));
    let short = reply(&mut unit, &modification(1, &[group(127, &[endpoint_id(1)])]));
    assert_eq!(short[16..], hex("00 13 00 01 43 00 28 00 02 00 15"));
}

/// A reply with both families, and one with IPv6 alone.
#[test]
fn families_of_replies() {
    let mut unit = dual_unit(4096, 10);
    let parts = [create_pdr(1, &[ie(21, &[7])]), create_endpoint(2, &[6])];
    let answer = reply(&mut unit, &establishment(1, &parts));
    let mut both = vec![3, 0, 0, 0x10, 1];
    both.extend(IPV4);
    both.extend(IPV6);
    let expected = [
        group(8, &[pdr_id(1), ie(21, &both)]),
        group(128, &[endpoint_id(2), ie(21, &given_v6(4096))]),
    ];
    assert_eq!(answer[47..], expected.concat());
}

/// The layout of a restoration request, octet by octet.
#[test]
fn restoration_request() {
    let mut unit = dual_unit(4096, 10);
    let parts = [
        fq_csid(8, 4),
        fq_csid(7, 0),
        create_endpoint(9, &[6]),
        create_pdr(5, &[endpoint_id(9)]),
        create_pdr_from(3, 4, &[choose_id(1)]),
        group(1, &[far(6), group(2, &[ie(20, &[0xF2])]), precedence(9), pdr_id(6)]),
    ];
    assert_eq!(cause(&mut unit, &establishment(0x0102, &parts)), 1);
    let envelope = second::restoration::Envelope {
        header_seid: 7,
        sequence: 0x01_02_03,
        ipv4: None,
        ipv6: Some(IPV6),
    };
    let mut asked = vec![1, 0, 0, 0, 0, 0, 0, 1, 2];
    asked.extend(IPV6);
    let tunnel = ie(21, &given_v4(4097));
    let expected = [
        ie(57, &asked),
        ie(186, &[1]),
        group(1, &[pdr_id(4), precedence(1), group(2, &[source(3), tunnel])]),
        group(1, &[pdr_id(5), precedence(1), group(2, &[source(0), endpoint_id(9)])]),
        group(1, &[pdr_id(6), precedence(9), group(2, &[source(2)]), far(6)]),
        create_endpoint(9, &given_v6(4096)),
        fq_csid(7, 0),
        fq_csid(8, 4),
    ];
    let expected = message(50, 7, 0x01_02_03, &expected);
    let session = &unit.sessions()[&key(0x0102)];
    let request = second::restoration::request(unit.settings(), 0x0102, session, &envelope);
    assert_eq!(request, Some(expected.clone()));
    let mut fresh = dual_unit(4096, 10);
    assert_eq!(cause(&mut fresh, &expected), 1);
    assert_eq!(fresh, unit);
    let none = second::restoration::Envelope { ipv6: None, ..envelope };
    assert_eq!(second::restoration::request(unit.settings(), 0x0102, session, &none), None);
}
