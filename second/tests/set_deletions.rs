//! 02 (vii): "All sessions that hold an FQ-CSID equal in node type, Node-ID type, address and any one
//! listed CSID are removed." Sentence by sentence, and the readings of it.

mod common;

use common::*;
use second::request::{first_fault, first_place};
use second::session::Key;
use second::unit::Unit;

const CARD: [u8; 4] = [192, 0, 2, 10];

fn listed(csids: &[u16], node_type: u8) -> Vec<u8> {
    fq_csid_of(0, &CARD, csids, node_type)
}

/// Sessions with a TEID each: 1 and 2 of one card (CSIDs 5 and 6 of node type 1), 3 with its CSID 5
/// on another node type, 4 with the same octets as an operator's node, 5 with them at the front of
/// an IPv6 address, 6 of another card, 7 of no card, 8 of two.
fn started() -> Unit {
    let mut unit = unit(4096, 8);
    let mut ipv6 = [0; 16];
    ipv6[..4].copy_from_slice(&CARD);
    let of_sessions = [
        vec![fq_csid(5, 1)],
        vec![fq_csid(6, 1)],
        vec![fq_csid(5, 2)],
        vec![fq_csid_of(2, &CARD, &[5], 1)],
        vec![fq_csid_of(1, &ipv6, &[5], 1)],
        vec![fq_csid_of(0, &[192, 0, 2, 11], &[5], 1)],
        vec![],
        vec![fq_csid(9, 0), fq_csid(8, 3)],
    ];
    for (seid, mut parts) in (1..).zip(of_sessions) {
        parts.push(create_pdr(1, &[choose()]));
        assert_eq!(cause(&mut unit, &establishment(seid, &parts)), 1);
    }
    assert_eq!(unit.free_count(), 0);
    unit
}

/// The sessions that an accepted set deletion takes.
fn lost(parts: &[Vec<u8>]) -> Vec<u64> {
    let mut unit = started();
    let before = unit.sessions().clone();
    assert_eq!(cause(&mut unit, &set_deletion(parts)), 1);
    let (kept, lost): (Vec<Key>, Vec<Key>) =
        before.keys().partition(|key| unit.sessions().contains_key(key));
    for key in kept {
        assert_eq!(unit.sessions()[&key], before[&key], "session {key:?} has changed");
    }
    assert_eq!(unit.free_count() as usize, lost.len(), "what goes frees its TEIDs");
    lost.into_iter().map(|key| key.seid).collect()
}

/// Cause, offending type and place of a refusal, which changes nothing.
fn refused(parts: &[Vec<u8>]) -> (u8, u16, usize) {
    let mut unit = started();
    let before = unit.clone();
    let message = set_deletion(parts);
    let (cause, offending) = verdict(&reply(&mut unit, &message));
    assert_eq!(unit, before);
    assert_eq!(first_fault(&message), offending.map(|offending| (cause, offending)));
    (cause, offending.unwrap(), first_place(&message).unwrap())
}

#[test]
fn what_goes() {
    assert_eq!(lost(&[listed(&[5], 1)]), [1]);
    assert_eq!(lost(&[listed(&[6, 5], 1)]), [1, 2]);
    assert_eq!(lost(&[listed(&[1, 2, 3, 4, 6], 1)]), [2]);
    assert_eq!(lost(&[listed(&[5], 2)]), [3]);
    assert_eq!(lost(&[fq_csid_of(2, &CARD, &[5], 1)]), [4]);
    let mut ipv6 = [0; 16];
    ipv6[..4].copy_from_slice(&CARD);
    assert_eq!(lost(&[fq_csid_of(1, &ipv6, &[5], 1)]), [5]);
    assert_eq!(lost(&[fq_csid_of(0, &[192, 0, 2, 11], &[5], 1)]), [6]);
    // By any of those that it holds, and once where several are listed.
    assert_eq!(lost(&[fq_csid(8, 3)]), [8]);
    assert_eq!(lost(&[fq_csid(8, 3), fq_csid(9, 0)]), [8]);
}

#[test]
fn what_stays() {
    assert_eq!(lost(&[listed(&[7], 1)]), []);
    assert_eq!(lost(&[listed(&[8], 0)]), [], "the CSID of its other FQ-CSID");
    assert_eq!(lost(&[fq_csid_of(0, &[192, 0, 2, 12], &[5, 6], 1)]), []);
    // "No match, or no FQ-CSID at all, is accepted".
    assert_eq!(lost(&[]), []);
    assert_eq!(lost(&[ie(60, &[0, 192, 0, 2, 50])]), []);
    assert_eq!(cause(&mut unit(1, 1), &set_deletion(&[listed(&[5], 1)])), 1);
}

/// "a node type may come twice"
#[test]
fn several_fq_csids() {
    assert_eq!(lost(&[fq_csid(5, 1), fq_csid(6, 1)]), [1, 2]);
    assert_eq!(lost(&[fq_csid(5, 1), fq_csid(5, 1)]), [1]);
    let other_card = fq_csid_of(0, &[192, 0, 2, 11], &[5], 1);
    assert_eq!(lost(&[fq_csid(7, 1), other_card, fq_csid(5, 2), fq_csid(9, 0)]), [3, 6, 8]);
}

#[test]
fn all_go() {
    let mut unit = started();
    assert_eq!(cause(&mut unit, &deletion(7, &[])), 1);
    let (mut ipv6, mut parts) = ([0; 16], vec![listed(&[5, 6], 1), fq_csid(5, 2), fq_csid(9, 0)]);
    ipv6[..4].copy_from_slice(&CARD);
    parts.push(fq_csid_of(1, &ipv6, &[5], 1));
    parts.push(fq_csid_of(2, &CARD, &[5], 1));
    parts.push(fq_csid_of(0, &[192, 0, 2, 11], &[5], 1));
    assert_eq!(cause(&mut unit, &set_deletion(&parts)), 1);
    assert!(unit.sessions().is_empty());
    assert_eq!(unit.free_count(), 8);
}

/// m from 1 to 15, and each CSID counts.
#[test]
fn fifteen_csids() {
    for place in 0..15 {
        let mut csids = [0xFFFF; 15];
        csids[place] = 5;
        assert_eq!(lost(&[listed(&csids, 1)]), [1]);
    }
}

/// "m = 0 is 69", the form of a removal too; a null length is 68, also as the only one.
#[test]
fn refusals() {
    let value = |text: &str| ie(65, &hex(text));
    assert_eq!(refused(&[value("00 00 00 00 00 01")]), (69, 65, 8));
    assert_eq!(refused(&[value("00 C0 00 02 0A 01")]), (69, 65, 8));
    assert_eq!(refused(&[ie(65, &[])]), (68, 65, 8));
    assert_eq!(refused(&[fq_csid(5, 1), ie(65, &[])]), (68, 65, 20));
    assert_eq!(refused(&[fq_csid(5, 1), value("31 C0 00 02 0A 00 05 01")]), (69, 65, 20));
    assert_eq!(refused(&[value("01 C0 00 02 0A 00 05")]), (68, 65, 8));
    assert_eq!(refused(&[value("01 C0 00 02 0A 00 05 06")]), (69, 65, 8));
    assert_eq!(refused(&[value("21 F4 24 00 00 00 09 05")]), (69, 65, 8));
    // Framing comes first, and is of the top level only.
    assert_eq!(refused(&[ie(65, &[]), vec![0, 65, 0]]), (68, 0, 0));
    assert_eq!(refused(&[ie(65, &[]), ie_claiming(40000, 1, &[])]), (68, 40000, 12));
    assert_eq!(refused(&[ie_claiming(65, 9, &[0; 8])]), (68, 65, 8));
    assert_eq!(lost(&[ie(1, &[0, 1, 0]), ie(57, &[]), ie(129, &[1]), fq_csid(5, 1)]), [1]);
}

#[test]
fn whole_replies() {
    let mut unit = started();
    let accepted = hex("20 0F 00 12 12 34 56 00 00 3C 00 05 00 C0 00 02 01 00 13 00 01 01");
    assert_eq!(reply(&mut unit, &plain_message(14, 0x123456, &[fq_csid(5, 1)])), accepted);
    let refusal = hex("20 0F 00 18 00 00 01 00 00 3C 00 05 00 C0 00 02 01 00 13 00 01 45 \
                       00 28 00 02 00 41");
    let message = set_deletion(&[ie(65, &hex("00 00 00 00 00 01"))]);
    assert_eq!(reply(&mut unit, &message), refusal);
    // Nothing but its sequence is taken from the header.
    let mut message = plain_message(14, 1, &[]);
    message[0] |= 0x1A;
    message[7] = 9;
    let plain = hex("20 0F 00 12 00 00 01 00 00 3C 00 05 00 C0 00 02 01 00 13 00 01 01");
    assert_eq!(reply(&mut unit, &message), plain);
}
