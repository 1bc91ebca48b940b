//! 02 (ii): "PDRs which name the removed endpoint are removed with it." Sentence by sentence, and
//! the readings of it.

mod common;

use common::*;
use second::unit::Unit;

/// A session 1 with endpoint 1 (TEID 4096), which PDRs 1 and 2 name, endpoint 2 (TEID 4097), which
/// PDR 3 names, and PDR 4 with a tunnel (TEID 4098); a pool of `size` TEIDs from 4096 on.
fn started(size: u32) -> Unit {
    let mut unit = unit(4096, size);
    let parts = [
        create_endpoint(1, &[5]),
        create_endpoint(2, &[5]),
        create_pdr(1, &[endpoint_id(1)]),
        create_pdr(2, &[endpoint_id(1)]),
        create_pdr(3, &[endpoint_id(2)]),
        create_pdr(4, &[choose()]),
    ];
    assert_eq!(cause(&mut unit, &establishment(1, &parts)), 1);
    unit
}

fn modified(parts: &[Vec<u8>]) -> u8 {
    cause(&mut started(100), &modification(1, parts))
}

/// The PDR IDs and the endpoint IDs of session 1.
fn left(unit: &Unit) -> (Vec<u16>, Vec<u8>) {
    let session = &unit.sessions()[&key(1)];
    (session.pdrs.keys().copied().collect(), session.endpoints.keys().copied().collect())
}

fn after(parts: &[Vec<u8>]) -> (Vec<u16>, Vec<u8>) {
    let mut unit = started(100);
    assert_eq!(cause(&mut unit, &modification(1, parts)), 1);
    left(&unit)
}

/// A refusal with this cause that changes nothing.
fn refused(with: u8, parts: &[Vec<u8>]) {
    let mut unit = started(100);
    let before = unit.clone();
    assert_eq!(cause(&mut unit, &modification(1, parts)), with);
    assert_eq!(unit, before);
}

#[test]
fn removed_alone_it_takes_its_pdrs_along() {
    assert_eq!(after(&[remove_endpoint(1)]), (vec![3, 4], vec![2]));
    assert_eq!(after(&[remove_endpoint(2)]), (vec![1, 2, 4], vec![1]));
    assert_eq!(after(&[remove_endpoint(2), remove_endpoint(1)]), (vec![4], vec![]));
    // Another session's PDRs that name an endpoint of that ID stay.
    let mut unit = started(100);
    let other = [create_endpoint(1, &[5]), create_pdr(1, &[endpoint_id(1)])];
    assert_eq!(cause(&mut unit, &establishment(2, &other)), 1);
    assert_eq!(cause(&mut unit, &modification(1, &[remove_endpoint(1)])), 1);
    assert_eq!(unit.sessions()[&key(2)].pdrs.len(), 1);
    assert_eq!(unit.sessions()[&key(2)].endpoints.len(), 1);
}

#[test]
fn naming_one_in_remove_pdr_too_is_allowed_and_counts_once() {
    assert_eq!(after(&[remove_pdr(1), remove_endpoint(1)]), (vec![3, 4], vec![2]));
    assert_eq!(after(&[remove_endpoint(1), remove_pdr(2), remove_pdr(1)]), (vec![3, 4], vec![2]));
    assert_eq!(after(&[remove_endpoint(1), remove_pdr(4)]), (vec![3], vec![2]));
    // Remove PDR twice stays 73, and so does one that is not live.
    refused(73, &[remove_pdr(1), remove_endpoint(1), remove_pdr(1)]);
    refused(73, &[remove_endpoint(1), remove_pdr(9)]);
    refused(73, &[remove_endpoint(1), remove_endpoint(1)]);
}

#[test]
fn updating_one_is_73() {
    refused(73, &[remove_endpoint(1), update_pdr(1, &[])]);
    refused(73, &[update_pdr(2, &[precedence(9)]), remove_endpoint(1)]);
    refused(73, &[update_pdr(2, &[]), remove_pdr(2), remove_endpoint(1)]);
    assert_eq!(after(&[remove_endpoint(1), update_pdr(3, &[])]), (vec![3, 4], vec![2]));
    assert_eq!(modified(&[remove_endpoint(1), update_pdr(4, &[])]), 1);
}

#[test]
fn creating_one_that_names_it_is_73() {
    refused(73, &[remove_endpoint(1), create_pdr(9, &[endpoint_id(1)])]);
    // Also where the same request creates that ID again, which is 73 by itself.
    refused(73, &[remove_endpoint(1), create_endpoint(1, &[5]), create_pdr(9, &[endpoint_id(1)])]);
    refused(73, &[remove_endpoint(1), create_endpoint(1, &[5])]);
    assert_eq!(
        after(&[remove_endpoint(1), create_pdr(9, &[endpoint_id(2)])]),
        (vec![3, 4, 9], vec![2])
    );
}

#[test]
fn a_created_id_that_was_live_at_entry_is_73() {
    refused(73, &[remove_endpoint(1), create_pdr(1, &[])]);
    refused(73, &[create_pdr(2, &[endpoint_id(2)]), remove_endpoint(1)]);
}

#[test]
fn the_limit_counts_them_as_removed() {
    // 16 PDRs, of which 1 to 4 name endpoint 1.
    let mut unit = unit(4096, 10);
    let mut parts = vec![create_endpoint(1, &[5]), create_endpoint(2, &[5])];
    parts.extend((1..5).map(|id| create_pdr(id, &[endpoint_id(1)])));
    parts.extend((5..17).map(|id| create_pdr(id, &[endpoint_id(2)])));
    assert_eq!(cause(&mut unit, &establishment(1, &parts)), 1);
    let with_new = |count: u16, others: &[Vec<u8>]| {
        let mut parts = vec![remove_endpoint(1)];
        parts.extend_from_slice(others);
        parts.extend((30..30 + count).map(|id| create_pdr(id, &[])));
        modification(1, &parts)
    };
    assert_eq!(cause(&mut unit.clone(), &with_new(4, &[])), 1);
    assert_eq!(cause(&mut unit.clone(), &with_new(5, &[])), 75);
    // Named in Remove PDR too they count once; another one makes room.
    assert_eq!(cause(&mut unit.clone(), &with_new(5, &[remove_pdr(1), remove_pdr(2)])), 75);
    assert_eq!(cause(&mut unit.clone(), &with_new(5, &[remove_pdr(5)])), 1);
    assert_eq!(cause(&mut unit, &with_new(6, &[remove_pdr(5)])), 75);
}

#[test]
fn its_teid_is_free_from_the_next_call_on() {
    // A pool of three, all held.
    let mut unit = started(3);
    assert_eq!(unit.free_count(), 0);
    let before = unit.clone();
    let asked = [remove_endpoint(1), create_pdr(9, &[choose()])];
    assert_eq!(cause(&mut unit, &modification(1, &asked)), 75);
    assert_eq!(unit, before);
    assert_eq!(cause(&mut unit, &modification(1, &[remove_endpoint(1)])), 1);
    assert_eq!(unit.free_count(), 1);
    assert_eq!(cause(&mut unit, &modification(1, &[create_pdr(1, &[choose()])])), 1);
    assert_eq!(unit.free_count(), 0);
    assert!(unit.sessions()[&key(1)].teids().any(|teid| teid == 4096));
}
