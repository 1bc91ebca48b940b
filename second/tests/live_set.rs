//! Document 01 "What lives": the live set from messages, outcomes and replies alone.

mod common;

use common::*;
use second::live::LiveSet;
use second::session::{Families, Local, Tunnel};

const V4: Families = Families { v4: true, v6: false };

/// A reply of this type with these elements.
fn answer(message_type: u8, parts: &[Vec<u8>]) -> Vec<u8> {
    message(message_type, 0, 1, parts)
}

fn created_pdr(id: u16, teid: u32) -> Vec<u8> {
    group(8, &[pdr_id(id), ie(21, &given_v4(teid))])
}

#[test]
fn teids_come_from_the_reply() {
    let mut live = LiveSet::new();
    let request = establishment(1, &[create_pdr(1, &[choose()]), create_endpoint(1, &[5])]);
    let created_endpoint = group(128, &[endpoint_id(1), ie(21, &given_v4(88))]);
    let accepted = answer(51, &[ie(19, &[1]), created_pdr(1, 77), created_endpoint]);
    // Other outcomes and causes change nothing.
    assert_eq!(live.follow(1, &request, 2, &accepted), Ok(()));
    assert_eq!(live.follow(1, &request, 0, &answer(51, &[ie(19, &[75])])), Ok(()));
    assert_eq!(live, LiveSet::new());
    assert_eq!(live.follow(1, &request, 0, &accepted), Ok(()));
    let session = &live.sessions[&key(1)];
    assert_eq!(session.pdrs[&1].local, Local::Tunnel(Tunnel { teid: 77, families: V4 }));
    assert_eq!(session.endpoints[&1].tunnel, Tunnel { teid: 88, families: V4 });
    // A modification without its Created group cannot be followed and changes nothing.
    let request = modification(1, &[remove_pdr(1), create_pdr(2, &[choose()])]);
    let before = live.clone();
    assert!(live.follow(1, &request, 0, &answer(53, &[ie(19, &[1])])).is_err());
    assert_eq!(live, before);
    let accepted = answer(53, &[ie(19, &[1]), created_pdr(2, 99)]);
    assert_eq!(live.follow(1, &request, 0, &accepted), Ok(()));
    assert_eq!(live.sessions[&key(1)].pdrs.keys().copied().collect::<Vec<_>>(), [2]);
    assert_eq!(live.follow(1, &deletion(1, &[]), 0, &answer(55, &[ie(19, &[1])])), Ok(()));
    assert_eq!(live, LiveSet::new());
}

#[test]
fn a_given_teid_is_the_requests_own() {
    let mut live = LiveSet::new();
    let request = restoration(1, &[create_pdr(1, &[ie(21, &given_v4(5))])]);
    assert_eq!(live.follow(1, &request, 0, &answer(51, &[ie(19, &[1])])), Ok(()));
    let local = live.sessions[&key(1)].pdrs[&1].local;
    assert_eq!(local, Local::Tunnel(Tunnel { teid: 5, families: V4 }));
}
