//! What a run has met of two peers that share a unit.

use std::collections::BTreeSet;

use super::deeds::Done;
use crate::request::{Kind, Request};
use crate::session::{holdings, of_peer, Key};
use crate::settings::other_peer;
use crate::unit::grants::needed;
use crate::unit::AtEntry;

/// Whether the other peer has a session with this SEID.
pub fn is_of_other(entry: AtEntry, seid: u64) -> bool {
    entry.sessions.contains_key(&Key { peer: other_peer(entry.peer), seid })
}

/// What an accepted request has done beside the other peer, each thing once.
pub fn deeds_of_peers(entry: AtEntry, request: &Request) -> BTreeSet<Done> {
    let mut done = BTreeSet::new();
    if request.f_seid.as_ref().is_some_and(|f_seid| is_of_other(entry, f_seid.seid)) {
        done.insert(Done::SeidOfOtherPeer);
    }
    let mut of_other = of_peer(entry.sessions, other_peer(entry.peer));
    if request.header.kind == Kind::SetDeletion && of_other.any(|(_, s)| s.is_lost_by(request)) {
        done.insert(Done::SetSparingOtherPeer);
    }
    if needed(request) > 0 {
        deeds_of_need(entry, request, &mut done);
    }
    done
}

/// At the edges of the peer's limit, of the other's unused guarantee and of its own guarantee.
fn deeds_of_need(entry: AtEntry, request: &Request, done: &mut BTreeSet<Done>) {
    let AtEntry { settings, sessions, peer } = entry;
    let other = other_peer(peer);
    let (own, others) = (settings.peer(peer), settings.peer(other));
    let held_by_other = holdings(sessions, other) as u32;
    let after = holdings(sessions, peer) as u32 + needed(request) as u32;
    let by = |restored, chosen| if request.restoration { restored } else { chosen };
    if after == own.limit && own.limit < settings.size {
        done.insert(by(Done::RestoredToLimit, Done::ChosenToLimit));
    }
    if held_by_other < others.guarantee && after + others.guarantee == settings.size {
        done.insert(by(Done::RestoredToOthersGuarantee, Done::ChosenToOthersGuarantee));
    }
    if after <= own.guarantee && held_by_other > others.guarantee {
        done.insert(by(Done::RestoredWithinGuarantee, Done::ChosenWithinGuarantee));
    }
}
