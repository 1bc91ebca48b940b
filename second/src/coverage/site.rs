//! What a run has met of a site's size: the session limit, and TEIDs far up in a large pool.

use std::collections::BTreeSet;

use super::deeds::Done;
use crate::element::f_teid::FTeid;
use crate::request::{Kind, Request};
use crate::session::{count_of, distinct_teids, Sessions};
use crate::settings::{Settings, LARGEST_LIMIT, LARGEST_POOL};
use crate::unit::AtEntry;

/// A session limit, by how many sessions each peer has of it.
#[derive(Clone, Copy, PartialEq, Eq, PartialOrd, Ord, Debug)]
pub enum Site {
    One,
    Few,
    Many,
    Largest,
}

pub const ALL_SITES: [Site; 4] = [Site::One, Site::Few, Site::Many, Site::Largest];

impl Site {
    pub fn of(settings: &Settings) -> Site {
        match settings.half() {
            1 => Site::One,
            2..=15 => Site::Few,
            _ if settings.session_limit == LARGEST_LIMIT => Site::Largest,
            _ => Site::Many,
        }
    }
}

/// Whether a request that was accepted takes the peer's last place.
pub fn fills(entry: AtEntry, request: &Request) -> bool {
    let sessions = count_of(entry.sessions, entry.peer) + 1;
    request.header.kind == Kind::Establishment && entry.settings.is_full(sessions)
}

/// Whether a TEID lies in the upper half of the map.
fn is_high(settings: &Settings, teid: u32) -> bool {
    settings.holds(teid) && teid - settings.first >= LARGEST_POOL / 2
}

/// What an accepted request has done with TEIDs of a large pool, each thing once.
pub fn deeds_of_site(entry: AtEntry, request: &Request) -> BTreeSet<Done> {
    let settings = entry.settings;
    let mut done = BTreeSet::new();
    for (f_teid, _) in request.f_teids() {
        match f_teid {
            FTeid::Given { teid, .. } if is_high(settings, *teid) => {
                done.insert(match teid - settings.first + 1 == LARGEST_POOL {
                    true => Done::RestoredLastTeidOfLargestPool,
                    false => Done::RestoredHighTeid,
                });
            }
            FTeid::Choose { .. } if holds_high(settings, entry.sessions) => {
                done.insert(Done::ChosenBelowHighTeid);
            }
            _ => {}
        }
    }
    done
}

fn holds_high(settings: &Settings, sessions: &Sessions) -> bool {
    distinct_teids(sessions).last().is_some_and(|teid| is_high(settings, *teid))
}
