//! What two live sets may differ in: PDRs' precedences and FAR IDs, having one or none included.
//! Sessions, tables and requests without these fields, and how far two live sets do differ in them.

use std::ops::AddAssign;

use second::layout::{COUNT, COUNTS, PDR, PDRS, SLOT, SLOTS};
use second::request::{header, read, Record, Request};
use second::session::{Pdr, Session, Sessions};

/// Where the fields stand in a PDR's slot, one after the other: the precedence, whether there is a
/// FAR ID, the FAR ID.
const FIELDS: std::ops::Range<usize> = 2..11;

pub(crate) fn bare_session(session: &Session) -> Session {
    let bare = |pdr: &Pdr| Pdr { precedence: 0, far_id: None, ..pdr.clone() };
    let pdrs = session.pdrs.iter().map(|(id, pdr)| (*id, bare(pdr))).collect();
    Session { pdrs, ..session.clone() }
}

pub(crate) fn bare_sessions(sessions: &Sessions) -> Sessions {
    sessions.iter().map(|(key, session)| (*key, bare_session(session))).collect()
}

/// A table with these fields zero in the slot of every PDR; room that no PDR uses stays as it is.
pub(crate) fn blank_table(table: &[u8]) -> Vec<u8> {
    let mut blank = table.to_vec();
    let sessions = usize::from(u16::from_be_bytes([table[COUNT], table[COUNT + 1]]));
    for slot in blank[SLOTS..].chunks_mut(SLOT).take(sessions) {
        // The number of PDRs is the first of a slot's counts.
        let pdrs = usize::from(slot[COUNTS]);
        for pdr in slot[PDRS..].chunks_mut(PDR).take(pdrs) {
            pdr[FIELDS].fill(0);
        }
    }
    blank
}

/// A restoration request as it is read, without these fields.
pub(crate) fn bare_request(message: &[u8]) -> Option<Request> {
    let mut request = read(&header::test(message).ok()?, message).ok()?;
    for record in &mut request.records {
        if let Record::CreatePdr { precedence, far_id, .. } = record {
            (*precedence, *far_id) = (0, None);
        }
    }
    Some(request)
}

/// How many PDRs of two live sets have another precedence, a FAR ID against none, and another FAR
/// ID.
#[derive(Clone, Copy, PartialEq, Eq, Debug, Default)]
pub struct Differences {
    pub pdrs: usize,
    pub precedences: usize,
    pub presences: usize,
    pub far_ids: usize,
}

impl Differences {
    pub(crate) fn between(one: &Session, other: &Session) -> Differences {
        let mut all = Differences::default();
        for (pdr, twin) in one.pdrs.values().zip(other.pdrs.values()) {
            let both = pdr.far_id.is_some() && twin.far_id.is_some();
            all += Differences {
                pdrs: 1,
                precedences: usize::from(pdr.precedence != twin.precedence),
                presences: usize::from(pdr.far_id.is_some() != twin.far_id.is_some()),
                far_ids: usize::from(both && pdr.far_id != twin.far_id),
            };
        }
        all
    }

    /// Of two live sets that are alike.
    pub(crate) fn between_all(one: &Sessions, other: &Sessions) -> Differences {
        let mut all = Differences::default();
        for (session, twin) in one.values().zip(other.values()) {
            all += Differences::between(session, twin);
        }
        all
    }

    pub(crate) fn any(&self) -> bool {
        self.precedences + self.presences + self.far_ids > 0
    }
}

impl AddAssign for Differences {
    fn add_assign(&mut self, other: Differences) {
        self.pdrs += other.pdrs;
        self.precedences += other.precedences;
        self.presences += other.presences;
        self.far_ids += other.far_ids;
    }
}
