//! Counters for what a run of calls has met, and the list of all that it should meet.

mod addresses;
mod deeds;
mod expected;
mod host;
mod peers;
mod site;

use std::collections::{BTreeMap, BTreeSet};
use std::fmt;

use crate::generate::Call;
use crate::ie;
use crate::request::fault::Place;
use crate::request::framing::{elements, opens, Part};
use crate::request::{reading, Fault, FaultKind, Header, Kind, Record, Request};
use crate::session::Sessions;
use crate::settings::Settings;
use crate::unit::limits::{Limit, NoAddress};
use crate::unit::rules::{Allocation, Rule, Unsupported};
use crate::unit::{AtEntry, Decision, Reason, Refused};
use addresses::deeds_of_addresses;
use deeds::deeds;
pub use deeds::Done;
pub use expected::expected;
pub use host::{Edge, HeaderFault};
use peers::{deeds_of_peers, is_of_other};
pub use site::Site;
use site::{deeds_of_site, fills};

/// A kind of element as far as framing and skipping go.
#[derive(Clone, Copy, PartialEq, Eq, PartialOrd, Ord, Debug)]
pub enum Class {
    ActedOn,
    Vendor,
    /// Named by the rules, but for another place.
    Misplaced,
    Unknown,
}

#[derive(Clone, Copy, PartialEq, Eq, PartialOrd, Ord, Debug)]
pub enum Counter {
    Outcome(u8),
    /// Outcome 4 for this reason alone.
    Header(HeaderFault),
    Edge(Edge),
    /// A cause in the reply to this kind of message.
    Cause(Kind, u8),
    /// Stage 2: an element of this class overruns.
    Overrun(Kind, Place, Class),
    /// Stage 2: under 4 octets are left.
    FewOctetsLeft(Kind, Place),
    /// Stage 3: the element type and what is wrong with it.
    Reading(Kind, Place, u16, FaultKind),
    Allocation(Kind, Allocation),
    Unsupported(Kind, Unsupported),
    /// A rule of 73, counted where it is the only broken one of all of stages 4 and 5.
    Rule(Rule),
    /// A kind of 75, counted where it is the only one.
    Limit(Kind, Limit),
    /// An accepted establishment took the last place of a peer's half of such a session limit.
    Filled(Site),
    /// An establishment was refused only because such a half was full.
    Full(Site),
    /// No such session of the peer, while the other peer has one with this SEID.
    OnlyOfOtherPeer(Kind),
    /// A kind of 79, which is always the only reason left.
    NoAddress(Kind, NoAddress),
    /// The first cause is reported while the second, of a later line, would hold as well.
    Before(u8, u8),
    /// A fault of stage 2 is reported while an element before it has one of stage 3.
    FramingBeforeReading,
    Accepted(Done),
    /// An accepted request with an element of this class that was skipped.
    Skipped(Kind, Place, Class),
    /// FQ-CSIDs of this node type were set.
    NodeType(u8),
}

impl fmt::Display for Counter {
    fn fmt(&self, f: &mut fmt::Formatter) -> fmt::Result {
        write!(f, "{self:?}")
    }
}

#[derive(Clone, Debug, Default)]
pub struct Coverage {
    counts: BTreeMap<Counter, u64>,
}

impl Coverage {
    pub fn new() -> Coverage {
        Coverage::default()
    }

    pub fn count(&self, counter: Counter) -> u64 {
        self.counts.get(&counter).copied().unwrap_or(0)
    }

    /// The counters that should have been met and were not.
    pub fn unmet(&self) -> Vec<Counter> {
        expected().into_iter().filter(|counter| self.count(*counter) == 0).collect()
    }

    /// Every expected counter with its count, the rarest first.
    pub fn rarest_first(&self) -> Vec<(Counter, u64)> {
        let mut counts: Vec<(Counter, u64)> =
            expected().into_iter().map(|counter| (counter, self.count(counter))).collect();
        counts.sort_by_key(|(_, count)| *count);
        counts
    }

    /// Counters that were met and are not in the list of expected ones.
    pub fn unexpected(&self) -> Vec<Counter> {
        let expected = expected();
        self.counts.keys().copied().filter(|counter| !expected.contains(counter)).collect()
    }

    fn met(&mut self, counter: Counter) {
        *self.counts.entry(counter).or_insert(0) += 1;
    }

    /// Counts one decision of a unit on a call, with its settings and the sessions before it.
    pub fn decided(
        &mut self,
        call: &Call,
        decision: &Decision,
        settings: &Settings,
        before: &Sessions,
    ) {
        let Call { message, reply_space, .. } = call;
        let outcome = match decision {
            Decision::Outcome(number) => *number,
            _ => 0,
        };
        self.met(Counter::Outcome(outcome));
        if let Some(edge) = host::edge(message, *reply_space, outcome) {
            self.met(Counter::Edge(edge));
        }
        match decision {
            Decision::Outcome(4) => {
                if let [fault] = host::header_faults(message)[..] {
                    self.met(Counter::Header(fault));
                }
            }
            Decision::Outcome(_) => {}
            Decision::Refused(refused) => {
                let entry = AtEntry { settings, sessions: before, peer: refused.peer };
                self.refused_at(entry, message, refused);
            }
            Decision::Accepted { peer, request, .. } => {
                let entry = AtEntry { settings, sessions: before, peer: *peer };
                self.accepted(entry, message, request);
            }
        }
    }

    fn refused_at(&mut self, entry: AtEntry, message: &[u8], refused: &Refused) {
        let kind = refused.header.kind;
        self.met(Counter::Cause(kind, refused.cause()));
        self.refused(kind, &refused.reasons);
        match refused.reasons[..] {
            [Reason::Limit(Limit::Sessions | Limit::SessionsByRestoration)] => {
                self.met(Counter::Full(Site::of(entry.settings)));
            }
            [Reason::NoSession, ..] if is_of_other(entry, refused.header.seid) => {
                self.met(Counter::OnlyOfOtherPeer(kind));
            }
            [Reason::Fault(fault), ..]
                if is_framing(&fault) && passed_over(&refused.header, message) =>
            {
                self.met(Counter::FramingBeforeReading);
            }
            _ => {}
        }
    }

    fn accepted(&mut self, entry: AtEntry, message: &[u8], request: &Request) {
        let kind = request.header.kind;
        self.met(Counter::Cause(kind, 1));
        self.skipped(kind, Place::Top, Part::body(message));
        if fills(entry, request) {
            self.met(Counter::Filled(Site::of(entry.settings)));
        }
        let done = deeds(entry, request, message)
            .into_iter()
            .chain(deeds_of_addresses(entry, request))
            .chain(deeds_of_site(entry, request))
            .chain(deeds_of_peers(entry, request));
        done.for_each(|done| self.met(Counter::Accepted(done)));
        for record in &request.records {
            if let Record::FqCsid(fq_csid) = record {
                self.met(Counter::NodeType(fq_csid.node_type));
            }
        }
    }

    fn refused(&mut self, kind: Kind, reasons: &[Reason]) {
        let causes: BTreeSet<u8> = reasons.iter().map(|reason| reason.cause()).collect();
        let first = reasons[0].cause();
        // 67 for an unknown session is too rare to be asked for.
        for later in causes.into_iter().filter(|cause| *cause != first && *cause != 67) {
            self.met(Counter::Before(first, later));
        }
        match (&reasons[0], reasons.len()) {
            (Reason::Fault(fault), _) => self.met(fault_counter(fault)),
            (Reason::Allocation(allocation), _) => self.met(Counter::Allocation(kind, *allocation)),
            (Reason::Unsupported(unsupported), _) => {
                self.met(Counter::Unsupported(kind, *unsupported))
            }
            (Reason::Rule(rule), 1) => self.met(Counter::Rule(*rule)),
            (Reason::Limit(limit), 1) => self.met(Counter::Limit(kind, *limit)),
            (Reason::NoAddress(why), _) => self.met(Counter::NoAddress(kind, *why)),
            _ => {}
        }
    }

    fn skipped(&mut self, kind: Kind, place: Place, part: Part) {
        for element in elements(part) {
            match class(kind, place, element.ie_type) {
                Class::ActedOn => {}
                class => self.met(Counter::Skipped(kind, place, class)),
            }
            if let Some(inner) = opens(kind, place, element.ie_type) {
                self.skipped(kind, inner, Part::inside(&element));
            }
        }
    }
}

fn is_framing(fault: &Fault) -> bool {
    matches!(fault.kind, FaultKind::Overrun | FaultKind::FewOctetsLeft)
}

/// Whether reading what stands before a broken frame finds a fault other than a missing element.
fn passed_over(header: &Header, message: &[u8]) -> bool {
    let fault = reading::read(header, message).err();
    fault.is_some_and(|fault| fault.kind != FaultKind::Missing)
}

fn fault_counter(fault: &Fault) -> Counter {
    let Fault { message, place, offending, kind, .. } = *fault;
    match kind {
        FaultKind::Overrun => Counter::Overrun(message, place, class(message, place, offending)),
        FaultKind::FewOctetsLeft => Counter::FewOctetsLeft(message, place),
        _ => Counter::Reading(message, place, offending, kind),
    }
}

/// The elements acted on at a place.
fn acted_on(message: Kind, place: Place) -> &'static [u16] {
    match (place, message) {
        (Place::Top, Kind::Establishment) => &[57, 186, 1, 127, 65],
        (Place::Top, Kind::Modification) => &[1, 127, 9, 15, 130, 65, 129],
        (Place::Top, Kind::Deletion) => &[],
        (Place::Top, Kind::SetDeletion) => &[65],
        (Place::CreatePdr | Place::UpdatePdr, _) => &[56, 29, 2, 108],
        (Place::PdiOfCreatePdr | Place::PdiOfUpdatePdr, _) => &[20, 21, 131, 93],
        (Place::CreateEndpoint, _) => &[131, 21, 93],
        (Place::RemovePdr, _) => &[56],
        (Place::RemoveEndpoint, _) => &[131],
    }
}

fn class(message: Kind, place: Place, ie_type: u16) -> Class {
    const NAMED: [u16; 19] =
        [1, 2, 8, 9, 15, 19, 20, 21, 29, 56, 57, 60, 65, 93, 108, 127, 130, 131, 186];
    if acted_on(message, place).contains(&ie_type) {
        Class::ActedOn
    } else if ie_type >= ie::FIRST_VENDOR {
        Class::Vendor
    } else if NAMED.contains(&ie_type) {
        Class::Misplaced
    } else {
        Class::Unknown
    }
}
