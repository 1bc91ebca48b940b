//! What stages 2 and 3 report: a cause and the offending type, and for the tests also which fault
//! it was and where.

use super::framing::Element;
use super::Kind;
use crate::element::{Bad, Refusal, CAUSE_INCORRECT, CAUSE_LENGTH};
use crate::ie;

/// A part of a message in which elements stand.
#[derive(Clone, Copy, PartialEq, Eq, PartialOrd, Ord, Debug)]
pub enum Place {
    Top,
    CreatePdr,
    PdiOfCreatePdr,
    UpdatePdr,
    PdiOfUpdatePdr,
    CreateEndpoint,
    RemovePdr,
    RemoveEndpoint,
}

impl Place {
    /// The type of the group whose members stand here, 0 at top.
    pub fn group(&self) -> u16 {
        match self {
            Place::Top => 0,
            Place::CreatePdr => ie::CREATE_PDR,
            Place::PdiOfCreatePdr | Place::PdiOfUpdatePdr => ie::PDI,
            Place::UpdatePdr => ie::UPDATE_PDR,
            Place::CreateEndpoint => ie::CREATE_ENDPOINT,
            Place::RemovePdr => ie::REMOVE_PDR,
            Place::RemoveEndpoint => ie::REMOVE_ENDPOINT,
        }
    }
}

#[derive(Clone, Copy, PartialEq, Eq, PartialOrd, Ord, Debug)]
pub enum FaultKind {
    /// Stage 2: an element or member runs past the end of its part.
    Overrun,
    /// Stage 2: under 4 octets are left.
    FewOctetsLeft,
    Missing,
    /// A null length where there must be a value.
    Empty,
    Short,
    Repeated,
    Bad(Bad),
}

#[derive(Clone, Copy, PartialEq, Eq, PartialOrd, Ord, Debug)]
pub struct Fault {
    pub cause: u8,
    /// The value of the Offending IE.
    pub offending: u16,
    pub message: Kind,
    pub place: Place,
    pub kind: FaultKind,
    /// Document 02 (iv): "the place of the element at fault within the message, from 0, or of the
    /// enclosing group if a member is missing or under 4 octets are left (0 for the message)".
    pub octet: usize,
}

/// Where a fault is found; makes the faults of that part.
#[derive(Clone, Copy)]
pub struct At {
    pub message: Kind,
    pub place: Place,
    /// Where the group whose members stand here starts in the message, 0 at top.
    pub octet: usize,
}

impl At {
    /// The top of a message.
    pub fn top(message: Kind) -> At {
        At { message, place: Place::Top, octet: 0 }
    }

    /// The part behind a group.
    pub fn inside(message: Kind, place: Place, group: &Element) -> At {
        At { message, place, octet: group.octet }
    }

    fn fault(&self, cause: u8, offending: u16, kind: FaultKind, octet: usize) -> Fault {
        Fault { cause, offending, message: self.message, place: self.place, kind, octet }
    }

    /// An overrun is 68 and names the element itself.
    pub fn overrun(&self, element: u16, octet: usize) -> Fault {
        self.fault(CAUSE_LENGTH, element, FaultKind::Overrun, octet)
    }

    /// "the enclosing group (0 at top) where under 4 octets are left"
    pub fn few_octets_left(&self) -> Fault {
        self.fault(CAUSE_LENGTH, self.place.group(), FaultKind::FewOctetsLeft, self.octet)
    }

    /// "a required one missing 66 (F-TEID of an endpoint 67)"
    pub fn missing(&self, element: u16) -> Fault {
        let conditional = self.place == Place::CreateEndpoint && element == ie::F_TEID;
        let cause = if conditional { 67 } else { 66 };
        self.fault(cause, element, FaultKind::Missing, self.octet)
    }

    pub fn repeated(&self, element: &Element) -> Fault {
        self.fault(CAUSE_INCORRECT, element.ie_type, FaultKind::Repeated, element.octet)
    }

    pub fn refused(&self, element: &Element, refusal: Refusal) -> Fault {
        let kind = match refusal {
            Refusal::Empty => FaultKind::Empty,
            Refusal::Short => FaultKind::Short,
            Refusal::Bad(bad) => FaultKind::Bad(bad),
        };
        self.fault(refusal.cause(), element.ie_type, kind, element.octet)
    }
}
