//! Stage 2: "an element or group member runs past its end, or under 4 octets are left".

use super::fault::{At, Fault, Place};
use super::Kind;
use crate::ie;

/// "An element (IE) is type (2), length (2), value."
#[derive(Clone, Copy, PartialEq, Eq, Debug)]
pub struct Element<'a> {
    pub ie_type: u16,
    pub value: &'a [u8],
    /// Where it starts in the message, from 0.
    pub octet: usize,
}

/// A part of a message in which elements stand, and where it starts in the message.
#[derive(Clone, Copy)]
pub struct Part<'a> {
    octets: &'a [u8],
    octet: usize,
}

impl<'a> Part<'a> {
    /// What stands behind the header of a request or a reply; nothing where it is cut short.
    pub fn body(message: &'a [u8]) -> Part<'a> {
        let octet = ie::header_octets(message);
        Part { octets: message.get(octet..).unwrap_or(&[]), octet }
    }

    /// Octets by themselves, counted from their first one.
    pub fn of(octets: &'a [u8]) -> Part<'a> {
        Part { octets, octet: 0 }
    }

    /// The members of a group, behind its type and length.
    pub fn inside(group: &Element<'a>) -> Part<'a> {
        Part { octets: group.value, octet: group.octet + FRAME_OCTETS }
    }

    fn skip(&mut self, count: usize) {
        self.octets = &self.octets[count..];
        self.octet += count;
    }
}

/// Type and length.
const FRAME_OCTETS: usize = 4;

/// Why the next element of a part cannot be cut out.
#[derive(Clone, Copy, PartialEq, Eq, Debug)]
pub enum Broken {
    FewOctetsLeft,
    /// Of this type, starting there.
    Overrun(u16, usize),
}

/// Cuts the next element off the front of a part; nothing at the part's end.
pub fn next<'a>(part: &mut Part<'a>) -> Result<Option<Element<'a>>, Broken> {
    if part.octets.is_empty() {
        return Ok(None);
    }
    let octet = part.octet;
    let (frame, rest) =
        part.octets.split_first_chunk::<FRAME_OCTETS>().ok_or(Broken::FewOctetsLeft)?;
    let ie_type = u16::from_be_bytes([frame[0], frame[1]]);
    let length = usize::from(u16::from_be_bytes([frame[2], frame[3]]));
    let value = rest.get(..length).ok_or(Broken::Overrun(ie_type, octet))?;
    part.skip(FRAME_OCTETS + length);
    Ok(Some(Element { ie_type, value, octet }))
}

/// The elements of a part. It ends at a broken frame, which stage 2 has shut out before.
pub fn elements(part: Part<'_>) -> impl Iterator<Item = Element<'_>> {
    let mut rest = part;
    std::iter::from_fn(move || next(&mut rest).ok().flatten())
}

/// The part behind an element that is a group acted on in this message at this place. Anything
/// else "is skipped and not framed inside".
pub fn opens(message: Kind, place: Place, ie_type: u16) -> Option<Place> {
    let modification = message == Kind::Modification;
    match (place, ie_type) {
        (Place::Top, _) if matches!(message, Kind::Deletion | Kind::SetDeletion) => None,
        (Place::Top, ie::CREATE_PDR) => Some(Place::CreatePdr),
        (Place::Top, ie::CREATE_ENDPOINT) => Some(Place::CreateEndpoint),
        (Place::Top, ie::UPDATE_PDR) if modification => Some(Place::UpdatePdr),
        (Place::Top, ie::REMOVE_PDR) if modification => Some(Place::RemovePdr),
        (Place::Top, ie::REMOVE_ENDPOINT) if modification => Some(Place::RemoveEndpoint),
        (Place::CreatePdr, ie::PDI) => Some(Place::PdiOfCreatePdr),
        (Place::UpdatePdr, ie::PDI) => Some(Place::PdiOfUpdatePdr),
        _ => None,
    }
}

/// The framing walk, depth first and in octet order: an element's own frame, then its members, then
/// the next element.
pub fn frame(kind: Kind, message: &[u8]) -> Result<(), Fault> {
    frame_part(At::top(kind), Part::body(message))
}

fn frame_part(at: At, part: Part) -> Result<(), Fault> {
    let mut rest = part;
    loop {
        match next(&mut rest) {
            Ok(None) => return Ok(()),
            Ok(Some(element)) => {
                if let Some(place) = opens(at.message, at.place, element.ie_type) {
                    frame_part(At::inside(at.message, place, &element), Part::inside(&element))?;
                }
            }
            Err(Broken::FewOctetsLeft) => return Err(at.few_octets_left()),
            Err(Broken::Overrun(ie_type, octet)) => return Err(at.overrun(ie_type, octet)),
        }
    }
}
