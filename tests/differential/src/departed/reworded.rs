//! Requests that differ in precedences and FAR IDs only, and those that change nothing else.

use second::generate::random::Random;
use second::ie;
use second::request::framing::{elements, Part};
use second::session::{Pdr, Session};

const MODIFICATION: u8 = 52;
const DELETION: u8 = 54;

/// A precedence or FAR ID: a small one, an edge, or any.
fn number(random: &mut Random) -> u32 {
    let any = random.number() as u32;
    random.pick(&[0, 1, 2, u32::MAX, any, any])
}

fn far_id(random: &mut Random) -> Option<u32> {
    random.percent(60).then(|| number(random))
}

/// The same session with other fields in about two of three PDRs.
pub(crate) fn reworded_session(session: &Session, random: &mut Random) -> Session {
    let mut reworded = session.clone();
    for pdr in reworded.pdrs.values_mut() {
        if random.percent(65) {
            let (precedence, far_id) = (number(random), far_id(random));
            *pdr = Pdr { precedence, far_id, ..pdr.clone() };
        }
    }
    reworded
}

/// The same request with other fields in its Create and Update PDRs, at any place among their
/// members. It has to be an accepted one; where it would become too long it stays as it is.
pub(crate) fn reworded_request(message: &[u8], random: &mut Random) -> Vec<u8> {
    let (header, rest) = message.split_at(ie::header_octets(message));
    let mut body = Vec::new();
    for element in elements(Part::of(rest)) {
        let value = match element.ie_type {
            ie::CREATE_PDR => {
                let fields = [Some(octets(number(random))), far_id(random).map(octets)];
                reworded_group(element.value, fields, random)
            }
            ie::UPDATE_PDR if message[1] == MODIFICATION => {
                let fields = updated_fields(random);
                reworded_group(element.value, fields, random)
            }
            _ => element.value.to_vec(),
        };
        add(&mut body, element.ie_type, &value);
    }
    match header.len() + body.len() <= ie::LARGEST_MESSAGE {
        true => whole(header, &body),
        false => message.to_vec(),
    }
}

/// An Update PDR's precedence and FAR ID: each may be missing, and a FAR ID of null length takes
/// one away.
fn updated_fields(random: &mut Random) -> [Option<Vec<u8>>; 2] {
    let precedence = random.percent(70).then(|| octets(number(random)));
    let far_id = match random.below(4) {
        0 => None,
        1 => Some(vec![]),
        _ => Some(octets(number(random))),
    };
    [precedence, far_id]
}

/// A group's members with these fields instead of its own.
fn reworded_group(group: &[u8], fields: [Option<Vec<u8>>; 2], random: &mut Random) -> Vec<u8> {
    let types = [ie::PRECEDENCE, ie::FAR_ID];
    let mut members: Vec<(u16, Vec<u8>)> = elements(Part::of(group))
        .filter(|member| !types.contains(&member.ie_type))
        .map(|member| (member.ie_type, member.value.to_vec()))
        .collect();
    for (ie_type, field) in types.into_iter().zip(fields) {
        if let Some(value) = field {
            members.insert(random.between(0, members.len()), (ie_type, value));
        }
    }
    let mut reworded = Vec::new();
    members.iter().for_each(|(ie_type, value)| add(&mut reworded, *ie_type, value));
    reworded
}

/// A modification that changes these fields of some PDRs of a session, and nothing else.
pub(crate) fn updates(seid: u64, session: &Session, random: &mut Random) -> Vec<u8> {
    let mut body = Vec::new();
    for id in session.pdrs.keys().filter(|_| random.percent(60)).collect::<Vec<_>>() {
        let mut group = Vec::new();
        add(&mut group, ie::PDR_ID, &id.to_be_bytes());
        let fields = updated_fields(random);
        add(&mut body, ie::UPDATE_PDR, &reworded_group(&group, fields, random));
    }
    whole(&header(MODIFICATION, seid, random), &body)
}

pub(crate) fn deletion(seid: u64, random: &mut Random) -> Vec<u8> {
    whole(&header(DELETION, seid, random), &[])
}

fn header(message_type: u8, seid: u64, random: &mut Random) -> Vec<u8> {
    let mut header = vec![0x21, message_type, 0, 0];
    header.extend(seid.to_be_bytes());
    header.extend(random.octets(3));
    header.push(0);
    header
}

/// A message of a header and a body, with the length that it has then.
fn whole(header: &[u8], body: &[u8]) -> Vec<u8> {
    let mut message = [header, body].concat();
    let length = (message.len() - 4) as u16;
    message[2..4].copy_from_slice(&length.to_be_bytes());
    message
}

fn octets(number: u32) -> Vec<u8> {
    number.to_be_bytes().to_vec()
}

fn add(part: &mut Vec<u8>, ie_type: u16, value: &[u8]) {
    part.extend(ie_type.to_be_bytes());
    part.extend((value.len() as u16).to_be_bytes());
    part.extend(value);
}
