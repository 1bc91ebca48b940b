//! Damage to a laid-out message: missing, repeated, short, bad and overrunning elements, octets
//! left over, and elements that are to be skipped. Some of it harms nothing, which is meant.

use std::collections::BTreeSet;

use super::draft::{Body, Draft, Node};
use super::plan::{DELETION, ESTABLISHMENT, MODIFICATION, SET_DELETION};
use super::random::Random;

const UNKNOWN: [u16; 6] = [0, 3, 99, 200, 4000, 32767];
const VENDOR: [u16; 4] = [32768, 32769, 40000, 65535];
const NAMED: [u16; 19] =
    [1, 2, 8, 9, 15, 19, 20, 21, 29, 56, 57, 60, 65, 93, 108, 127, 130, 131, 186];

/// One piece of damage at a random spot.
pub fn damage(draft: &mut Draft, random: &mut Random) {
    match random.below(22) {
        0 | 1 => remove(draft, random),
        2 | 3 => repeat(draft, random),
        4 | 5 | 17 | 18 => shorten(draft, random),
        6 => leave_octets(draft, random),
        7 | 19 => overrun(draft, random),
        8 => claim_less(draft, random),
        9 if draft.message_type == MODIFICATION && random.percent(10) => {
            add_update_endpoint(draft, random)
        }
        9 => add_skipped(draft, random),
        10..=12 => add_skipped_overrun(draft, random),
        13 | 14 | 16 | 20 => spoil(draft, random),
        15 => repeat(draft, random),
        _ => match random.below(3) {
            0 => flip_a_bit(draft, random),
            1 => reorder(draft, random),
            _ => lengthen(draft, random),
        },
    }
}

type Spot = (Vec<usize>, usize);

/// A random element. Every kind of element at every kind of place is as likely as the others.
fn an_element(draft: &Draft, random: &mut Random, wanted: &dyn Fn(&[u16]) -> bool) -> Option<Spot> {
    let all = draft.elements();
    let kinds: BTreeSet<&Vec<u16>> =
        all.iter().map(|(_, _, types)| types).filter(|types| wanted(types)).collect();
    let kinds: Vec<&Vec<u16>> = kinds.into_iter().collect();
    if kinds.is_empty() {
        return None;
    }
    let kind = random.pick(&kinds);
    let spots: Vec<Spot> = all
        .iter()
        .filter(|(_, _, types)| types == kind)
        .map(|(way, index, _)| (way.clone(), *index))
        .collect();
    Some(random.pick(&spots))
}

/// A random place, every kind as likely as the others.
fn a_place(draft: &Draft, random: &mut Random) -> Vec<usize> {
    let all = draft.places();
    let kinds: BTreeSet<&Vec<u16>> = all.iter().map(|(_, types)| types).collect();
    let kinds: Vec<&Vec<u16>> = kinds.into_iter().collect();
    let kind = random.pick(&kinds);
    let ways: Vec<Vec<usize>> =
        all.iter().filter(|(_, types)| types == kind).map(|(way, _)| way.clone()).collect();
    random.pick(&ways)
}

fn remove(draft: &mut Draft, random: &mut Random) {
    let Some((way, index)) = an_element(draft, random, &|_| true) else { return };
    let ie_type = draft.place(&way)[index].ie_type;
    // Only without any Create PDR at all is one missing.
    if way.is_empty() && ie_type == 1 && random.percent(70) {
        draft.nodes.retain(|node| node.ie_type != 1);
    } else {
        draft.place(&way).remove(index);
    }
}

fn repeat(draft: &mut Draft, random: &mut Random) {
    let Some((way, index)) = an_element(draft, random, &|_| true) else { return };
    let nodes = draft.place(&way);
    let mut copy = nodes[index].clone();
    // The value of a repeated element is not read, so it may be anything.
    if let (Body::Octets(value), true) = (&mut copy.body, random.percent(40)) {
        let count = random.below(6);
        *value = random.octets(count);
    }
    let at = random.between(0, nodes.len());
    nodes.insert(at, copy);
}

fn shorten(draft: &mut Draft, random: &mut Random) {
    // Only elements with a value of their own.
    let leaf = |types: &[u16]| ![1, 2, 9, 15, 127, 130].contains(types.last().unwrap_or(&1));
    let Some((way, index)) = an_element(draft, random, &leaf) else { return };
    if let Body::Octets(value) = &mut draft.place(&way)[index].body {
        let length = match (value.len(), random.below(8)) {
            (0, _) | (_, 0..=2) => 0,
            (length, 3 | 4) => length - 1,
            (length, _) => random.below(length),
        };
        value.truncate(length);
    }
}

fn leave_octets(draft: &mut Draft, random: &mut Random) {
    let way = a_place(draft, random);
    let count = random.between(1, 3);
    let octets = random.octets(count);
    draft.place(&way).push(Node::bare(octets));
}

fn overrun(draft: &mut Draft, random: &mut Random) {
    let Some((way, index)) = an_element(draft, random, &|_| true) else { return };
    let nodes = draft.place(&way);
    let last = index + 1 == nodes.len();
    nodes[index].length_shift += match last && random.percent(60) {
        true => random.between(1, 4) as i32,
        false => random.pick(&[1, 2100, 2100, 60000]),
    };
}

fn claim_less(draft: &mut Draft, random: &mut Random) {
    let Some((way, index)) = an_element(draft, random, &|_| true) else { return };
    draft.place(&way)[index].length_shift -= random.between(1, 6) as i32;
}

/// A vendor, unknown or misplaced element at some place, which harms nothing.
pub fn add_skipped(draft: &mut Draft, random: &mut Random) {
    let way = a_place(draft, random);
    let node = skipped(draft, &way, random);
    let nodes = draft.place(&way);
    let at = random.between(0, nodes.len());
    nodes.insert(at, node);
}

/// The same, but it runs past the end of its place.
fn add_skipped_overrun(draft: &mut Draft, random: &mut Random) {
    let way = a_place(draft, random);
    let mut node = skipped(draft, &way, random);
    node.length_shift = random.between(1, 300) as i32;
    draft.place(&way).push(node);
}

fn skipped(draft: &Draft, way: &[usize], random: &mut Random) -> Node {
    let ie_type = match random.below(3) {
        0 => random.pick(&VENDOR),
        1 => random.pick(&UNKNOWN),
        _ => misplaced(draft, way, random),
    };
    let count = random.below(9);
    Node::leaf(ie_type, random.octets(count))
}

/// Element 129, at top or as a member of a group.
fn add_update_endpoint(draft: &mut Draft, random: &mut Random) {
    let way = a_place(draft, random);
    let count = random.below(4);
    let node = Node::leaf(129, random.octets(count));
    draft.place(&way).push(node);
}

/// A type that document 01 names, but not at this place.
fn misplaced(draft: &Draft, way: &[usize], random: &mut Random) -> u16 {
    let types = draft.places().into_iter().find(|(other, _)| other == way).map(|(_, t)| t);
    let placed: &[u16] = match (types.unwrap_or_default().last(), draft.message_type) {
        (None, ESTABLISHMENT) => &[57, 186, 1, 127, 65],
        (None, MODIFICATION) => &[1, 127, 9, 15, 130, 65],
        (None, SET_DELETION) => &[65],
        (None, _) => &[],
        (Some(1 | 9), _) => &[56, 29, 2, 108],
        (Some(2), _) => &[20, 21, 131, 93],
        (Some(127), _) => &[131, 21, 93],
        (Some(15), _) => &[56],
        _ => &[131],
    };
    let rest: Vec<u16> = NAMED.iter().copied().filter(|t| !placed.contains(t)).collect();
    random.pick(&rest)
}

/// Makes the value of an F-SEID, F-TEID, UE IP Address or FQ-CSID bad.
fn spoil(draft: &mut Draft, random: &mut Random) {
    // An FQ-CSID has the most ways of being bad.
    let only = [DELETION, SET_DELETION].contains(&draft.message_type) || random.percent(40);
    let spoilt: &[u16] = if only { &[65] } else { &[57, 21, 93] };
    let wanted = |types: &[u16]| spoilt.contains(types.last().unwrap_or(&0));
    let Some((way, index)) = an_element(draft, random, &wanted) else { return };
    let message_type = draft.message_type;
    let nodes = draft.place(&way);
    let ie_type = nodes[index].ie_type;
    let Body::Octets(value) = &mut nodes[index].body else { return };
    match (ie_type, value.first().copied()) {
        (57, Some(flags)) => match random.below(3) {
            0 => value[0] = flags & !3,
            1 if value.len() >= 9 => value[1..9].fill(0),
            // The two family bits the other way round, and all octets that both would need.
            _ => value[0] = flags & !3 | (flags & 1) << 1 | (flags & 2) >> 1,
        },
        (21, Some(flags)) => match random.below(4) {
            0 => value[0] = flags & !3,
            1 => value[0] = flags & !4 | 8,
            2 => value[0] = flags | 12,
            _ => value[0] = flags ^ 4,
        },
        (93, Some(_)) if value.len() >= 5 && random.percent(30) => {
            value.truncate(random.between(1, 4));
        }
        (93, Some(flags)) => match random.below(5) {
            // Neither V4 nor CHV4, or both; then what is not served.
            0 | 1 => value[0] = flags & !0x12,
            2 | 3 => value[0] = flags | 0x12,
            _ => value[0] = flags | random.pick(&[1, 8, 32, 64]),
        },
        (65, _) if random.percent(15) => {
            // The node type again, with another value.
            let again = fq_csid(random, 0, 1, last_half(value));
            nodes.push(Node::leaf(65, again));
        }
        (65, _) => *value = bad_fq_csid(message_type, random),
        _ => {}
    }
}

fn last_half(value: &[u8]) -> u8 {
    value.last().copied().unwrap_or(0) & 0x0F
}

fn fq_csid(random: &mut Random, node_id_type: u8, m: u8, node_type: u8) -> Vec<u8> {
    let mut value = vec![node_id_type << 4 | m];
    match node_id_type {
        2 => value.extend((262_001_u32 << 12).to_be_bytes()),
        _ => value.extend(random.octets(if node_id_type == 1 { 16 } else { 4 })),
    }
    value.extend(random.octets(2 * usize::from(m)));
    value.push(node_type);
    value
}

/// An FQ-CSID that is long enough and breaks one rule.
fn bad_fq_csid(message_type: u8, random: &mut Random) -> Vec<u8> {
    let node_id_type = random.below(3) as u8;
    let node_type = random.below(6) as u8;
    let m = 1;
    match random.below(5) {
        0 => {
            let mut value = fq_csid(random, 0, m, node_type);
            value[0] = (random.between(3, 15) as u8) << 4 | m;
            value
        }
        1 => {
            let node_type = random.between(6, 15) as u8;
            fq_csid(random, node_id_type, m, node_type)
        }
        2 => {
            let mut value = fq_csid(random, 2, m, node_type);
            let top: u32 = random.pick(&[1_000_000, 1_000_001, 0xF_FFFF]);
            value[1..5].copy_from_slice(&(top << 12).to_be_bytes());
            value
        }
        3 => {
            // An m that this message does not allow.
            let many = random.between(2, 15) as u8;
            match (message_type, random.percent(50)) {
                (DELETION | SET_DELETION, _) | (ESTABLISHMENT, true) => {
                    vec![0, 0, 0, 0, 0, node_type]
                }
                _ => fq_csid(random, node_id_type, many, node_type),
            }
        }
        _ => {
            let mut value = fq_csid(random, node_id_type, 0, node_type);
            value[1] |= 1;
            value
        }
    }
}

fn flip_a_bit(draft: &mut Draft, random: &mut Random) {
    let Some((way, index)) = an_element(draft, random, &|_| true) else { return };
    let bit = 1 << random.below(8);
    match &mut draft.place(&way)[index].body {
        Body::Octets(value) if !value.is_empty() => {
            let at = random.below(value.len());
            value[at] ^= bit;
        }
        _ => {}
    }
}

fn reorder(draft: &mut Draft, random: &mut Random) {
    let way = a_place(draft, random);
    random.shuffle(draft.place(&way));
}

fn lengthen(draft: &mut Draft, random: &mut Random) {
    let Some((way, index)) = an_element(draft, random, &|_| true) else { return };
    let count = random.between(1, 20);
    if let Body::Octets(value) = &mut draft.place(&way)[index].body {
        value.extend(random.octets(count));
    }
}
