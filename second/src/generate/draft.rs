//! A message as a tree of elements that can still be damaged, and its octets.

use super::plan::*;
use super::random::Random;

#[derive(Clone, Debug)]
pub enum Body {
    Octets(Vec<u8>),
    Members(Vec<Node>),
    /// Octets without an element's frame around them.
    Bare(Vec<u8>),
}

#[derive(Clone, Debug)]
pub struct Node {
    pub ie_type: u16,
    pub body: Body,
    /// How far the written length is off the true one.
    pub length_shift: i32,
}

#[derive(Clone, Debug)]
pub struct Draft {
    pub first_octet: u8,
    pub message_type: u8,
    /// The header has none without it, whatever its first octet says.
    pub seid: Option<u64>,
    pub sequence: u32,
    pub spare: u8,
    pub length_shift: i32,
    pub nodes: Vec<Node>,
}

impl Node {
    pub fn leaf(ie_type: u16, value: Vec<u8>) -> Node {
        Node { ie_type, body: Body::Octets(value), length_shift: 0 }
    }

    pub fn group(ie_type: u16, members: Vec<Node>) -> Node {
        Node { ie_type, body: Body::Members(members), length_shift: 0 }
    }

    pub fn bare(octets: Vec<u8>) -> Node {
        Node { ie_type: 0, body: Body::Bare(octets), length_shift: 0 }
    }

    fn write(&self, message: &mut Vec<u8>) {
        let mut value = Vec::new();
        match &self.body {
            Body::Bare(octets) => return message.extend(octets),
            Body::Octets(octets) => value.extend(octets),
            Body::Members(nodes) => nodes.iter().for_each(|node| node.write(&mut value)),
        }
        let length = (value.len() as i32 + self.length_shift).clamp(0, 65535) as u16;
        message.extend(self.ie_type.to_be_bytes());
        message.extend(length.to_be_bytes());
        message.extend(value);
    }
}

impl Draft {
    pub fn octets(&self) -> Vec<u8> {
        let mut body = Vec::new();
        self.nodes.iter().for_each(|node| node.write(&mut body));
        let seid = self.seid.map_or(vec![], |seid| seid.to_be_bytes().to_vec());
        let length = (seid.len() + 4 + body.len()) as i32 + self.length_shift;
        let mut message = vec![self.first_octet, self.message_type];
        message.extend((length.clamp(0, 65535) as u16).to_be_bytes());
        message.extend(seid);
        message.extend(&self.sequence.to_be_bytes()[1..]);
        message.push(self.spare);
        message.extend(body);
        message
    }

    /// The elements at a place, which is named by the way down to it; the top is an empty way.
    pub fn place(&mut self, way: &[usize]) -> &mut Vec<Node> {
        let mut nodes = &mut self.nodes;
        for &step in way {
            match &mut nodes[step].body {
                Body::Members(members) => nodes = members,
                _ => unreachable!("a way leads through groups"),
            }
        }
        nodes
    }

    /// Every place, with the types of the groups around it.
    pub fn places(&self) -> Vec<(Vec<usize>, Vec<u16>)> {
        let mut found = vec![(vec![], vec![])];
        places_in(&self.nodes, &[], &[], &mut found);
        found
    }

    /// Every element: the way to its place, its index there, and the types from the top to it.
    pub fn elements(&self) -> Vec<(Vec<usize>, usize, Vec<u16>)> {
        let mut found = Vec::new();
        elements_in(&self.nodes, &[], &[], &mut found);
        found
    }
}

fn places_in(
    nodes: &[Node],
    way: &[usize],
    types: &[u16],
    found: &mut Vec<(Vec<usize>, Vec<u16>)>,
) {
    for (index, node) in nodes.iter().enumerate() {
        if let Body::Members(members) = &node.body {
            let (way, types) = (longer(way, index), longer(types, node.ie_type));
            found.push((way.clone(), types.clone()));
            places_in(members, &way, &types, found);
        }
    }
}

fn elements_in(
    nodes: &[Node],
    way: &[usize],
    types: &[u16],
    found: &mut Vec<(Vec<usize>, usize, Vec<u16>)>,
) {
    for (index, node) in nodes.iter().enumerate() {
        let inner = longer(types, node.ie_type);
        if !matches!(node.body, Body::Bare(_)) {
            found.push((way.to_vec(), index, inner.clone()));
        }
        if let Body::Members(members) = &node.body {
            elements_in(members, &longer(way, index), &inner, found);
        }
    }
}

fn longer<T: Clone>(list: &[T], last: T) -> Vec<T> {
    let mut list = list.to_vec();
    list.push(last);
    list
}

/// Lays a plan out as elements. With noise the ignored bits are set at random, members stand in
/// any order and values are followed by octets that are to be ignored.
pub fn lay_out(plan: &Plan, random: &mut Random, noise: bool) -> Draft {
    let mut layout = Layout { random, noise };
    let mut nodes: Vec<Node> = plan.items.iter().map(|item| layout.item(item)).collect();
    let mut header_seid = Some(plan.seid);
    if plan.message_type == SET_DELETION {
        header_seid = None;
        // The control plane says who it is, which is to be skipped.
        if layout.random.percent(70) {
            let node = layout.leaf(60, vec![0, 192, 0, 2, 50]);
            let at = layout.random.below(nodes.len() + 1);
            nodes.insert(at, node);
        }
    }
    if plan.message_type == ESTABLISHMENT {
        header_seid = Some(layout.random.pick(&[0, plan.seid, u64::MAX]));
        let mut front = vec![layout.f_seid(plan.seid)];
        let other_bits = layout.ignored(0xFE);
        if plan.restoration {
            front.push(layout.leaf(186, vec![1 | other_bits]));
        } else if layout.random.percent(25) {
            front.push(layout.leaf(186, vec![other_bits]));
        }
        if layout.random.percent(70) {
            front.extend(nodes);
            nodes = front;
        } else {
            nodes.extend(front);
            layout.random.shuffle(&mut nodes);
        }
    }
    Draft {
        first_octet: 0x20 | u8::from(header_seid.is_some()) | layout.ignored(0x1A),
        message_type: plan.message_type,
        seid: header_seid,
        sequence: layout.random.number() as u32 & 0xFF_FFFF,
        spare: layout.ignored(0xFF),
        length_shift: 0,
        nodes,
    }
}

struct Layout<'a> {
    random: &'a mut Random,
    noise: bool,
}

impl Layout<'_> {
    /// Ignored bits: 0 without noise, any with it.
    fn ignored(&mut self, mask: u8) -> u8 {
        match self.noise && self.random.percent(30) {
            true => self.random.octet() & mask,
            false => 0,
        }
    }

    fn leaf(&mut self, ie_type: u16, mut value: Vec<u8>) -> Node {
        // A null length has a meaning of its own, so nothing is added to it.
        if self.noise && !value.is_empty() && self.random.percent(8) {
            let count = self.random.between(1, 5);
            value.extend(self.random.octets(count));
        }
        Node::leaf(ie_type, value)
    }

    fn group(&mut self, ie_type: u16, mut members: Vec<Node>) -> Node {
        if self.noise && self.random.percent(30) {
            self.random.shuffle(&mut members);
        }
        Node::group(ie_type, members)
    }

    fn f_seid(&mut self, seid: u64) -> Node {
        // Bit 1 is V6 and bit 2 is V4 here.
        let flags = self.random.pick(&[1, 2, 3]);
        let mut value = vec![flags | self.ignored(0xFC)];
        value.extend(seid.to_be_bytes());
        if flags & 2 != 0 {
            value.extend(self.random.octets(4));
        }
        if flags & 1 != 0 {
            value.extend(self.random.octets(16));
        }
        self.leaf(57, value)
    }

    fn f_teid(&mut self, ask: &Ask) -> Node {
        let high = self.ignored(0xF0);
        let mut value = Vec::new();
        match ask {
            Ask::Choose { v4, v6, id } => {
                let with_id = if id.is_some() { 8 } else { 0 };
                value.push(high | 4 | with_id | u8::from(*v4) | u8::from(*v6) << 1);
                value.extend(id);
            }
            Ask::Given { teid, ipv4, ipv6 } => {
                value.push(high | u8::from(ipv4.is_some()) | u8::from(ipv6.is_some()) << 1);
                value.extend(teid.to_be_bytes());
                value.extend(ipv4.iter().flatten());
                value.extend(ipv6.iter().flatten());
            }
        }
        self.leaf(21, value)
    }

    fn ue_ip(&mut self, ask: &AddressAsk) -> Node {
        // S/D and bit 8 are ignored.
        let other_bits = self.ignored(0x84);
        let value = match ask {
            AddressAsk::Given(address) => {
                [vec![2 | other_bits], address.octets().to_vec()].concat()
            }
            AddressAsk::Choose => vec![16 | other_bits],
            AddressAsk::Raw(value) => return Node::leaf(93, value.clone()),
        };
        self.leaf(93, value)
    }

    fn item(&mut self, item: &Item) -> Node {
        match item {
            Item::CreatePdr(pdr) => {
                let source = pdr.source_interface | self.ignored(0xF0);
                let mut pdi = vec![self.leaf(20, vec![source])];
                if let Some(ask) = &pdr.ask {
                    pdi.push(self.f_teid(ask));
                }
                if let Some(endpoint) = pdr.endpoint {
                    pdi.push(self.leaf(131, vec![endpoint]));
                }
                if let Some(address) = &pdr.address {
                    pdi.push(self.ue_ip(address));
                }
                let mut members = vec![
                    self.leaf(56, pdr.id.to_be_bytes().to_vec()),
                    self.leaf(29, pdr.precedence.to_be_bytes().to_vec()),
                    self.group(2, pdi),
                ];
                if let Some(far_id) = pdr.far_id {
                    members.push(self.leaf(108, far_id.to_be_bytes().to_vec()));
                }
                self.group(1, members)
            }
            Item::CreateEndpoint { id, ask, address } => {
                let mut members = vec![self.leaf(131, vec![*id]), self.f_teid(ask)];
                if let Some(address) = address {
                    members.push(self.ue_ip(address));
                }
                self.group(127, members)
            }
            Item::UpdatePdr { id, precedence, far, with_pdi } => {
                let mut members = vec![self.leaf(56, id.to_be_bytes().to_vec())];
                if let Some(precedence) = precedence {
                    members.push(self.leaf(29, precedence.to_be_bytes().to_vec()));
                }
                if *with_pdi {
                    // Its members are not read, so a null address harms nothing.
                    let inner = vec![
                        self.leaf(20, vec![0]),
                        self.leaf(131, vec![1]),
                        self.leaf(93, vec![]),
                    ];
                    members.push(self.group(2, inner));
                }
                match far {
                    FarAsk::Nothing => {}
                    FarAsk::Set(far_id) => {
                        members.push(self.leaf(108, far_id.to_be_bytes().to_vec()))
                    }
                    FarAsk::TakeAway => members.push(self.leaf(108, vec![])),
                }
                self.group(9, members)
            }
            Item::RemovePdr(id) => {
                let members = vec![self.leaf(56, id.to_be_bytes().to_vec())];
                self.group(15, members)
            }
            Item::RemoveEndpoint(id) => {
                let members = vec![self.leaf(131, vec![*id])];
                self.group(130, members)
            }
            Item::UpdateEndpoint(id) => {
                let members = vec![self.leaf(131, vec![*id])];
                self.group(129, members)
            }
            Item::FqCsid(value) => self.leaf(65, value.clone()),
        }
    }
}
