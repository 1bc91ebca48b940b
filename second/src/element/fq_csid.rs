//! FQ-CSID, clause 8.2.43 and document 01 "FQ-CSID".

use super::{put, Bad, Refusal};

/// "Node type 0 to 5 is kept, 6 to 15 refused."
pub const LAST_NODE_TYPE: u8 = 5;

/// "the top 20 bits are MCC x 1000 + MNC, at most 999,999 (H)"
pub const LARGEST_COUNTRY_AND_NETWORK: u32 = 999_999;

/// The low 12 bits of a Node-ID of type 2.
const LARGEST_OPERATOR_NUMBER: u16 = 0xFFF;

#[derive(Clone, Copy, PartialEq, Eq, Debug)]
pub enum NodeId {
    /// Type 0.
    Ipv4([u8; 4]),
    /// Type 1.
    Ipv6([u8; 16]),
    /// Type 2: MCC x 1000 + MNC in 20 bits and the operator's number in 12.
    Operator { country_and_network: u32, number: u16 },
}

impl NodeId {
    pub fn is_allowed(&self) -> bool {
        match self {
            NodeId::Ipv4(_) | NodeId::Ipv6(_) => true,
            NodeId::Operator { country_and_network, number } => {
                *country_and_network <= LARGEST_COUNTRY_AND_NETWORK
                    && *number <= LARGEST_OPERATOR_NUMBER
            }
        }
    }

    fn node_id_type(&self) -> u8 {
        match self {
            NodeId::Ipv4(_) => 0,
            NodeId::Ipv6(_) => 1,
            NodeId::Operator { .. } => 2,
        }
    }

    fn octets(&self) -> Vec<u8> {
        match self {
            NodeId::Ipv4(address) => address.to_vec(),
            NodeId::Ipv6(address) => address.to_vec(),
            NodeId::Operator { country_and_network, number } => {
                (country_and_network << 12 | u32::from(*number)).to_be_bytes().to_vec()
            }
        }
    }
}

/// One FQ-CSID. No CSIDs at all (m = 0) make it the removal of its node type.
#[derive(Clone, PartialEq, Eq, Debug)]
pub struct FqCsid {
    pub node: NodeId,
    pub csids: Vec<u16>,
    pub node_type: u8,
}

impl FqCsid {
    /// "m = 0 with type and address zero removes it"
    pub fn removal(node_type: u8) -> FqCsid {
        FqCsid { node: NodeId::Ipv4([0; 4]), csids: Vec::new(), node_type }
    }

    pub fn is_removal(&self) -> bool {
        self.csids.is_empty()
    }
}

/// Reads a value. "Order: empty 68 (but for that use); type 69; short 68; the rest [..] 69." Which
/// m a message allows, and the use of a null length, are matters of the request.
pub fn read(value: &[u8]) -> Result<FqCsid, Refusal> {
    let (&first, rest) = value.split_first().ok_or(Refusal::Empty)?;
    let m = usize::from(first & 0x0F);
    let address_octets = match first >> 4 {
        0 | 2 => 4,
        1 => 16,
        _ => return Err(Refusal::Bad(Bad::NodeIdType)),
    };
    // "address of 4, 16 or 4 octets [..]; m CSIDs of 2; an octet whose low half is the node type"
    if rest.len() < address_octets + 2 * m + 1 {
        return Err(Refusal::Short);
    }
    let (address, rest) = rest.split_at(address_octets);
    let (csid_octets, rest) = rest.split_at(2 * m);
    let node = match first >> 4 {
        0 => NodeId::Ipv4(address.try_into().unwrap()),
        1 => NodeId::Ipv6(address.try_into().unwrap()),
        _ => {
            let word = u32::from_be_bytes(address.try_into().unwrap());
            NodeId::Operator { country_and_network: word >> 12, number: (word & 0xFFF) as u16 }
        }
    };
    let csids: Vec<u16> =
        csid_octets.chunks_exact(2).map(|pair| u16::from_be_bytes([pair[0], pair[1]])).collect();
    let node_type = rest[0] & 0x0F;
    if m == 0 && node != NodeId::Ipv4([0; 4]) {
        return Err(Refusal::Bad(Bad::RemovalNotZero));
    }
    if !node.is_allowed() {
        return Err(Refusal::Bad(Bad::CountryAndNetwork));
    }
    match node_type {
        0..=LAST_NODE_TYPE => Ok(FqCsid { node, csids, node_type }),
        _ => Err(Refusal::Bad(Bad::NodeType)),
    }
}

/// Writes a value; the length, or a refusal for a value outside the rules ("m 1 to 15, or the
/// removal") or for too little space.
pub fn write(fq_csid: &FqCsid, space: &mut [u8]) -> Option<usize> {
    let m = fq_csid.csids.len();
    let allowed = m <= 15
        && (m >= 1 || fq_csid.node == NodeId::Ipv4([0; 4]))
        && fq_csid.node.is_allowed()
        && fq_csid.node_type <= LAST_NODE_TYPE;
    if !allowed {
        return None;
    }
    let mut value = vec![fq_csid.node.node_id_type() << 4 | m as u8];
    value.extend(fq_csid.node.octets());
    value.extend(fq_csid.csids.iter().flat_map(|csid| csid.to_be_bytes()));
    value.push(fq_csid.node_type);
    put(&value, space)
}
