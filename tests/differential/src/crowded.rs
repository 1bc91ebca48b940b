//! Messages with as many records of one kind as fit: far more than a session has room for. Also small
//! ones, for tables that are full.

const LARGEST_MESSAGE: usize = 2048;

fn element(ie_type: u16, value: &[u8]) -> Vec<u8> {
    let mut octets = ie_type.to_be_bytes().to_vec();
    octets.extend((value.len() as u16).to_be_bytes());
    octets.extend(value);
    octets
}

fn f_seid(seid: u64) -> Vec<u8> {
    let mut value = vec![2];
    value.extend(seid.to_be_bytes());
    value.extend([127, 0, 0, 1]);
    element(57, &value)
}

fn create_pdr(id: u16, further: &[u8]) -> Vec<u8> {
    let mut members = element(56, &id.to_be_bytes());
    members.extend(element(29, &[0, 0, 0, 1]));
    members.extend(element(2, &[&element(20, &[0]), further].concat()));
    element(1, &members)
}

fn create_endpoint(id: u16) -> Vec<u8> {
    element(127, &[element(131, &[id as u8]), element(21, &[5])].concat())
}

/// An FQ-CSID of the node 10.0.0.1.
fn fq_csid(csids: &[u16], node_type: u8) -> Vec<u8> {
    fq_csid_of(0, &[10, 0, 0, 1], csids, node_type)
}

pub fn fq_csid_of(node_id_type: u8, address: &[u8], csids: &[u16], node_type: u8) -> Vec<u8> {
    let mut value = vec![node_id_type << 4 | csids.len() as u8];
    value.extend(address);
    value.extend(csids.iter().flat_map(|csid| csid.to_be_bytes()));
    value.push(node_type);
    element(65, &value)
}

const SET_DELETION: u8 = 14;

/// The octets of a message's header.
fn header_octets(message_type: u8) -> usize {
    match message_type {
        SET_DELETION => 8,
        _ => 16,
    }
}

fn message(message_type: u8, seid: u64, body: &[u8]) -> Vec<u8> {
    let octets = header_octets(message_type);
    let mut message = vec![if octets == 8 { 0x20 } else { 0x21 }, message_type];
    message.extend(((octets - 4 + body.len()) as u16).to_be_bytes());
    if octets == 16 {
        message.extend(seid.to_be_bytes());
    }
    message.extend([0, 0, 1, 0]);
    message.extend(body);
    message
}

/// A set deletion with these elements.
pub fn set_deletion(elements: &[Vec<u8>]) -> Vec<u8> {
    message(SET_DELETION, 0, &elements.concat())
}

/// A session with a PDR and an endpoint, ID 0 each, and an FQ-CSID.
pub fn first(seid: u64) -> Vec<u8> {
    let records = [create_pdr(0, &element(21, &[5])), create_endpoint(0), fq_csid(&[299], 1)];
    message(50, 0, &[f_seid(seid), records.concat()].concat())
}

/// A restoration of a session without records.
pub fn restoration(seid: u64) -> Vec<u8> {
    message(50, 0, &[f_seid(seid), element(186, &[1])].concat())
}

/// A modification that creates the PDR 1.
pub fn modification(seid: u64) -> Vec<u8> {
    message(52, seid, &create_pdr(1, &[]))
}

pub fn deletion(seid: u64) -> Vec<u8> {
    message(54, seid, &[])
}

/// A modification that removes a PDR and creates another with a TEID of its own.
pub fn exchanged_pdr(seid: u64, old: u16, new: u16) -> Vec<u8> {
    let removed = element(15, &element(56, &old.to_be_bytes()));
    message(52, seid, &[removed, create_pdr(new, &element(21, &[5]))].concat())
}

/// The messages, for a session that lives and one that does not.
pub fn messages(live: u64, new: u64) -> Vec<Vec<u8>> {
    let kinds: [fn(u16) -> Vec<u8>; 16] = [
        |id| create_pdr(id, &[]),
        |id| create_pdr(id, &element(21, &[5])),
        |id| create_pdr(id, &element(21, &[13, id as u8])),
        |id| create_pdr(id, &element(131, &[0])),
        |id| create_pdr(id, &element(93, &[16])),
        |id| create_pdr(id, &element(93, &[2, 203, 0, 113, id as u8])),
        create_endpoint,
        |id| element(15, &element(56, &id.to_be_bytes())),
        |id| element(130, &element(131, &[id as u8])),
        |id| element(9, &element(56, &id.to_be_bytes())),
        |id| fq_csid(&[1], id as u8 % 6),
        |id| fq_csid(&[id + 150], 1),
        |id| fq_csid(&std::array::from_fn::<u16, 15, _>(|at| 15 * id + at as u16), 1),
        |_| element(129, &[]),
        |_| element(40000, &[]),
        |_| element(186, &[0]),
    ];
    let mut all = Vec::new();
    for kind in kinds {
        // Different IDs from 0 and from 1 on, and one ID all over.
        for (start, step) in [(0, 1), (1, 1), (0, 0), (7, 0)] {
            let records: Vec<Vec<u8>> =
                (0..600).map(|number| kind(start + step * number)).collect();
            for (message_type, seid) in [(50, 0), (52, live), (54, live), (SET_DELETION, 0)] {
                let mut body = if message_type == 50 { f_seid(new) } else { vec![] };
                let mut longer = body.clone();
                for record in &records {
                    body = longer.clone();
                    longer.extend(record);
                    if header_octets(message_type) + longer.len() > LARGEST_MESSAGE {
                        break;
                    }
                }
                all.push(message(message_type, seid, &body));
            }
        }
    }
    all
}
