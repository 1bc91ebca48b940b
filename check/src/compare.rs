//! Two live sets, record by record.

use std::collections::BTreeSet;
use std::net::Ipv4Addr;

use second::list;
use second::session::{Key, Local, Session, Sessions};

/// A record of a session, by its kind and ID.
#[derive(Clone, Copy, PartialEq, Eq, PartialOrd, Ord, Debug)]
pub enum Record {
    Pdr(u16),
    Endpoint(u8),
    FqCsid(u8),
}

impl Record {
    pub fn name(&self) -> String {
        match self {
            Record::Pdr(id) => format!("PDR {id}"),
            Record::Endpoint(id) => format!("endpoint {id}"),
            Record::FqCsid(node_type) => format!("FQ-CSID of node type {node_type}"),
        }
    }
}

/// What is compared: a record, or whether a session lives at all.
pub type Item = (Key, Option<Record>);

pub fn records(session: &Session) -> impl Iterator<Item = Record> + '_ {
    let pdrs = session.pdrs.keys().map(|id| Record::Pdr(*id));
    let endpoints = session.endpoints.keys().map(|id| Record::Endpoint(*id));
    let fq_csids = session.fq_csids.keys().map(|node_type| Record::FqCsid(*node_type));
    pdrs.chain(endpoints).chain(fq_csids)
}

/// What a record has, in the words of the list, which leave out none of its fields.
pub fn record_text(session: &Session, record: Record) -> Option<String> {
    match record {
        Record::Pdr(id) => session.pdrs.get(&id).map(list::pdr_text),
        Record::Endpoint(id) => session.endpoints.get(&id).map(list::endpoint_text),
        Record::FqCsid(node_type) => session.fq_csids.get(&node_type).map(list::fq_csid_text),
    }
}

/// The value of an item: nothing where it is not there.
pub fn value(sessions: &Sessions, item: Item) -> Option<String> {
    let session = sessions.get(&item.0)?;
    match item.1 {
        None => Some(String::new()),
        Some(record) => record_text(session, record),
    }
}

/// The items in which two live sets differ, in ascending order.
pub fn differing(first: &Sessions, second: &Sessions) -> BTreeSet<Item> {
    let mut items = BTreeSet::new();
    let keys: BTreeSet<Key> = first.keys().chain(second.keys()).copied().collect();
    for key in keys {
        let (Some(one), Some(other)) = (first.get(&key), second.get(&key)) else {
            items.insert((key, None));
            continue;
        };
        for record in records(one).chain(records(other)) {
            if record_text(one, record) != record_text(other, record) {
                items.insert((key, Some(record)));
            }
        }
    }
    items
}

/// The TEID that a record holds.
fn teid(session: &Session, record: Record) -> Option<u32> {
    match record {
        Record::Pdr(id) => match session.pdrs.get(&id)?.local {
            Local::Tunnel(tunnel) => Some(tunnel.teid),
            _ => None,
        },
        Record::Endpoint(id) => Some(session.endpoints.get(&id)?.tunnel.teid),
        Record::FqCsid(_) => None,
    }
}

/// The patient's address that a record holds.
fn address(session: &Session, record: Record) -> Option<Ipv4Addr> {
    match record {
        Record::Pdr(id) => session.pdrs.get(&id)?.address,
        Record::Endpoint(id) => session.endpoints.get(&id)?.address,
        Record::FqCsid(_) => None,
    }
}

/// The TEIDs and addresses of an item.
fn held(sessions: &Sessions, item: Item) -> (BTreeSet<u32>, BTreeSet<Ipv4Addr>) {
    let Some(session) = sessions.get(&item.0) else { return Default::default() };
    let of_item: Vec<Record> = match item.1 {
        Some(record) => vec![record],
        None => records(session).collect(),
    };
    let teids = of_item.iter().filter_map(|record| teid(session, *record)).collect();
    (teids, of_item.iter().filter_map(|record| address(session, *record)).collect())
}

/// The old accident: what an item of the table holds is another session's by the wire.
pub fn given_to_another(table: &Sessions, live: &Sessions, item: Item) -> Vec<String> {
    let (teids, addresses) = held(table, item);
    let mut lines = Vec::new();
    for (key, session) in live.iter().filter(|(key, _)| **key != item.0) {
        for record in records(session) {
            let holder = || format!("{}, {}", crate::words::session(*key), record.name());
            if let Some(teid) = teid(session, record).filter(|teid| teids.contains(teid)) {
                lines.push(format!("TEID {teid} is by the wire that of {}", holder()));
            }
            if let Some(own) = address(session, record).filter(|own| addresses.contains(own)) {
                lines.push(format!("address {own} is by the wire that of {}", holder()));
            }
        }
    }
    lines
}
