//! A table as the unit keeps it in a file: docs/layout.md, "A stored table". The only place here that knows
//! this form, and the form before it.

use second::ie::LEAST_REPLY_SPACE;
use second::layout;
use second::session::Sessions;
use second::settings::{allowed_limit, Peer, Settings, PEERS};
use second::store::{self, Entry};

use crate::sha256;

/// What a stored table says.
#[derive(Clone, Debug)]
pub struct Stored {
    pub settings: Settings,
    pub sessions: Sessions,
    /// The rules that it breaks, in words. Its records are compared all the same.
    pub faults: Vec<String>,
    /// The stores of repeated requests of peer 1 and peer 2, where the file has them.
    pub stores: Option<[Vec<Entry>; 2]>,
    /// The replies that are owed.
    pub owed: Vec<Owed>,
}

/// A reply that no store may hold any more, for whoever repeats its request.
#[derive(Clone, PartialEq, Eq, Debug)]
pub struct Owed {
    pub peer: u8,
    /// The SHA-256 of its request.
    pub request: [u8; sha256::LENGTH],
    pub reply: Vec<u8>,
}

/// Why a file is not read.
#[derive(Clone, PartialEq, Eq, Debug)]
pub enum NotStored {
    /// It has no table's form, or was cut or damaged.
    NoTable(String),
    /// It has a table's form, and an octet in it that means nothing.
    Broken,
}

const MAGIC: &[u8; 8] = b"PFCPUNIT";
const VERSION: u32 = 1;
/// The magic word, the version and the lengths of four parts.
const HEAD: usize = 28;
const SETTINGS: usize = 72;
const STORES: usize = 2 * store::LENGTH;
/// Before an owed reply: peer, age, SHA-256 of its request, length.
const OWED: usize = 1 + 1 + sha256::LENGTH + 2;
const MOST_OWED: usize = 64 * (OWED + LEAST_REPLY_SPACE);

/// The parts of a file.
struct Parts<'a> {
    /// The settings that the unit was started with; nothing in the form before.
    settings: Option<&'a [u8]>,
    table: &'a [u8],
    stores: &'a [u8],
    owed: Vec<Owed>,
}

/// Reads a stored table of either form.
pub fn read(octets: &[u8]) -> Result<Stored, NotStored> {
    let first = octets.len().min(MAGIC.len());
    let parts = match first > 0 && octets[..first] == MAGIC[..first] {
        true => sealed(octets).map_err(NotStored::NoTable)?,
        false => plain(octets).ok_or_else(|| {
            NotStored::NoTable(format!("{} octets long, which no table is", octets.len()))
        })?,
    };
    let (settings, sessions) = layout::decode(parts.table).ok_or(NotStored::Broken)?;
    let mut faults = Vec::new();
    if let Err(fault) = layout::sound(parts.table) {
        faults.push(format!("the table is broken: {fault}"));
    }
    if parts.settings.is_some_and(|front| !is_front_of(front, &settings)) {
        faults.push("the settings before the table are not the table's".to_string());
    }
    let stores = stores(parts.stores, &mut faults);
    Ok(Stored { settings, sessions, faults, stores, owed: parts.owed })
}

/// The form before: the table, then nothing or both stores.
fn plain(octets: &[u8]) -> Option<Parts<'_>> {
    let limit = octets.get(layout::LIMIT..)?.first_chunk::<2>()?;
    let length = layout::length(allowed_limit(u16::from_be_bytes(*limit).into())?);
    let table = octets.get(..length)?;
    let stores = &octets[length..];
    let parts = Parts { settings: None, table, stores, owed: Vec::new() };
    (stores.is_empty() || stores.len() == STORES).then_some(parts)
}

fn number(octets: &[u8], at: usize) -> u32 {
    octets[at..at + 4].iter().fold(0, |number, octet| number << 8 | u32::from(*octet))
}

/// The lengths that a head says: of the settings, the table, the stores and the replies that are owed.
fn lengths(octets: &[u8]) -> [usize; 4] {
    [12, 16, 20, 24].map(|at| number(octets, at) as usize)
}

/// The form with a SHA-256; else which fault it has.
fn sealed(octets: &[u8]) -> Result<Parts<'_>, String> {
    if octets.len() < HEAD {
        return Err(format!("cut: {} octets, fewer than a head has", octets.len()));
    }
    let [settings, table, stores, owed] = lengths(octets);
    let version = number(octets, 8);
    let said = HEAD + settings + table + stores + owed + sha256::LENGTH;
    let (rest, sum) = octets.split_at(octets.len().saturating_sub(sha256::LENGTH).max(HEAD));
    if sha256::digest(rest) != sum {
        return Err(damage(version, octets.len(), said));
    }
    if version != VERSION {
        return Err(format!("of version {version} of the stored form, not {VERSION}"));
    }
    let has_lengths = settings == SETTINGS
        && is_table(table)
        && (stores == 0 || stores == STORES)
        && owed <= MOST_OWED
        && said == octets.len();
    let owed = if has_lengths { owed_in(&rest[rest.len() - owed..]) } else { None };
    let owed = owed.ok_or("its parts do not fit together")?;
    let (front, rest) = rest[HEAD..].split_at(SETTINGS);
    let (table, rest) = rest.split_at(table);
    Ok(Parts { settings: Some(front), table, stores: &rest[..stores], owed })
}

/// What is wrong with a file whose SHA-256 is not that of its octets, as far as its head can be believed.
fn damage(version: u32, has: usize, said: usize) -> String {
    let most = HEAD + SETTINGS + layout::length_for(256) + STORES + MOST_OWED + sha256::LENGTH;
    match version == VERSION {
        true if has < said && said <= most => format!("cut: {has} octets of {said}"),
        true if has > said => format!("longer than it says: {has} octets, not {said}"),
        _ => "damaged: its SHA-256 is not that of its octets".to_string(),
    }
}

fn is_table(length: usize) -> bool {
    (0..=256).filter_map(allowed_limit).any(|limit| layout::length(limit) == length)
}

/// Some octets as replies that are owed and nothing else.
fn owed_in(mut octets: &[u8]) -> Option<Vec<Owed>> {
    let mut all = Vec::new();
    while !octets.is_empty() {
        let (head, rest) = octets.split_at_checked(OWED)?;
        let length = usize::from(head[OWED - 2]) << 8 | usize::from(head[OWED - 1]);
        let (reply, rest) = rest.split_at_checked(length)?;
        if !PEERS.contains(&head[0]) || length == 0 || length > LEAST_REPLY_SPACE {
            return None;
        }
        let request = head[2..OWED - 2].try_into().ok()?;
        all.push(Owed { peer: head[0], request, reply: reply.to_vec() });
        octets = rest;
    }
    Some(all)
}

/// Whether the settings before a table are those in it. They explain and decide nothing, but nothing may hide in them.
fn is_front_of(front: &[u8], settings: &Settings) -> bool {
    let mut own = settings.ipv4.to_vec();
    own.extend(settings.ipv6.map_or(0_u32, |_| 16).to_be_bytes());
    own.extend(settings.ipv6.unwrap_or([0; 16]));
    let limit = u32::from(settings.session_limit);
    let (addresses, first_address) = (settings.addresses, settings.first_address.to_bits());
    for number in [settings.first, settings.size, first_address, addresses, limit] {
        own.extend(number.to_be_bytes());
    }
    let (served, peers) = (own.len(), own.len() + 4);
    for Peer { address, guarantee, limit } in settings.peers {
        own.extend([address, guarantee.to_be_bytes(), limit.to_be_bytes()].concat());
    }
    let is_count = matches!(number(front, served), 1 | 2);
    front[..served] == own[..served] && is_count && front[peers..] == own[served..]
}

fn stores(octets: &[u8], faults: &mut Vec<String>) -> Option<[Vec<Entry>; 2]> {
    let mut entries = |peer: usize| {
        let octets = &octets[(peer - 1) * store::LENGTH..peer * store::LENGTH];
        store::sound(octets).unwrap_or_else(|fault| {
            faults.push(format!("the store of repeats of peer {peer} is broken: {fault}"));
            Vec::new()
        })
    };
    (!octets.is_empty()).then(|| [entries(1), entries(2)])
}
