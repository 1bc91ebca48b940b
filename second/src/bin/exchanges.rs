//! `exchanges`: reads parts from standard input, each after its length in two octets. The first octet
//! of a part says what it is:
//!
//! * 0, in a part of 49 octets, makes an empty unit: after it stand its IPv4 address, the first TEID,
//!   the number of TEIDs, the first address of the pool, the number of addresses, the session limit,
//!   and peer 1's address, guarantee and limit, then peer 2's, four octets each; it empties the stores
//!   of repeated requests too.
//! * 1 is a request that goes through its peer's store: the peer and the message stand after it.
//! * 2, in a part of five octets, changes an octet of a store: the peer, the octet's index in two
//!   octets, and what it becomes.
//! * Any other is a request that goes straight to the unit: the peer and the message stand after it.
//!
//! Prints a line for each: `octet` and its index where a store is changed, else `table` or `outcome`
//! and the number, `free` and the free TEIDs after it, `addresses` and the free addresses, and where
//! there is a reply `place` and the place of a fault, and `reply` and the reply's octets in hexadecimal
//! digits.

use std::io::{self, Read};
use std::process::ExitCode;

use second::ie::LEAST_REPLY_SPACE;
use second::repeats;
use second::settings::{named_peer, Peer, Settings};
use second::store;
use second::unit::{Outcome, Unit, NO_PEER};

/// The unit, once it was made, and the octets of the peers' stores.
struct Served {
    unit: Option<Unit>,
    stores: [Vec<u8>; 2],
}

/// An empty store for each peer.
fn empty_stores() -> [Vec<u8>; 2] {
    [store::encode(&[]), store::encode(&[])]
}

fn main() -> ExitCode {
    let mut input = Vec::new();
    if let Err(error) = io::stdin().lock().read_to_end(&mut input) {
        eprintln!("exchanges: {error}");
        return ExitCode::from(2);
    }
    let mut served = Served { unit: None, stores: empty_stores() };
    let mut rest = &input[..];
    while let Some((part, after)) = next_part(rest) {
        println!("{}", line(&mut served, part));
        rest = after;
    }
    ExitCode::SUCCESS
}

/// The next part, and what follows it.
fn next_part(octets: &[u8]) -> Option<(&[u8], &[u8])> {
    let length = usize::from(u16::from_be_bytes([*octets.first()?, *octets.get(1)?]));
    (octets.len() >= 2 + length).then(|| octets[2..].split_at(length))
}

fn line(served: &mut Served, part: &[u8]) -> String {
    let (word, number, place, reply) = match part {
        [0, settings @ ..] if settings.len() == 48 => {
            ("table", make(served, settings), 0, Vec::new())
        }
        [2, peer, high, low, octet] => return change(served, *peer, [*high, *low], *octet),
        [what, peer, message @ ..] => request(served, (*peer).into(), message, *what == 1),
        _ => request(served, 0, &[], false),
    };
    // Only a unit that was never made stands for a broken table.
    let told = |count: fn(&Unit) -> u32| {
        served.unit.as_ref().map_or("broken".to_string(), |unit| count(unit).to_string())
    };
    let (free, addresses) = (told(Unit::free_count), told(Unit::free_addresses));
    let start = format!("{word} {number} free {free} addresses {addresses}");
    if reply.is_empty() {
        return start;
    }
    let digits: String = reply.iter().map(|octet| format!("{octet:02x}")).collect();
    format!("{start} place {place} reply {digits}")
}

/// Changes an octet of a peer's store, if there is one and it has so many.
fn change(served: &mut Served, peer: u8, index: [u8; 2], octet: u8) -> String {
    let index = usize::from(u16::from_be_bytes(index));
    let store = named_peer(peer.into()).map(|peer| &mut served.stores[usize::from(peer) - 1]);
    if let Some(changed) = store.and_then(|store| store.get_mut(index)) {
        *changed = octet;
    }
    format!("octet {index}")
}

/// Refused settings leave unit and stores as they were.
fn make(served: &mut Served, settings: &[u8]) -> u8 {
    let number = |at: usize| settings[at..at + 4].try_into().map(u32::from_be_bytes).unwrap_or(0);
    let teids = (number(4), number(8));
    let addresses = (number(12).into(), number(16));
    let limit = number(20);
    let peer = |at: usize| Peer {
        address: number(at).to_be_bytes(),
        guarantee: number(at + 4),
        limit: number(at + 8),
    };
    let peers = [peer(24), peer(36)];
    let settings = Settings::make(number(0).to_be_bytes(), &[], teids, addresses, limit, peers);
    match settings.and_then(Unit::new) {
        Some(made) => {
            *served = Served { unit: Some(made), stores: empty_stores() };
            0
        }
        None => 1,
    }
}

fn request(
    served: &mut Served,
    peer: u32,
    message: &[u8],
    once: bool,
) -> (&'static str, u8, usize, Vec<u8>) {
    let mut space = [0; LEAST_REPLY_SPACE];
    let outcome = match once {
        true => asked_once(served, peer, message, &mut space),
        false => served.unit.as_mut().map(|unit| unit.request(peer, message, &mut space)),
    };
    // Where there is no such peer neither table nor store is looked at.
    let number = if named_peer(peer).is_some() { 1 } else { NO_PEER };
    let broken = Outcome { number, reply_length: 0, place: 0 };
    let Outcome { number, reply_length, place } = outcome.unwrap_or(broken);
    ("outcome", number, place, space[..reply_length].to_vec())
}

/// A request through its peer's store; nothing for a broken table or store, or where there is no such
/// peer.
fn asked_once(served: &mut Served, peer: u32, message: &[u8], space: &mut [u8]) -> Option<Outcome> {
    let store = &mut served.stores[usize::from(named_peer(peer)?) - 1];
    let unit = served.unit.as_mut()?;
    let mut entries = store::sound(store).ok()?;
    let (_, outcome) = repeats::request_once(unit, peer, &mut entries, message, space);
    *store = store::encode(&entries);
    Some(outcome)
}
