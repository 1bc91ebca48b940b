//! What is said of sessions, messages and packets.

use second::request::Kind;
use second::session::Key;

use crate::exchange::Request;

pub fn session(key: Key) -> String {
    format!("session {} of peer {}", key.seid, key.peer)
}

pub fn kind(kind: Kind) -> &'static str {
    match kind {
        Kind::Establishment => "Session Establishment Request",
        Kind::Modification => "Session Modification Request",
        Kind::Deletion => "Session Deletion Request",
        Kind::SetDeletion => "Session Set Deletion Request",
    }
}

/// A request as an operator finds it again: by the number that Wireshark and tcpdump count, by time, by what
/// the unit's own line says.
pub fn request(request: &Request) -> String {
    let time = request.time.map_or(String::new(), |time| format!(", {time}"));
    let seid = request.seid().map_or(String::new(), |seid| format!(", SEID {seid}"));
    format!(
        "packet {}{time}, peer {}, {}{seid}, sequence {}",
        request.number,
        request.peer,
        kind(request.header.kind),
        request.header.sequence
    )
}

/// An error of the system without its number.
pub fn system(error: &std::io::Error) -> String {
    let text = error.to_string();
    text.split(" (os error").next().unwrap_or("").to_string()
}

/// A number with its noun.
pub fn count(number: usize, noun: &str) -> String {
    match number {
        1 => format!("1 {noun}"),
        _ => format!("{number} {noun}s"),
    }
}
