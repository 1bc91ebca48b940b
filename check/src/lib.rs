//! The wire against the table: what lives by the requests and replies of a capture alone, computed by the second
//! implementation, and compared with a stored table or a list, record by record.
//!
//! * `capture`: packets of a pcap or pcapng file.
//! * `datagram`: the UDP datagram in a packet.
//! * `exchange`: the requests of both peers, each with its reply.
//! * `repeats`: the unit's store of repeated requests, as the wire tells it.
//! * `history`: the live set through them, and what the capture leaves open of it.
//! * `stored`, `sha256`: a stored table of either form.
//! * `json`, `listed`: a list of a unit's sessions.
//! * `compare`: two live sets, record by record.
//! * `verdict`: the same, different, or not to be known.
//! * `options`, `report`, `words`: the command line, and what is printed.
#![forbid(unsafe_code)]

pub mod capture;
pub mod compare;
pub mod datagram;
pub mod exchange;
pub mod history;
pub mod json;
pub mod listed;
pub mod options;
pub mod repeats;
pub mod report;
pub mod sha256;
pub mod stored;
pub mod verdict;
pub mod words;

use std::fs::File;
use std::io::BufReader;
use std::net::IpAddr;

use capture::{Capture, NotRead};
use exchange::{Listener, Scope, Traffic, Unit};
use history::Start;
use options::{Options, Other};
use stored::{NotStored, Stored};
use verdict::{Compared, Result as Outcome};

/// What was printed, and the exit status.
pub struct Done {
    pub text: String,
    pub status: u8,
}

/// Does what the options say; else a line for standard error.
pub fn run(options: &Options) -> Result<Done, String> {
    let (compared, unit) = match other(options)? {
        Ok(found) => found,
        Err(broken) => return Ok(broken),
    };
    let start = start(options)?;
    let traffic = listen(options, unit)?;
    if traffic.destinations.len() > 1 && options.peers[0].is_empty() && traffic.is_guessed {
        let all: Vec<String> = traffic.destinations.iter().map(IpAddr::to_string).collect();
        return Err(format!(
            "{}: requests go to {}: say with --peer1 which of them the unit has",
            options.capture,
            all.join(", ")
        ));
    }
    let verdict = verdict::judge(&traffic, &start, options.no_repeats, &compared);
    let status = match verdict.result {
        Outcome::Same => 0,
        Outcome::Different => 1,
        Outcome::NotKnown => 3,
    };
    Ok(Done { text: report::report(options, &traffic, &compared, &verdict), status })
}

fn octets(path: &str) -> Result<Vec<u8>, String> {
    std::fs::read(path).map_err(|error| format!("{path}: {}", words::system(&error)))
}

/// What to compare with, and where the unit listens; or the end, where the table is broken.
fn other(options: &Options) -> Result<Result<(Compared, Unit), Done>, String> {
    let given = (!options.peers[0].is_empty()).then(|| options.peers.clone());
    let (what, listed) = match &options.other {
        Other::Table(path) => match stored::read(&octets(path)?) {
            Ok(stored) => {
                let addresses = given.or_else(|| signalling(&stored));
                let Stored { sessions, faults, stores, owed, .. } = stored;
                let compared = Compared { what: "table", sessions, faults, stores, owed };
                return Ok(Ok((compared, Unit { port: options.port, addresses })));
            }
            Err(NotStored::NoTable(why)) => return Err(format!("{path}: {why}")),
            Err(NotStored::Broken) => {
                let text = "wrong: the table is broken: an octet without a meaning\n\
                            DIFFERENT: the table is not what lives by the wire\n";
                return Ok(Err(Done { text: text.to_string(), status: 1 }));
            }
        },
        Other::List(path) => (path, listed::read(&octets(path)?)),
        Other::Unit(socket) => {
            let list = listed::ask(socket).map_err(|fault| format!("{socket}: {fault}"))?;
            (socket, listed::read(&list))
        }
    };
    let listed = listed.map_err(|fault| format!("{what}: {fault}"))?;
    let of = |number: u8| -> Vec<IpAddr> {
        let own = listed.peers.iter().filter(|(peer, _)| *peer == number);
        own.map(|(_, address)| IpAddr::from(*address)).collect()
    };
    let addresses = match (of(1), of(2)) {
        (first, second) if first.is_empty() && !second.is_empty() => {
            return Err(format!("{what}: a list of peer 2 alone; the whole one is needed"));
        }
        (first, second) if !second.is_empty() => Some([first, second]),
        _ => None,
    };
    let (sessions, faults) = (listed.sessions, listed.faults);
    let compared = Compared { what: "list", sessions, faults, stores: None, owed: Vec::new() };
    Ok(Ok((compared, Unit { port: options.port, addresses: given.or(addresses) })))
}

/// The signalling addresses of a table's settings. A unit with one control plane gives the other nothing, and
/// listens on another address than it answers as.
fn signalling(stored: &Stored) -> Option<[Vec<IpAddr>; 2]> {
    let [first, second] = &stored.settings.peers;
    let is_one = second.limit == 0 && [[0; 4], [255; 4]].contains(&second.address);
    let address = |octets: [u8; 4]| vec![IpAddr::from(octets)];
    (!is_one).then(|| [address(first.address), address(second.address)])
}

fn start(options: &Options) -> Result<Start, String> {
    let Some(path) = &options.from else {
        return Ok(if options.empty { Start::Empty } else { Start::Unknown });
    };
    match stored::read(&octets(path)?) {
        Ok(stored) if stored.faults.is_empty() => Ok(Start::Table(stored.sessions, stored.stores)),
        Ok(stored) => Err(format!("{path}: {}", stored.faults[0])),
        Err(NotStored::NoTable(why)) => Err(format!("{path}: {why}")),
        Err(NotStored::Broken) => Err(format!("{path}: the table is broken")),
    }
}

/// Reads the capture.
fn listen(options: &Options, unit: Unit) -> Result<Traffic, String> {
    let path = &options.capture;
    let told = |error: &std::io::Error| format!("{path}: {}", words::system(error));
    let file = File::open(path).map_err(|error| told(&error))?;
    let mut capture = Capture::open(BufReader::new(file)).map_err(|why| match why {
        NotRead::File(error) => told(&error),
        NotRead::NoCapture(why) => format!("{path}: {why}"),
    })?;
    let is_guessed = unit.addresses.is_none();
    let mut listener = Listener::new(unit, options.no_repeats);
    while capture.packets() < options.until {
        match capture.next_packet() {
            Ok(Some(packet)) => listener.hear(&packet),
            Ok(None) => break,
            Err(trouble) => {
                listener.doubt(u64::MAX, Scope::All, trouble.to_string());
                break;
            }
        }
    }
    if capture.dropped() > 0 {
        let text = format!("the capture says that {} packets were lost", capture.dropped());
        listener.doubt(u64::MAX, Scope::All, text);
    }
    let mut traffic = listener.end();
    traffic.is_guessed = is_guessed;
    Ok(traffic)
}
