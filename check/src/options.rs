//! The command line.

use std::net::IpAddr;

/// What the live set is compared with.
#[derive(Clone, PartialEq, Eq, Debug)]
pub enum Other {
    Table(String),
    List(String),
    Unit(String),
}

#[derive(Clone, PartialEq, Eq, Debug)]
pub struct Options {
    pub capture: String,
    pub other: Other,
    pub from: Option<String>,
    pub empty: bool,
    pub peers: [Vec<IpAddr>; 2],
    pub port: u16,
    pub until: u64,
    pub no_repeats: bool,
}

/// What is asked for.
#[derive(Clone, PartialEq, Eq, Debug)]
pub enum Asked {
    Check(Options),
    Help,
    Version,
}

pub const USAGE: &str = "\
usage: pfcp-check [OPTIONS] CAPTURE TABLE
       pfcp-check [OPTIONS] CAPTURE --list FILE
       pfcp-check [OPTIONS] CAPTURE --unit SOCKET
Says what lives by the requests and replies in a capture (pcap or pcapng) alone, and compares it with a stored
table, a list of pfcp-list --json, or a running unit's list, record by record.
  --list FILE        compare with a list, as pfcp-list --json printed it
  --unit SOCKET      compare with a running unit's list, asked for on its control socket
  --from TABLE0      the capture goes on from this table of the unit, copied when the capture began
  --empty            the unit had no session when the capture began
  --peer1 ADDRESS    the unit's address that peer 1 asks on; may be given again. Else the table or list says it
  --peer2 ADDRESS    the same of peer 2
  --port NUMBER      the unit's UDP port (8805)
  --until PACKET     look at the capture up to this packet only
  --no-repeats       the unit ran with --no-repeats
  --version          print the version
  --help             print this
Exit status: 0 the same; 1 different; 2 bad use, or a file that is not read; 3 could not be known.
";

pub fn read(arguments: &[String]) -> Result<Asked, String> {
    let mut places: Vec<String> = Vec::new();
    let (mut list, mut unit, mut from, mut empty) = (None, None, None, false);
    let (mut peers, mut port, mut until) = ([Vec::new(), Vec::new()], 8805, u64::MAX);
    let mut no_repeats = false;
    let mut rest = arguments.iter();
    while let Some(word) = rest.next() {
        let mut value = || rest.next().ok_or(format!("{word} needs a value")).cloned();
        match word.as_str() {
            "--help" => return Ok(Asked::Help),
            "--version" => return Ok(Asked::Version),
            "--empty" => empty = true,
            "--no-repeats" => no_repeats = true,
            "--list" => list = Some(value()?),
            "--unit" => unit = Some(value()?),
            "--from" => from = Some(value()?),
            "--peer1" | "--peer2" => {
                let text = value()?;
                let address = text.parse();
                let address = address.map_err(|_| format!("{word} {text}: not an IP address"))?;
                peers[usize::from(word == "--peer2")].push(address);
            }
            "--port" => {
                let text = value()?;
                let wrong = format!("--port {text}: not a port from 1 to 65535");
                port = whole(&text).and_then(|number| u16::try_from(number).ok()).ok_or(wrong)?;
            }
            "--until" => {
                let text = value()?;
                until = whole(&text).ok_or(format!("--until {text}: not a packet's number"))?;
            }
            _ if word.starts_with("--") => {
                return Err(format!("unknown option {word} (--help lists them)"));
            }
            _ => places.push(word.clone()),
        }
    }
    let mut places = places.into_iter();
    let capture = places.next().ok_or("CAPTURE is needed (--help says how)")?;
    let other = match (places.next(), list, unit) {
        (Some(table), None, None) => Other::Table(table),
        (None, Some(list), None) => Other::List(list),
        (None, None, Some(unit)) => Other::Unit(unit),
        (None, None, None) => return Err("one of TABLE, --list and --unit is needed".to_string()),
        _ => return Err("only one of TABLE, --list and --unit may be given".to_string()),
    };
    if let Some(more) = places.next() {
        return Err(format!("{more}: too many words"));
    }
    if empty && from.is_some() {
        return Err("--empty and --from exclude each other".to_string());
    }
    if peers[0].is_empty() && !peers[1].is_empty() {
        return Err("--peer2 needs --peer1".to_string());
    }
    if peers[0].iter().any(|address| peers[1].contains(address)) {
        return Err("--peer1 and --peer2 have to differ".to_string());
    }
    Ok(Asked::Check(Options { capture, other, from, empty, peers, port, until, no_repeats }))
}

/// A whole number from 1 on, of digits alone.
fn whole(text: &str) -> Option<u64> {
    match text.bytes().all(|octet| octet.is_ascii_digit()) {
        true => text.parse().ok().filter(|number| *number > 0),
        false => None,
    }
}
