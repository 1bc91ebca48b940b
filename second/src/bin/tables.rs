//! `tables FOLDER SEED COUNT [LIMIT]`: writes sound tables with what the rules and docs/layout.md make
//! of them: ones of one and of three sessions, empty ones, full ones without and with an IPv6 address,
//! the largest, and COUNT drawn at random from the seed. LIMIT is the session limit of all of them.
//! Without it the limit is 64, the largest that the program `pfcp-restore` takes, and at most that in the
//! random ones. For each NAME, which it prints with the control plane's addresses to give:
//!
//! * NAME.table: the table's octets,
//! * NAME.requests: its sessions' restoration requests, in its order, each after an octet with its peer,
//! * NAME.text and NAME.json: the list of its sessions,
//! * NAME.options: what gives a unit its settings.

use std::fs;
use std::net::{Ipv4Addr, Ipv6Addr};
use std::path::Path;
use std::process::ExitCode;

use second::generate::largest;
use second::generate::random::Random;
use second::generate::tables::{self, Filling};
use second::layout;
use second::list;
use second::restoration::{self, Envelope};
use second::session::Sessions;
use second::settings::{allowed_limit, Peer, Settings, LARGEST_LIMIT, LEAST_LIMIT};

/// The session limit unless said otherwise.
const LIMIT: u16 = 64;

const IPV4: [u8; 4] = [192, 0, 2, 50];
const IPV6: [u8; 16] = [0x20, 1, 0x0D, 0xB8, 0, 0, 0, 0, 0, 0, 0, 0, 0, 0, 0, 0x50];

fn main() -> ExitCode {
    let arguments: Vec<String> = std::env::args().skip(1).collect();
    let Some((folder, wanted)) = read(&arguments) else {
        eprintln!(
            "usage: tables FOLDER SEED COUNT [LIMIT]; a LIMIT is {LEAST_LIMIT} to {LARGEST_LIMIT}"
        );
        return ExitCode::from(2);
    };
    match write_all(Path::new(folder), &wanted) {
        Ok(()) => ExitCode::SUCCESS,
        Err(error) => {
            eprintln!("tables: {error}");
            ExitCode::FAILURE
        }
    }
}

struct Wanted {
    seed: u64,
    count: usize,
    limit: Option<u16>,
}

fn read(arguments: &[String]) -> Option<(&str, Wanted)> {
    let (folder, seed, count, limit) = match arguments {
        [folder, seed, count] => (folder, seed, count, None),
        [folder, seed, count, limit] => {
            let limit = limit.parse().ok().and_then(allowed_limit)?;
            (folder, seed, count, Some(limit))
        }
        _ => return None,
    };
    Some((folder, Wanted { seed: seed.parse().ok()?, count: count.parse().ok()?, limit }))
}

fn write_all(folder: &Path, wanted: &Wanted) -> std::io::Result<()> {
    let mut random = Random::new(wanted.seed);
    let limit = wanted.limit.unwrap_or(LIMIT);
    let settings = tables::settings(&mut random, true, limit);
    let sessions = tables::sessions(&mut random, &settings, Filling::Some);
    write(folder, "one", &settings, &sessions.clone().into_iter().take(1).collect(), 2)?;
    write(folder, "few", &settings, &sessions.into_iter().take(3).collect(), 2)?;
    let addresses = (Ipv4Addr::new(10, 45, 0, 0), 256);
    let peer = |octet| Peer { address: [192, 0, 2, octet], guarantee: 1024, limit: 4096 };
    let peers = [peer(1), peer(2)];
    let plain = Settings::make([192, 0, 2, 1], &[], (4096, 4096), addresses, limit.into(), peers);
    let plain = plain.expect("these are allowed");
    write(folder, "empty", &plain, &Sessions::new(), 0)?;
    let settings = tables::settings(&mut random, true, limit);
    write(folder, "empty6", &settings, &Sessions::new(), 1)?;
    for (place, (name, ipv6)) in [("full", false), ("full6", true)].into_iter().enumerate() {
        let settings = tables::settings(&mut random, ipv6, limit);
        let sessions = tables::sessions(&mut random, &settings, Filling::Full);
        write(folder, name, &settings, &sessions, place)?;
    }
    write(folder, "largest", &largest::settings(limit), &largest::sessions(limit), 2)?;
    for number in 0..wanted.count {
        let ipv6 = random.percent(70);
        let any = random.pick(&[2, 3, 5, 40, LIMIT - 1, LIMIT]);
        let settings = tables::settings(&mut random, ipv6, wanted.limit.unwrap_or(any));
        let sessions = tables::sessions(&mut random, &settings, Filling::Some);
        write(folder, &format!("random{number}"), &settings, &sessions, number)?;
    }
    Ok(())
}

/// Writes the files of one table. Which of the control plane's addresses are given goes by a number.
fn write(
    folder: &Path,
    name: &str,
    settings: &Settings,
    sessions: &Sessions,
    which: usize,
) -> std::io::Result<()> {
    let (v4, v6) = [(true, false), (false, true), (true, true)][which % 3];
    let mut requests = Vec::new();
    for (place, (key, session)) in sessions.iter().enumerate() {
        let envelope = Envelope {
            header_seid: 0,
            sequence: place as u32 + 1,
            ipv4: v4.then_some(IPV4),
            ipv6: v6.then_some(IPV6),
        };
        let request = restoration::request(settings, key.seid, session, &envelope);
        requests.push(key.peer);
        requests.extend(request.expect("a live session has a request"));
    }
    let file = |ending: &str| folder.join(format!("{name}.{ending}"));
    fs::write(file("table"), layout::encode(settings, sessions))?;
    fs::write(file("requests"), requests)?;
    fs::write(file("text"), list::text(settings, sessions))?;
    fs::write(file("json"), list::json(settings, sessions))?;
    fs::write(file("options"), options(settings))?;
    let addresses = match (v4, v6) {
        (true, false) => "192.0.2.50",
        (false, _) => "2001:db8::50",
        (true, true) => "192.0.2.50 2001:db8::50",
    };
    println!("{name} {addresses}");
    Ok(())
}

fn options(settings: &Settings) -> String {
    let ipv4 = Ipv4Addr::from(settings.ipv4);
    let ipv6 =
        settings.ipv6.map_or(String::new(), |octets| format!(" --ipv6 {}", Ipv6Addr::from(octets)));
    let Settings { first, size, first_address, addresses, session_limit, .. } = settings;
    let of_teids = format!("--first-teid {first} --pool {size}");
    let of_addresses = format!("--first-address {first_address} --addresses {addresses}");
    let of_peer = |number: usize| {
        let Peer { address, guarantee, limit } = settings.peers[number - 1];
        format!("--peer{number} {}:{guarantee}:{limit}", Ipv4Addr::from(address))
    };
    let of_peers = format!("{} {}", of_peer(1), of_peer(2));
    format!("--ipv4 {ipv4}{ipv6} {of_teids} {of_addresses} {of_peers} --sessions {session_limit}\n")
}
