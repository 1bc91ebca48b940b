//! Captures in every form and link type, cut at every octet, with flipped bits: no crash, no hang, and no table with
//! a lie that is called the same.

mod common;

use common::*;
use second::generate::random::Random;
use second::session::{Key, Sessions};

/// The night's table with the old accident: PDR 2 was removed and its TEID given to another session, and it still
/// stands there.
fn accident(night: &Recorded) -> Sessions {
    let mut told = night.unit.sessions().clone();
    let session = told.get_mut(&Key { peer: 1, seid: 1 }).unwrap();
    let pdr = session.pdrs[&1].clone();
    session.pdrs.insert(2, pdr);
    told
}

#[test]
fn every_link_type_and_form() {
    let (night, folder) = (night(), Folder::new());
    let lie = night.file(&accident(&night));
    for link in LINKS {
        let frames = frames(link, &night.sent);
        for (big, nano) in [(false, false), (true, false), (false, true), (true, true)] {
            let file = pcap(big, nano, link, &frames);
            let done = check(&folder, &file, &night.table());
            assert_eq!(done.status, 0, "link type {link}: {}", done.text);
            assert!(done.text.contains("capture: 28 packets, 2027-01-15T08:00:00.050000Z to 2027-01-15T08:00:00.751000Z"), "{}", done.text);
            assert_eq!(check(&folder, &file, &lie).status, 1);
        }
        for big in [false, true] {
            let mut file = section(big, &[147, link]);
            for (at, octets, whole) in &frames {
                file.extend(enhanced(big, 1, *at, octets, *whole, &[]));
            }
            file.extend(statistics(big, 1, 0));
            assert_eq!(check(&folder, &file, &night.table()).status, 0, "pcapng, link type {link}");
            assert_eq!(check(&folder, &file, &lie).status, 1);
            let packets = frames.iter().flat_map(|(_, octets, _)| simple(big, octets));
            let file: Vec<u8> = section(big, &[link]).into_iter().chain(packets).collect();
            assert_eq!(check(&folder, &file, &night.table()).status, 0, "simple, link type {link}");
            let packets = frames.iter().flat_map(|(at, octets, _)| old_packet(big, *at, octets));
            let file: Vec<u8> = section(big, &[link]).into_iter().chain(packets).collect();
            assert_eq!(check(&folder, &file, &night.table()).status, 0, "old, link type {link}");
        }
    }
}

/// Two interfaces of different link types, and a second section in the other order of octets.
#[test]
fn sections_and_interfaces() {
    let (night, folder) = (night(), Folder::new());
    let mut file = section(false, &[1, 276]);
    for (place, sent) in night.sent.iter().enumerate().take(10) {
        let (interface, link) = if place % 2 == 0 { (0, 1) } else { (1, 276) };
        let octets = framed(link, &ip(sent));
        file.extend(enhanced(false, interface, sent.at, &octets, octets.len(), &[]));
    }
    file.extend(section(true, &[101]));
    for sent in &night.sent[10..] {
        let octets = framed(101, &ip(sent));
        file.extend(enhanced(true, 0, sent.at, &octets, octets.len(), &[]));
    }
    let done = check(&folder, &file, &night.table());
    assert_eq!(done.status, 0, "{}", done.text);
}

/// The capture's own word that packets were lost.
#[test]
fn losses_are_told() {
    let (night, folder) = (night(), Folder::new());
    let packets = |options: &[u8]| -> Vec<u8> {
        let frames = frames(1, &night.sent);
        let blocks = frames
            .iter()
            .flat_map(|(at, octets, whole)| enhanced(false, 0, *at, octets, *whole, options));
        section(false, &[1]).into_iter().chain(blocks).collect()
    };
    let counted = [packets(&[]), statistics(false, 0, 3)].concat();
    // epb_dropcount: 8 octets.
    let dropped = packets(&[4, 0, 8, 0, 1, 0, 0, 0, 0, 0, 0, 0, 0, 0, 0, 0]);
    for (file, lost) in [(counted, 3), (dropped, 28)] {
        let done = check(&folder, &file, &night.table());
        assert_eq!(done.status, 3, "{}", done.text);
        let line = format!("not known: the capture says that {lost} packets were lost\n");
        assert!(done.text.contains(&line), "{}", done.text);
        let done = check(&folder, &file, &night.file(&accident(&night)));
        assert_eq!(done.status, 3, "{}", done.text);
        assert!(done.text.contains("perhaps different: session 1 of peer 1"), "{}", done.text);
    }
}

/// IPv4 options, VLAN tags, IPv6 with extension headers; fragments put together, in any order, or told.
#[test]
fn ways_of_ip() {
    let (night, folder) = (night(), Folder::new());
    let wholes = |octets: Vec<u8>, at: u64| {
        let whole = octets.len();
        (at, octets, whole)
    };
    let with_options: Vec<_> = night
        .sent
        .iter()
        .map(|sent| {
            let mut octets = framed(1, &ipv4(sent, 12, 0, false, &udp(sent)));
            octets.splice(12..12, [0x88, 0xA8, 0, 1, 0x81, 0, 0, 2]);
            octets.resize(octets.len().max(64), 0);
            wholes(octets, sent.at)
        })
        .collect();
    assert_eq!(check(&folder, &pcap(false, false, 1, &with_options), &night.table()).status, 0);

    let mut fragments = Vec::new();
    for sent in &night.sent {
        let datagram = udp(sent);
        let middle = 16.min(datagram.len());
        let (front, back) = datagram.split_at(middle);
        let pieces =
            [ipv4(sent, 0, 0, true, front), ipv4(sent, 0, (middle / 8) as u16, false, back)];
        if back.is_empty() {
            fragments.push(wholes(framed(1, &ip(sent)), sent.at));
            continue;
        }
        for place in if sent.at % 100 == 0 { [0, 1] } else { [1, 0] } {
            fragments.push(wholes(framed(1, &pieces[place]), sent.at));
        }
    }
    let done = check(&folder, &pcap(false, false, 1, &fragments), &night.table());
    assert_eq!(done.status, 0, "{}", done.text);
    assert!(done.text.contains("datagrams put together from fragments: 27\n"), "{}", done.text);
    fragments.remove(20);
    let done = check(&folder, &pcap(false, false, 1, &fragments), &night.table());
    assert_eq!(done.status, 3, "{}", done.text);
    assert!(done.text.contains("not known: of the fragments from packet "), "{}", done.text);
}

#[test]
fn over_ipv6() {
    let (night, folder) = (night(), Folder::new());
    let other = |address: std::net::SocketAddr| -> std::net::SocketAddr {
        let last = match address.ip() {
            std::net::IpAddr::V4(own) => own.octets()[3],
            _ => 0,
        };
        format!("[2001:db8::{last}]:{}", address.port()).parse().unwrap()
    };
    for extension in [&[][..], &[17, 0, 1, 4, 0, 0, 0, 0]] {
        let frames: Vec<_> = night
            .sent
            .iter()
            .map(|sent| {
                let sent = Sent { from: other(sent.from), to: other(sent.to), ..sent.clone() };
                let next = if extension.is_empty() { 17 } else { 60 };
                let octets = framed(276, &ipv6(&sent, extension, next, &udp(&sent)));
                let whole = octets.len();
                (sent.at, octets, whole)
            })
            .collect();
        let mut options = options(&folder, &pcap(true, false, 276, &frames), &night.table());
        assert_eq!(status(&options), 3);
        options.peers =
            [vec!["2001:db8::1".parse().unwrap()], vec!["2001:db8::2".parse().unwrap()]];
        assert_eq!(status(&options), 0);
    }
}

/// A snap length that cuts the requests, and one that cuts nothing.
#[test]
fn packets_cut_by_the_snap_length() {
    let (night, folder) = (night(), Folder::new());
    for snap in [20, 40, 60, 100, 400] {
        let frames: Vec<_> = frames(1, &night.sent)
            .into_iter()
            .map(|(at, mut octets, whole)| {
                octets.truncate(snap);
                (at, octets, whole)
            })
            .collect();
        let file = pcap(false, false, 1, &frames);
        let done = check(&folder, &file, &night.table());
        assert_eq!(done.status, if snap == 400 { 0 } else { 3 }, "{snap}: {}", done.text);
        assert_eq!(
            done.text.contains(" was cut by the snap length\n"),
            snap < 400,
            "{}",
            done.text
        );
        assert_ne!(check(&folder, &file, &night.file(&accident(&night))).status, 0);
    }
}

/// The two forms of a capture, whole.
fn forms(night: &Recorded) -> [Vec<u8>; 2] {
    let blocks = frames(113, &night.sent);
    let blocks =
        blocks.iter().flat_map(|(at, octets, whole)| enhanced(true, 0, *at, octets, *whole, &[]));
    [capture(&night.sent), section(true, &[113]).into_iter().chain(blocks).collect()]
}

/// Where a file ends too early, or goes on with nonsense, it is said, also where nothing else tells that something is
/// missing.
#[test]
fn a_cut_and_damage_are_told() {
    let (mut night, folder) = (night(), Folder::new());
    let table = night.table();
    // A heartbeat, which is no request of a session.
    night.sent.push(to_unit(1, &[0x20, 1, 0, 12, 0, 0, 9, 0, 0, 0x60, 0, 4, 0, 0, 0, 0], 900));
    for file in forms(&night) {
        assert_eq!(check(&folder, &file, &table).status, 0);
        let done = check(&folder, &file[..file.len() - 5], &table);
        assert_eq!(done.status, 3, "{}", done.text);
        assert!(
            done.text.contains("not known: the file ends in the middle of a packet\n"),
            "{}",
            done.text
        );
        let done = check(&folder, &[&file[..], &[0xFF; 64]].concat(), &table);
        assert_eq!(done.status, 3, "{}", done.text);
        assert!(done.text.contains("not known: the file is damaged at octet "), "{}", done.text);
    }
}

/// Cut at every octet: never the same where the table lies; a true one is never called different. What is missing of
/// the night the table's stores tell.
#[test]
fn cut_at_every_octet() {
    let (night, folder) = (night(), Folder::new());
    let lie = folder.write("lie", &night.file(&accident(&night)));
    for file in forms(&night) {
        let mut met = [0; 4];
        let is_true = options(&folder, &file, &night.table());
        let mut lies = is_true.clone();
        lies.other = check::options::Other::Table(lie.clone());
        for length in 0..file.len() {
            folder.write("capture", &file[..length]);
            let is = status(&is_true);
            assert!(matches!(is, 2 | 3), "cut at {length}: {is}");
            met[usize::from(is)] += 1;
            assert_ne!(status(&lies), 0, "cut at {length}, with a lie");
        }
        assert!(met[2] >= 4 && met[3] > 1000, "{met:?}");
    }
}

/// A flipped bit at every octet, and several at random places.
#[test]
fn flipped_bits() {
    let (night, folder, mut random) = (night(), Folder::new(), Random::new(5));
    let lie = folder.write("lie", &night.file(&accident(&night)));
    for file in forms(&night) {
        let mut met = [0; 4];
        let is_true = options(&folder, &file, &night.table());
        let mut lies = is_true.clone();
        lies.other = check::options::Other::Table(lie.clone());
        for at in 0..file.len() {
            let mut flipped = file.clone();
            flipped[at] ^= 1 << random.below(8);
            folder.write("capture", &flipped);
            let is = status(&is_true);
            assert_ne!(is, 1, "octet {at}");
            met[usize::from(is)] += 1;
            assert_ne!(status(&lies), 0, "octet {at}, with a lie");
        }
        assert!(met[0] > 100 && met[3] > 1000, "{met:?}");
        for _ in 0..500 {
            let mut flipped = file.clone();
            for _ in 0..random.between(2, 40) {
                let at = random.below(flipped.len());
                flipped[at] ^= 1 << random.below(8);
            }
            status(&options(&folder, &flipped, &night.table()));
        }
    }
    for length in [0, 1, 23, 24, 40, 5000] {
        let mut options = options(&folder, &random.octets(length), &night.table());
        assert_eq!(status(&options), 2);
        options.other = check::options::Other::List(folder.write("noise", &random.octets(length)));
        assert_eq!(status(&options), 2);
        options.other = check::options::Other::Table(folder.write("noise", &random.octets(length)));
        assert_eq!(status(&options), 2);
    }
}

/// Check sums that were left to the card, as on the loopback interface, and ones that are not there.
#[test]
fn check_sums() {
    let (night, folder) = (night(), Folder::new());
    for wanted in [0, 3] {
        for none in [false, true] {
            let mut all = frames(1, &night.sent);
            for (place, (_, octets, _)) in all.iter_mut().enumerate() {
                let sent = &night.sent[place];
                let addresses: Vec<u8> = [sent.from.ip(), sent.to.ip()]
                    .iter()
                    .flat_map(|ip| match ip {
                        std::net::IpAddr::V4(own) => own.octets(),
                        _ => [0; 4],
                    })
                    .collect();
                let words =
                    addresses.chunks(2).map(|pair| u32::from(pair[0]) << 8 | u32::from(pair[1]));
                let sum = words.sum::<u32>() + 17 + 8 + sent.octets.len() as u32;
                let sum = (sum & 0xFFFF) + (sum >> 16);
                let written = if none { 0 } else { sum as u16 };
                octets[40..42].copy_from_slice(&written.to_be_bytes());
                // One octet of one packet's check sum is another.
                if wanted == 3 && place == 20 {
                    octets[41] ^= 0x55;
                }
            }
            let done = check(&folder, &pcap(false, false, 1, &all), &night.table());
            assert_eq!(done.status, wanted, "{}", done.text);
        }
    }
}

/// Writes captures of every form, whole and damaged, for a comparison with libpcap.
#[test]
#[ignore = "writes into the folder that PFCP_CAPTURES names"]
fn written() {
    let (night, mut random) = (night(), Random::new(9));
    let folder = std::path::PathBuf::from(std::env::var("PFCP_CAPTURES").expect("a folder"));
    let write = |name: String, octets: &[u8]| std::fs::write(folder.join(name), octets).unwrap();
    write("table".to_string(), &night.table());
    for link in LINKS {
        let frames = frames(link, &night.sent);
        for (big, nano) in [(false, false), (true, false), (false, true), (true, true)] {
            write(format!("{link}-{big}-{nano}.capture"), &pcap(big, nano, link, &frames));
        }
        for big in [false, true] {
            let enhanced = frames
                .iter()
                .flat_map(|(at, octets, whole)| enhanced(big, 0, *at, octets, *whole, &[]));
            let simple = frames.iter().flat_map(|(_, octets, _)| simple(big, octets));
            let old = frames.iter().flat_map(|(at, octets, _)| old_packet(big, *at, octets));
            for (name, blocks) in [
                ("enhanced", enhanced.collect::<Vec<u8>>()),
                ("simple", simple.collect()),
                ("old", old.collect()),
            ] {
                let file = [section(big, &[link]), blocks].concat();
                write(format!("{link}-{big}-{name}.capture"), &file);
            }
        }
    }
    for (form, file) in forms(&night).into_iter().enumerate() {
        for number in 0..150 {
            let mut flipped = file.clone();
            let at = random.below(flipped.len());
            flipped[at] ^= 1 << random.below(8);
            write(format!("flipped-{form}-{number}.capture"), &flipped);
        }
    }
}
