//! What an operator meets: differences with their request, the old accident, what could not be known.

mod common;

use check::options::{self, Asked, Other};
use common::*;
use second::element::fq_csid::NodeId;
use second::list;
use second::session::{Key, Local, Session, Tunnel};

const ONE: Key = Key { peer: 1, seid: 1 };

fn has(text: &str, lines: &[&str]) {
    for line in lines {
        assert!(text.contains(line), "{line} is not in\n{text}");
    }
}

#[test]
fn the_same() {
    let (night, folder) = (night(), Folder::new());
    let done = check(&folder, &capture(&night.sent), &night.table());
    assert_eq!(done.status, 0);
    assert_eq!(
        done.text,
        "capture: 28 packets, 2027-01-15T08:00:00.050000Z to 2027-01-15T08:00:00.751000Z\n\
         answered requests: 13 (9 accepted, 2 refused, 2 repeated)\n\
         requests without a reply: 1\n\
         messages that no unit reads (outcomes 3 to 5): 1\n\
         note: 1 request without a reply: not newer by number, so dropped by the unit\n\
         live by the wire: 3 sessions, 3 PDRs, 0 endpoints, 0 FQ-CSIDs\n\
         in the table: 3 sessions, 3 PDRs, 0 endpoints, 0 FQ-CSIDs\n\
         the same: the table has what lives by the wire\n"
    );
}

/// The old program's accident: the TEID of a PDR that was removed is left on it in the table, while the number serves
/// another session.
#[test]
fn the_accident() {
    let (night, folder) = (night(), Folder::new());
    let mut told = night.unit.sessions().clone();
    let given = told[&Key { peer: 1, seid: 7 }].pdrs[&1].clone();
    told.get_mut(&ONE).unwrap().pdrs.insert(2, given);
    let done = check(&folder, &capture(&night.sent), &night.file(&told));
    assert_eq!(done.status, 1);
    has(
        &done.text,
        &[
            "\nwrong: the table is broken: session 7 of peer 1: PDRs share a TEID against the rule\n",
            "\ndifferent: session 1 of peer 1\n    \
             PDR 2 by the wire: not there\n    \
             PDR 2 in the table: precedence 100, no FAR, source interface 0 (access), TEID 4097 (IPv4)\n    \
             TEID 4097 is by the wire that of session 7 of peer 1, PDR 1\n    \
             since packet 23, 2027-01-15T08:00:00.650000Z, peer 1, Session Modification Request, SEID 1, sequence 6\n",
            "\nDIFFERENT: the table is not what lives by the wire\n",
        ],
    );
}

/// A list that says "gone" of what lives, or has what is gone, and heads that do not fit.
#[test]
fn lies_in_a_list() {
    let (night, folder) = (night(), Folder::new());
    let truth = night.unit.sessions();
    let json = list::json(night.unit.settings(), truth);
    let mut options = options(&folder, &capture(&night.sent), &night.table());
    let mut listed = |text: &str| {
        options.other = Other::List(folder.write("list", text.as_bytes()));
        check::run(&options).unwrap()
    };
    let done = listed(&json);
    assert_eq!(done.status, 0, "{}", done.text);
    let mut gone = truth.clone();
    gone.remove(&Key { peer: 2, seid: 4 });
    let done = listed(&list::json(night.unit.settings(), &gone));
    assert_eq!(done.status, 1);
    has(&done.text, &["\ndifferent: session 4 of peer 2\n    it lives by the wire and is not in the list, with\n      PDR 8: precedence 100"]);
    let mut left = truth.clone();
    left.get_mut(&ONE).unwrap().pdrs.get_mut(&1).unwrap().local = Local::Neither;
    assert_eq!(listed(&list::json(night.unit.settings(), &left)).status, 1);
    for (old, new) in [
        ("\"live_sessions\":3", "\"live_sessions\":2"),
        ("\"free_teids\":29", "\"free_teids\":30"),
        ("\"free_addresses\":8", "\"free_addresses\":7"),
        ("\"precedence\":100", "\"precedence\":101"),
        ("\"seid\":\"7\"", "\"seid\":\"8\""),
        ("\"peer\":2", "\"peer\":1"),
        ("\"teid\":4096", "\"teid\":4099"),
        ("\"ipv6\":false", "\"ipv6\":true"),
        ("\"source_interface\":0", "\"source_interface\":1"),
        ("\"seid_hex\":\"0x7\"", "\"seid_hex\":\"0x8\""),
        ("\"source_interface_name\":\"access\"", "\"source_interface_name\":\"core\""),
        (
            "\"fq_csids\":[]",
            "\"fq_csids\":[{\"node_type\":5,\"node_type_name\":\"PGW-U, SGW-U or UPF\",\"node\":\"3FF71005\",\"csid\":9}]",
        ),
        (
            "\"endpoints\":[]",
            "\"endpoints\":[{\"id\":1,\"teid\":4100,\"ipv4\":true,\"ipv6\":false}]",
        ),
    ] {
        assert!(json.contains(old), "{old}");
        let done = listed(&json.replacen(old, new, 1));
        assert_eq!(done.status, 1, "{new}: {}", done.text);
    }
    let twice = json.replacen("\"pdrs\":[{", "\"pdrs\":[{\"id\":1,\"precedence\":100,\"source_interface\":0,\"source_interface_name\":\"access\",\"teid\":4096,\"ipv4\":true,\"ipv6\":false},{", 1);
    has(&listed(&twice).text, &["wrong: the list has PDR 1 of session 1 of peer 1 twice\n"]);
}

/// Wire and table part with the first request that the table does not follow, not with the last.
#[test]
fn where_they_part() {
    let folder = Folder::new();
    let mut unit = Recorded::new(settings());
    let update = |sequence: u32, precedence: u8| {
        let parts = [ie(56, &[0, 1]), ie(29, &[0, 0, 0, precedence])].concat();
        modification(1, sequence, &[ie(9, &parts)])
    };
    unit.ask(1, &establishment(1, 1, &[create_pdr(1)]));
    unit.ask(1, &update(2, 7));
    let told = unit.unit.sessions().clone();
    unit.ask(1, &update(3, 8));
    unit.ask(1, &update(4, 7));
    unit.ask(1, &update(5, 8));
    unit.ask(1, &update(6, 9));
    let done = check(&folder, &capture(&unit.sent), &unit.file(&told));
    assert_eq!(done.status, 1);
    has(&done.text, &["\n    since packet 9, 2027-01-15T08:00:00.250000Z, peer 1, Session Modification Request, SEID 1, sequence 5\n"]);
}

/// Every octet of a table's sessions and of a list's, changed by itself: each is a lie, and each is found.
#[test]
fn every_octet_of_a_table_and_a_list() {
    let (night, folder) = (night(), Folder::new());
    let table = night.table_of(night.unit.sessions());
    let mut options = options(&folder, &capture(&night.sent), &night.table());
    let Other::Table(path) = &options.other else { unreachable!() };
    for at in second::layout::COUNT..table.len() {
        let mut told = table.clone();
        told[at] ^= 1 << (at % 8);
        std::fs::write(path, night.file_with(&told)).unwrap();
        assert_eq!(status(&options), 1, "octet {at} of the table");
    }
    let list = list::json(night.unit.settings(), night.unit.sessions()).into_bytes();
    let first = list.windows(10).position(|part| part == b"\"sessions\"").unwrap();
    options.other = Other::List(folder.write("list", &list));
    assert_eq!(status(&options), 0);
    for at in first..list.len() - 1 {
        for bit in 0..8 {
            let mut told = list.clone();
            told[at] ^= 1 << bit;
            folder.write("list", &told);
            assert!(matches!(status(&options), 1 | 2), "bit {bit} of octet {at} of the list");
        }
    }
}

/// Session 5 of peer 2, with every kind of record.
fn with_every_record() -> Recorded {
    let mut with_ipv6 = settings();
    with_ipv6.ipv6 = Some([0x20; 16]);
    let mut unit = Recorded::new(with_ipv6);
    let address = |last: u8| ie(93, &[2, 198, 51, 100, last]);
    let pdr = |id: u8, members: &[Vec<u8>]| {
        let pdi = [&[ie(20, &[0])], members].concat().concat();
        let parts =
            [ie(56, &[0, id]), ie(29, &[0, 0, 0, 100]), ie(2, &pdi), ie(108, &[0, 0, 0, 9])];
        ie(1, &parts.concat())
    };
    let endpoint = |id: u8| ie(127, &[ie(131, &[id]), ie(21, &[7]), address(10 + id)].concat());
    let parts = [
        pdr(1, &[ie(21, &[7]), address(7)]),
        pdr(2, &[ie(131, &[3])]),
        endpoint(3),
        endpoint(4),
        fq_csid(),
    ];
    unit.ask(2, &establishment(5, 1, &parts));
    unit
}

/// A session with every kind of record, each field of which is changed by itself so that the table stays an allowed one: each is found.
#[test]
fn every_field_of_a_record() {
    let (unit, folder) = (with_every_record(), Folder::new());
    let key = Key { peer: 2, seid: 5 };
    let changes: [(&str, fn(&mut Session)); 14] = [
        ("a precedence", |one| one.pdrs.get_mut(&1).unwrap().precedence = 7),
        ("a FAR", |one| one.pdrs.get_mut(&1).unwrap().far_id = Some(8)),
        ("no FAR", |one| one.pdrs.get_mut(&1).unwrap().far_id = None),
        ("a source interface", |one| one.pdrs.get_mut(&1).unwrap().source_interface = 1),
        ("a PDR's address", |one| one.pdrs.get_mut(&1).unwrap().address = None),
        ("a PDR's TEID", |one| tunnel_of(one).teid = 4127),
        ("a PDR's families", |one| tunnel_of(one).families.v6 = false),
        ("another endpoint", |one| one.pdrs.get_mut(&2).unwrap().local = Local::Endpoint(4)),
        ("an endpoint's TEID", |one| one.endpoints.get_mut(&3).unwrap().tunnel.teid = 4127),
        ("its families", |one| one.endpoints.get_mut(&3).unwrap().tunnel.families.v4 = false),
        ("its address", |one| one.endpoints.get_mut(&3).unwrap().address = None),
        ("an endpoint less", |one| assert!(one.endpoints.remove(&4).is_some())),
        ("a CSID", |one| one.fq_csids.get_mut(&5).unwrap().csid = 10),
        ("a node", |one| one.fq_csids.get_mut(&5).unwrap().node = NodeId::Ipv4([9; 4])),
    ];
    for (name, change) in changes {
        let mut told = unit.unit.sessions().clone();
        change(told.get_mut(&key).unwrap());
        let table = unit.table_of(&told);
        assert_eq!(second::layout::sound(&table).err(), None, "{name}");
        let mut options = options(&folder, &capture(&unit.sent), &unit.file_with(&table));
        let listed = list::json(unit.unit.settings(), &told);
        for other in [options.other.clone(), Other::List(folder.write("list", listed.as_bytes()))] {
            options.other = other;
            let done = check::run(&options).unwrap();
            assert_eq!(done.status, 1, "{name}: {}", done.text);
            has(&done.text, &["\ndifferent: session 5 of peer 2\n"]);
        }
    }
}

fn tunnel_of(session: &mut Session) -> &mut Tunnel {
    match &mut session.pdrs.get_mut(&1).unwrap().local {
        Local::Tunnel(tunnel) => tunnel,
        _ => panic!("PDR 1 has a TEID"),
    }
}

/// Octets of a table that no record explains.
#[test]
fn hidden_octets() {
    let (night, folder) = (night(), Folder::new());
    let file = capture(&night.sent);
    let mut table = night.table_of(night.unit.sessions());
    table.extend(night.stores_part());
    for (at, said) in [
        (
            second::layout::SLOTS + 100,
            "wrong: the table is broken: octets that its records do not encode to",
        ),
        (second::layout::SLOTS + 12 + 12, "wrong: the table is broken: an octet without a meaning"),
        (
            table.len() - 1,
            "wrong: the store of repeats of peer 2 is broken: unused room that is not zero",
        ),
    ] {
        let mut told = table.clone();
        told[at] = 9;
        let (own, stores) = told.split_at(second::layout::length(LIMIT));
        // Of the form before, and sealed again by whoever told it.
        for told in [told.clone(), sealed(night.unit.settings(), own, stores, &[])] {
            let done = check(&folder, &file, &told);
            assert_eq!(done.status, 1, "{at}: {}", done.text);
            has(&done.text, &[said]);
        }
    }
    // Settings before the table that are not its own, and a number of control planes that no unit has.
    for at in 28..100 {
        let mut told = night.table();
        told.truncate(told.len() - 32);
        told[at] ^= 4;
        let done = check(&folder, &file, &seal(told));
        assert_eq!(done.status, 1, "octet {at} of the file");
        has(&done.text, &["wrong: the settings before the table are not the table's\n"]);
    }
}

/// The form before, with its stores and without, is read too.
#[test]
fn the_form_before() {
    let (night, folder) = (night(), Folder::new());
    let mut plain = night.table_of(night.unit.sessions());
    let file = capture(&night.sent);
    assert_eq!(check(&folder, &file, &plain).status, 0);
    plain.extend(night.stores_part());
    assert_eq!(check(&folder, &file, &plain).status, 0);
    plain.push(0);
    let fault = check::run(&options(&folder, &file, &plain)).err().unwrap();
    assert!(fault.ends_with(&format!("{} octets long, which no table is", plain.len())), "{fault}");
}

/// A stored file that is cut, lengthened, damaged, of another version or put together wrongly is refused, each with
/// its line: every bit of it, and every cut.
#[test]
fn damaged_files() {
    let (night, folder) = (night(), Folder::new());
    let whole = sealed(night.unit.settings(), &night.table_of(night.unit.sessions()), &[], &[]);
    let options = options(&folder, &capture(&night.sent), &whole);
    let Other::Table(path) = &options.other else { unreachable!() };
    assert_eq!(status(&options), 0);
    let refused = |octets: &[u8], why: &str| {
        std::fs::write(path, octets).unwrap();
        let fault = check::run(&options).err();
        assert!(fault.as_deref().is_some_and(|fault| fault.contains(why)), "{why}: {fault:?}");
    };
    for at in 8..whole.len() {
        let mut told = whole.clone();
        told[at] ^= 1 << (at % 8);
        // A head whose lengths were damaged says another length; what it says is not believed where it cannot be.
        let why = if (12..28).contains(&at) {
            ": "
        } else {
            "damaged: its SHA-256 is not that of its octets"
        };
        refused(&told, why);
    }
    for length in 1..whole.len() {
        let octets = &whole[..length];
        match length {
            1..28 => refused(octets, &format!("cut: {length} octets, fewer than a head has")),
            _ => refused(octets, &format!("cut: {length} octets of {}", whole.len())),
        }
    }
    refused(
        &[&whole[..], &[0]].concat(),
        &format!("longer than it says: {} octets, not {}", whole.len() + 1, whole.len()),
    );
    // Sealed again by whoever changed them.
    for (at, why) in [
        (11, "of version 3 of the stored form, not 1"),
        (15, "its parts do not fit together"),
        (19, "its parts do not fit together"),
        (23, "its parts do not fit together"),
        (27, "its parts do not fit together"),
    ] {
        let mut told = whole[..whole.len() - 32].to_vec();
        told[at] ^= 2;
        refused(&seal(told), why);
    }
}

/// A reply that is owed in the table's file stands with the request that has none in the capture, and replies that
/// are none are refused.
#[test]
fn owed_replies() {
    let folder = Folder::new();
    let mut unit = Recorded::new(settings());
    let asked = establishment(1, 1, &[create_pdr(1)]);
    let (_, reply) = unit.ask(1, &asked);
    // Nine more, so that the store does not hold it; then its repeat, which a unit that owes it the reply answers.
    for sequence in 2..11 {
        unit.ask(1, &establishment(1, sequence, &[create_pdr(1)]));
    }
    let mut again = unit.sent.clone();
    again.extend([to_unit(1, &asked, 900), from_unit(1, &reply, 901)]);
    let done = check(&folder, &capture(&again), &unit.table());
    assert_eq!(done.status, 0, "{}", done.text);
    has(&done.text, &["\nrepeats older than eight requests, answered as before: 1\n"]);
    // Another reply than before is none that is owed.
    let mut other = reply.clone();
    *other.last_mut().unwrap() ^= 1;
    *again.last_mut().unwrap() = from_unit(1, &other, 901);
    assert_eq!(check(&folder, &capture(&again), &unit.table()).status, 3);
    // The first reply is lost; the file owes it.
    let mut sent = unit.sent.clone();
    sent.remove(1);
    let mut owed = vec![1, 9];
    owed.extend(check::sha256::digest(&asked));
    owed.extend((reply.len() as u16).to_be_bytes());
    owed.extend(&reply);
    let table = unit.table_of(unit.unit.sessions());
    let with = |owed: &[u8]| sealed(unit.unit.settings(), &table, &unit.stores_part(), owed);
    let done = check(&folder, &capture(&sent), &with(&owed));
    assert_eq!(done.status, 3, "{}", done.text);
    has(
        &done.text,
        &["the table is as if it had been accepted and the reply is owed in its file, cause 1\n"],
    );
    for (at, value) in [(0, 0), (0, 3), (34, 5), (35, 0)] {
        let mut told = owed.clone();
        told[at] = value;
        let fault = check::run(&options(&folder, &capture(&sent), &with(&told))).err();
        assert!(
            fault.is_some_and(|fault| fault.ends_with("its parts do not fit together")),
            "octet {at}"
        );
    }
}

/// Nobody says what lived when the capture began.
#[test]
fn a_capture_that_began_late() {
    let (night, folder) = (night(), Folder::new());
    let late = |packets: usize, table: &[u8]| {
        let mut options = options(&folder, &capture(&night.sent[packets..]), table);
        options.empty = false;
        check::run(&options).unwrap()
    };
    // After the establishment of session 1, of which a PDR is removed later.
    let done = late(2, &night.table());
    assert_eq!(done.status, 3);
    has(&done.text, &["\nnot known: 1 session (session 1 of peer 1) set up before the capture began and changed in it: what the wire says of them is not whole (--from TABLE0)\n"]);
    // After its last change.
    let done = late(26, &night.table());
    assert_eq!(done.status, 3);
    has(&done.text, &["\nnot known: 2 sessions (session 1 of peer 1, session 4 of peer 2) of the table that no request of the capture names: set up before it began, or never (--from TABLE0, or --empty)\n"]);
    // What the capture does show is compared.
    let mut told = night.unit.sessions().clone();
    told.get_mut(&Key { peer: 1, seid: 7 }).unwrap().pdrs.get_mut(&1).unwrap().precedence = 7;
    let done = late(26, &night.file(&told));
    assert_eq!(done.status, 1);
    has(&done.text, &["\ndifferent: session 7 of peer 1\n"]);
    // Nothing is known of a session that was never set up, unless the unit was empty.
    let mut told = night.unit.sessions().clone();
    let own = told[&ONE].clone();
    told.insert(Key { peer: 2, seid: 99 }, second::session::Session::default());
    assert_eq!(late(0, &night.file(&told)).status, 3);
    let done = check(&folder, &capture(&night.sent), &night.file(&told));
    assert_eq!(done.status, 1);
    has(&done.text, &["    no request of the capture made it\n"]);
    assert_eq!(own.pdrs.len(), 1);
}

/// Requests without a reply: what the table says of them, and that the wire does not.
#[test]
fn requests_without_a_reply() {
    let (night, folder) = (night(), Folder::new());
    // The reply to the removal, and that to its repeat.
    let mut sent = night.sent.clone();
    sent.remove(25);
    sent.remove(23);
    let file = capture(&sent);
    let done = check(&folder, &file, &night.table());
    assert_eq!(done.status, 3);
    has(
        &done.text,
        &[
            "\nperhaps different: session 1 of peer 1\n    PDR 2 by the wire: precedence 100, no FAR, source interface 0 (access), TEID 4097 (IPv4)\n    PDR 2 in the table: not there\n",
            "not known: packet 23, 2027-01-15T08:00:00.650000Z, peer 1, Session Modification Request, SEID 1, sequence 6: no reply in the capture, so from there on the wire may be otherwise; the table is as if it had been accepted and its store of repeats has the reply, cause 1\n",
            "\nNOT KNOWN: the table differs, and the capture does not show enough to say why\n",
        ],
    );
    // Where the table has it otherwise than the request would.
    let mut told = night.unit.sessions().clone();
    told.get_mut(&ONE).unwrap().pdrs.get_mut(&1).unwrap().precedence = 7;
    assert_eq!(check(&folder, &file, &night.file(&told)).status, 1);
    // The reply without its request.
    let mut sent = night.sent.clone();
    sent.remove(24);
    sent.remove(22);
    let done = check(&folder, &capture(&sent), &night.table());
    assert_eq!(done.status, 3);
    has(&done.text, &["not known: packet 23: the reply that accepts a Session Modification Request of peer 1 (sequence 6); the request is not in the capture\n"]);
}

/// A deletion whose first reply is not in the capture, its session made again, and then the deletion's repeat, which
/// gets the old reply: when it was carried out is not known, so a table with the session is not called different.
#[test]
fn a_repeat_that_seems_the_first() {
    let folder = Folder::new();
    let mut unit = Recorded::new(settings());
    let gone = deletion(1, 2);
    unit.ask(1, &establishment(1, 1, &[create_pdr(1)]));
    unit.ask(1, &gone);
    unit.ask(1, &establishment(1, 3, &[create_pdr(2)]));
    unit.ask(1, &gone);
    assert_eq!(check(&folder, &capture(&unit.sent), &unit.table()).status, 0);
    let mut sent = unit.sent.clone();
    sent.remove(3);
    let file = capture(&sent);
    let done = check(&folder, &file, &unit.table());
    assert_eq!(done.status, 3, "{}", done.text);
    has(&done.text, &["\nperhaps different: session 1 of peer 1\n", "their order is not known"]);
    // Nor is a table without it called the same.
    let done = check(&folder, &file, &unit.file(&second::session::Sessions::new()));
    assert_eq!(done.status, 3, "{}", done.text);
}

/// A table that was copied before the capture ended.
#[test]
fn until_a_packet() {
    let folder = Folder::new();
    let mut night = night();
    let table = night.table();
    night.ask(1, &deletion(1, 8));
    let mut options = options(&folder, &capture(&night.sent), &table);
    let done = check::run(&options).unwrap();
    assert_eq!(done.status, 1);
    has(
        &done.text,
        &[
            "\nnote: the table is as old as packet 28: its stores of repeats do not have the 1 answered request after it. If it was copied then, compare with --until 28\n",
            "\n    it is not live by the wire and stands in the table, with\n",
            "\n    since packet 29, 2027-01-15T08:00:00.800000Z, peer 1, Session Deletion Request, SEID 1, sequence 8\n",
        ],
    );
    options.until = 28;
    assert_eq!(check::run(&options).unwrap().status, 0);
    // A capture that ended before the table was copied.
    options.until = 26;
    let done = check::run(&options).unwrap();
    assert_eq!(done.status, 3, "{}", done.text);
    has(&done.text, &["not known: the store of repeats has a Session Establishment Request of peer 1, SEID 7, sequence 7, which is not in the capture: it ends before the table, or lacks packets\n"]);
}

/// A unit without a store serves a repeat again.
#[test]
fn without_repeats() {
    let folder = Folder::new();
    let mut unit = Recorded::new(settings());
    let update = |sequence: u32, precedence: u8| {
        let parts = [ie(56, &[0, 1]), ie(29, &[0, 0, 0, precedence])].concat();
        modification(1, sequence, &[ie(9, &parts)])
    };
    unit.ask(1, &establishment(1, 1, &[create_pdr(1)]));
    for message in [update(2, 5), update(3, 6), update(2, 5)] {
        unit.stores = [vec![], vec![]];
        unit.ask(1, &message);
    }
    unit.stores = [vec![], vec![]];
    let table = unit.table_of(unit.unit.sessions());
    let mut options = options(&folder, &capture(&unit.sent), &table);
    let done = check::run(&options).unwrap();
    assert_ne!(done.status, 0, "{}", done.text);
    options.no_repeats = true;
    assert_eq!(check::run(&options).unwrap().status, 0);
}

/// One control plane: the unit listens on another address than it answers as.
#[test]
fn one_control_plane() {
    let folder = Folder::new();
    let mut settings = settings();
    settings.peers[1] = second::settings::Peer { address: [0; 4], guarantee: 0, limit: 0 };
    let mut unit = Recorded::new(settings);
    unit.ask(1, &establishment(1, 1, &[create_pdr(1)]));
    let mut sent = unit.sent.clone();
    let mut options = options(&folder, &capture(&sent), &unit.table());
    options.peers = [vec![], vec![]];
    assert_eq!(check::run(&options).unwrap().status, 0);
    let other = Sent { to: socket("198.51.100.9:8805"), ..to_unit(1, &deletion(1, 2), 90) };
    sent.push(other);
    folder.write("capture", &capture(&sent));
    let fault = check::run(&options).err().unwrap();
    assert!(
        fault.ends_with(
            ": requests go to 192.0.2.1, 198.51.100.9: say with --peer1 which of them the unit has"
        ),
        "{fault}"
    );
    options.peers[0].push("192.0.2.1".parse().unwrap());
    assert_eq!(check::run(&options).unwrap().status, 0);
}

#[test]
fn the_command_line() {
    let read = |line: &str| {
        options::read(&line.split_whitespace().map(str::to_string).collect::<Vec<String>>())
    };
    for (line, fault) in [
        ("", "CAPTURE is needed (--help says how)"),
        ("c", "one of TABLE, --list and --unit is needed"),
        ("c t --list l", "only one of TABLE, --list and --unit may be given"),
        ("c --list l --unit u", "only one of TABLE, --list and --unit may be given"),
        ("c t more", "more: too many words"),
        ("c t --from", "--from needs a value"),
        ("c t --from f --empty", "--empty and --from exclude each other"),
        ("c t --peer1 x", "--peer1 x: not an IP address"),
        ("c t --peer2 192.0.2.1", "--peer2 needs --peer1"),
        ("c t --peer1 192.0.2.1 --peer2 192.0.2.1", "--peer1 and --peer2 have to differ"),
        ("c t --port 0", "--port 0: not a port from 1 to 65535"),
        ("c t --port 65536", "--port 65536: not a port from 1 to 65535"),
        ("c t --until -1", "--until -1: not a packet's number"),
        ("c t --wrong", "unknown option --wrong (--help lists them)"),
    ] {
        assert_eq!(read(line).err().as_deref(), Some(fault), "{line}");
    }
    assert_eq!(read("c --help"), Ok(Asked::Help));
    assert_eq!(read("--version"), Ok(Asked::Version));
    let Ok(Asked::Check(options)) =
        read("c --unit u --port 9 --until 7 --no-repeats --peer1 ::1 --peer1 ::2")
    else {
        panic!("these are good")
    };
    assert_eq!((options.port, options.until, options.no_repeats), (9, 7, true));
    assert_eq!((options.other, options.peers[0].len()), (Other::Unit("u".to_string()), 2));
}
