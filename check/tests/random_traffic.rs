//! Generated traffic of both peers, with repeats, damaged and dropped requests: a true table is the same, a table
//! with a lie is not, and packets that are missing are never taken for sameness.

mod common;

use common::*;
use second::generate::random::Random;
use second::generate::traffic::Traffic;
use second::generate::{Call, Generator};
use second::repeats::Way;
use second::session::{Key, Local, Sessions};

const SEQUENCES: u64 = 12;
const CALLS: usize = 150;

/// A sequence of generated requests of both peers, with the live sets on the way.
fn record(generator: &mut Generator, random: &mut Random) -> (Recorded, Vec<Sessions>) {
    let mut scenario = generator.scenario();
    let mut recorded = Recorded::new(scenario.settings.clone());
    let mut traffic = [Traffic::new(random), Traffic::new(random)];
    let mut past = vec![Sessions::new()];
    for _ in 0..CALLS {
        let live = recorded.unit.sessions().clone();
        let Call { peer, message, .. } = generator.call(&mut scenario, &live);
        let Some(own @ (1 | 2)) = usize::try_from(peer).ok() else { continue };
        let call = Call { peer, message, reply_space: 1280 };
        let message = traffic[own - 1].call(random, call).message;
        let (way, _) = recorded.ask(own, &message);
        if way == Way::Engine {
            traffic[own - 1].was_stored(&message);
        }
        if *recorded.unit.sessions() != live {
            past.push(recorded.unit.sessions().clone());
        }
    }
    (recorded, past)
}

/// A lie about what lives: another live set, in which something is made up, left out, left over or changed.
fn lie(random: &mut Random, recorded: &Recorded, past: &[Sessions]) -> Sessions {
    let truth = recorded.unit.sessions();
    loop {
        let mut told = truth.clone();
        let keys: Vec<Key> = told.keys().copied().collect();
        match random.below(6) {
            // Left over: the live set of before, or a session, or a record of one.
            0 => told = random.pick(past),
            1 => {
                let before = random.pick(past);
                let gone = before.into_iter().find(|(key, _)| !truth.contains_key(key));
                if let Some((key, session)) = gone {
                    if told.len() < recorded.unit.settings().session_limit.into() {
                        told.insert(key, session);
                    }
                }
            }
            2 => {
                for (key, session) in random.pick(past) {
                    if let Some(own) = told.get_mut(&key) {
                        let gone =
                            session.pdrs.into_iter().find(|(id, _)| !own.pdrs.contains_key(id));
                        if let Some((id, pdr)) = gone.filter(|_| own.pdrs.len() < 16) {
                            own.pdrs.insert(id, pdr);
                            break;
                        }
                    }
                }
            }
            // Left out.
            3 if !keys.is_empty() => {
                told.remove(&random.pick(&keys));
            }
            // Changed.
            4 if !keys.is_empty() => {
                let session = told.get_mut(&random.pick(&keys)).unwrap();
                if let Some(pdr) = session.pdrs.values_mut().next() {
                    match random.below(4) {
                        0 => pdr.precedence ^= 1 << random.below(32),
                        1 => pdr.far_id = pdr.far_id.map_or(Some(7), |_| None),
                        2 => pdr.address = pdr.address.map_or("10.0.0.1".parse().ok(), |_| None),
                        _ => pdr.local = Local::Neither,
                    }
                }
            }
            5 if !keys.is_empty() => {
                let session = told.get_mut(&random.pick(&keys)).unwrap();
                match random.below(2) {
                    0 => session.fq_csids.clear(),
                    _ => session.endpoints.clear(),
                }
            }
            _ => {}
        }
        if told != *truth {
            return told;
        }
    }
}

#[test]
fn a_true_table_is_the_same_and_lies_are_found() {
    let (mut generator, mut random) = (Generator::new(7), Random::new(8));
    let folder = Folder::new();
    for _ in 0..SEQUENCES {
        let (recorded, past) = record(&mut generator, &mut random);
        let file = capture(&recorded.sent);
        let done = check(&folder, &file, &recorded.table());
        assert_eq!(done.status, 0, "{}", done.text);
        assert!(
            done.text.ends_with("the same: the table has what lives by the wire\n"),
            "{}",
            done.text
        );
        for _ in 0..8 {
            let told = lie(&mut random, &recorded, &past);
            let done = check(&folder, &file, &recorded.file(&told));
            assert_eq!(done.status, 1, "{}", done.text);
            assert!(
                done.text.contains("\ndifferent: ") && done.text.contains("\n    since packet "),
                "{}",
                done.text
            );
        }
    }
}

/// With one packet missing a true table is never called different, and a lie never the same.
#[test]
fn a_packet_that_is_missing() {
    let (mut generator, mut random) = (Generator::new(17), Random::new(18));
    let folder = Folder::new();
    let mut counts = [0; 4];
    for _ in 0..SEQUENCES {
        let (recorded, tables) = count(&mut generator, &mut random);
        let past: Vec<Sessions> =
            tables.iter().map(|(_, table)| check::stored::read(table).unwrap().sessions).collect();
        for _ in 0..20 {
            let mut sent = recorded.sent.clone();
            sent.remove(random.below(sent.len()));
            let file = capture(&sent);
            let done = check(&folder, &file, &recorded.table());
            assert!(matches!(done.status, 0 | 3), "{}", done.text);
            counts[usize::from(done.status)] += 1;
            let told = lie(&mut random, &recorded, &past);
            let done = check(&folder, &file, &recorded.file(&told));
            assert!(matches!(done.status, 1 | 3), "{}", done.text);
        }
    }
    assert!(counts[0] > 20 && counts[3] > 20, "{counts:?}");
}

/// Traffic of peers that count their requests one by one and repeat some: a table before each request.
fn count(generator: &mut Generator, random: &mut Random) -> (Recorded, Vec<(usize, Vec<u8>)>) {
    let mut scenario = generator.scenario();
    let mut recorded = Recorded::new(scenario.settings.clone());
    let (mut numbers, mut tables) = ([1_u32; 2], Vec::new());
    for _ in 0..CALLS {
        let live = recorded.unit.sessions().clone();
        let Call { peer, mut message, .. } = generator.call(&mut scenario, &live);
        let Some(own @ (1 | 2)) = usize::try_from(peer).ok() else { continue };
        let at = if message.get(1) == Some(&14) { 4 } else { 12 };
        if message.len() < at + 4 {
            continue;
        }
        message[at..at + 3].copy_from_slice(&numbers[own - 1].to_be_bytes()[1..]);
        numbers[own - 1] += 1;
        match random.below(10) {
            0 | 1 if !recorded.stores[own - 1].is_empty() => {
                message = random.pick(&recorded.stores[own - 1]).message;
            }
            // An old number, which is dropped.
            2 => message[at] = 0xFF,
            _ => {}
        }
        tables.push((recorded.sent.len(), recorded.table()));
        recorded.ask(own, &message);
    }
    (recorded, tables)
}

/// A reply that was captured before its request.
#[test]
fn packets_in_another_order() {
    let (mut generator, mut random) = (Generator::new(27), Random::new(28));
    let folder = Folder::new();
    for _ in 0..SEQUENCES {
        let (recorded, _) = count(&mut generator, &mut random);
        let mut sent = recorded.sent.clone();
        for at in (1..sent.len()).filter(|at| at % 3 == 0) {
            if sent[at - 1].to == sent[at].from && sent[at - 1].from == sent[at].to {
                sent.swap(at - 1, at);
            }
        }
        let file = capture(&sent);
        let done = check(&folder, &file, &recorded.table());
        assert_eq!(done.status, 0, "{}", done.text);
        let told = lie(&mut random, &recorded, &[Sessions::new()]);
        assert_eq!(check(&folder, &file, &recorded.file(&told)).status, 1);
    }
}

/// A table that was copied during the capture is the same at the packet that is said, of both peers.
#[test]
fn a_table_that_was_copied_before_the_end() {
    let (mut generator, mut random) = (Generator::new(47), Random::new(48));
    let folder = Folder::new();
    let mut told = 0;
    for _ in 0..SEQUENCES {
        let (recorded, tables) = count(&mut generator, &mut random);
        let file = capture(&recorded.sent);
        for _ in 0..8 {
            let (_, table) = random.pick(&tables[10..]);
            let mut options = options(&folder, &file, &table);
            let text = check::run(&options).unwrap().text;
            let Some((_, rest)) = text.split_once(" compare with --until ") else { continue };
            options.until = rest.lines().next().unwrap().parse().unwrap();
            let done = check::run(&options).unwrap();
            assert_eq!(done.status, 0, "{}", done.text);
            told += 1;
        }
    }
    assert!(told > 40, "{told}");
}

/// A capture that began late, with the table of that moment, or with one copied a little later.
#[test]
fn a_capture_that_began_late() {
    let (mut generator, mut random) = (Generator::new(37), Random::new(38));
    let folder = Folder::new();
    for _ in 0..SEQUENCES {
        let (recorded, tables) = count(&mut generator, &mut random);
        let place = random.below(tables.len() - 6);
        let (first, _) = tables[place];
        let file = capture(&recorded.sent[first..]);
        for later in [0, 1, 3, 5] {
            let mut options = options(&folder, &file, &recorded.table());
            options.empty = false;
            options.from = Some(folder.write("table0", &tables[place + later].1));
            let done = check::run(&options).unwrap();
            assert_eq!(done.status, 0, "{}", done.text);
        }
        let mut options = options(&folder, &file, &recorded.table());
        options.empty = false;
        let done = check::run(&options).unwrap();
        assert!(matches!(done.status, 0 | 3), "{}", done.text);
    }
}
