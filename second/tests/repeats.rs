//! 02 (xi): "Repeated requests get the old reply." Sentence by sentence, and the readings of it.

mod common;

use common::*;
use second::generate::random::Random;
use second::generate::traffic::Traffic;
use second::generate::{Call, Generator};
use second::ie::{LARGEST_MESSAGE, LEAST_REPLY_SPACE};
use second::live::LiveSet;
use second::repeats::{is_newer, request_once, way_of, Way};
use second::store::{self, Broken, Entry, LARGEST_REPLY, LENGTH, MOST_ENTRIES};
use second::unit::{Outcome, Unit};

const LAST_NUMBER: u32 = (1 << 24) - 1;

/// A unit and its store, with what a call may not change.
#[derive(Clone, PartialEq, Debug)]
struct Served {
    unit: Unit,
    entries: Vec<Entry>,
}

impl Served {
    fn new() -> Served {
        Served { unit: unit(4096, 64), entries: vec![] }
    }

    /// A store with requests of these numbers.
    fn with(numbers: &[u32]) -> Served {
        let mut served = Served::new();
        for number in numbers {
            assert_eq!(served.ask(&numbered(*number)).0, Way::Engine, "number {number}");
        }
        served
    }

    /// A call with the least reply space; the reply, and the space after it as it was.
    fn ask(&mut self, message: &[u8]) -> (Way, u8, usize, Vec<u8>) {
        let mut space = vec![0xEE; LEAST_REPLY_SPACE + 1];
        let (way, outcome) =
            request_once(&mut self.unit, 1, &mut self.entries, message, &mut space);
        let Outcome { number, reply_length, place } = outcome;
        assert!(space[reply_length..].iter().all(|octet| *octet == 0xEE), "space after the reply");
        space.truncate(reply_length);
        assert_eq!(store::sound(&store::encode(&self.entries)), Ok(self.entries.clone()));
        (way, number, place, space)
    }

    /// A call that is dropped, with nothing changed.
    fn drops(&mut self, message: &[u8]) {
        let before = self.clone();
        assert_eq!(self.ask(message), (Way::Dropped, 6, 0, vec![]));
        assert_eq!(*self, before);
    }

    /// A repeat, with nothing changed; its reply.
    fn repeats(&mut self, message: &[u8]) -> Vec<u8> {
        let before = self.clone();
        let (way, number, place, reply) = self.ask(message);
        assert_eq!((way, number, place), (Way::Repeat, 0, 0));
        assert_eq!(*self, before);
        reply
    }

    /// A request that the unit is asked: what it answers, and the message and the reply stored.
    fn reaches_the_unit(&mut self, message: &[u8]) -> Vec<u8> {
        let mut alone = self.unit.clone();
        let mut space = vec![0xEE; LEAST_REPLY_SPACE + 1];
        let expected = alone.request(1, message, &mut space);
        let (way, number, place, reply) = self.ask(message);
        assert_eq!((way, number, place), (Way::Engine, expected.number, expected.place));
        assert_eq!(reply, space[..expected.reply_length]);
        assert_eq!(self.unit, alone);
        let newest = Entry { message: message.to_vec(), reply: reply.clone() };
        assert_eq!(self.entries.last(), Some(&newest));
        reply
    }
}

/// An establishment of a session of its own by its number, which gets a TEID.
fn numbered(number: u32) -> Vec<u8> {
    message(50, 0, number, &[f_seid(1 + u64::from(number)), create_pdr(1, &[choose()])])
}

/// A request that is refused with a fault at a place: a Create PDR without its members.
fn faulty(number: u32) -> Vec<u8> {
    message(50, 0, number, &[f_seid(1), create_pdr(1, &[]), group(1, &[])])
}

#[test]
fn newer_and_not() {
    for last in [0, 1, 5, 8_388_607, 8_388_608, 12_345_678, LAST_NUMBER - 1, LAST_NUMBER] {
        let after = |difference: u32| (last + difference) & LAST_NUMBER;
        for difference in [1, 2, 4_000_000, 8_388_606, 8_388_607] {
            assert!(is_newer(after(difference), last), "{difference} after {last}");
            assert!(!is_newer(last, after(difference)), "{difference} before {last}");
        }
        for difference in [0, 8_388_608, 8_388_609, LAST_NUMBER] {
            assert!(!is_newer(after(difference), last), "{difference} after {last}");
        }
    }
}

/// "Equal octets get the stored reply, with place 0 under (iv), and change nothing."
#[test]
fn equal_octets() {
    let mut served = Served::new();
    let first = served.reaches_the_unit(&numbered(7));
    assert_eq!(verdict(&first), (1, None));
    assert_eq!(created(&first, 8), [(1, 4096)]);
    for _ in 0..3 {
        assert_eq!(served.repeats(&numbered(7)), first);
    }
    // Without a store it is a session that exists already.
    assert_eq!(verdict(&reply(&mut served.unit.clone(), &numbered(7))), (64, None));
    // The session's deletion changes nothing in the old reply, and a repeat makes no session again.
    let gone = served.reaches_the_unit(&message(54, 8, 8, &[]));
    assert_eq!(verdict(&gone), (1, None));
    assert_eq!(served.repeats(&numbered(7)), first);
    assert_eq!(served.repeats(&message(54, 8, 8, &[])), gone);
    assert!(served.unit.sessions().is_empty());
}

/// Refused requests are stored too; their repeats have place 0.
#[test]
fn refused_requests() {
    let mut served = Served::new();
    let (way, number, place, refusal) = served.ask(&faulty(1));
    assert_eq!((way, number), (Way::Engine, 0));
    assert!(place > 16, "the place of the fault");
    assert_eq!(verdict(&refusal).0, 66);
    assert_eq!(served.repeats(&faulty(1)), refusal);
    let unknown = message(52, 99, 2, &[]);
    let refusal = served.reaches_the_unit(&unknown);
    assert_eq!(verdict(&refusal).0, 65);
    assert_eq!(served.reaches_the_unit(&numbered(98)), served.repeats(&numbered(98)));
    // The session is there now, and the old refusal stays.
    assert_eq!(served.repeats(&unknown), refusal);
    assert_eq!(served.entries.len(), 3);
}

/// A repeat is one by its octets, not by its number.
#[test]
fn equal_numbers() {
    let mut served = Served::with(&[1, 2, 3]);
    served.drops(&message(54, 4, 3, &[]));
    served.drops(&message(54, 4, 2, &[]));
    // Octets count that nothing reads: the spare one, and spare bits of the first.
    for at in [0, 15] {
        let mut other = numbered(3);
        other[at] ^= 8;
        served.drops(&other);
    }
    // Longer by an element that is skipped.
    let longer = message(50, 0, 3, &[f_seid(4), create_pdr(1, &[choose()]), ie(40000, &[])]);
    served.drops(&longer);
    assert!(served.repeats(&numbered(1)).len() > 16);
}

/// "Otherwise a number is newer when its wrapping 24-bit difference from the last one is 1 to
/// 8,388,607; newer goes to the engine, and the rest is dropped".
#[test]
fn differences() {
    for last in [0, 1000, 8_388_608, LAST_NUMBER] {
        let after = |difference: u32| (last + difference) & LAST_NUMBER;
        let served = Served::with(&[last]);
        for difference in [1, 2, 8_388_606, 8_388_607] {
            served.clone().reaches_the_unit(&message(54, 5, after(difference), &[]));
        }
        for difference in [0, 8_388_608, 8_388_609, LAST_NUMBER - 1, LAST_NUMBER] {
            served.clone().drops(&message(54, 5, after(difference), &[]));
        }
    }
    // Past the end of the numbers and on.
    let mut served = Served::with(&[LAST_NUMBER - 1, LAST_NUMBER, 0, 1]);
    served.drops(&message(54, 5, LAST_NUMBER, &[]));
    assert_eq!(served.repeats(&numbered(LAST_NUMBER)), served.entries[1].reply);
}

/// "The last one" is the entry stored last: neither a repeat nor a dropped request moves it.
#[test]
fn the_last_number() {
    let mut served = Served::with(&[10, 20]);
    served.repeats(&numbered(10));
    served.drops(&message(54, 5, 15, &[]));
    served.drops(&message(54, 5, 20 + 8_388_608, &[]));
    served.drops(&message(54, 5, 20, &[]));
    served.reaches_the_unit(&message(54, 5, 21, &[]));
    served.drops(&message(54, 6, 21, &[]));
    // What the unit does not read moves nothing either.
    let before = served.clone();
    let mut other_type = message(56, 5, 1000, &[]);
    assert_eq!(served.ask(&other_type).1, 5);
    other_type[0] = 0x41;
    assert_eq!(served.ask(&other_type).1, 4);
    assert_eq!(served, before);
    served.reaches_the_unit(&message(54, 5, 22, &[]));
}

/// One stream of numbers for all types; type 14's stands in its own header.
#[test]
fn numbers_of_set_deletions() {
    let mut served = Served::with(&[10]);
    served.drops(&plain_message(14, 10, &[]));
    served.drops(&plain_message(14, 9, &[]));
    // Where another header's number stands there is an element here: it is not one.
    let listed = plain_message(14, 11, &[fq_csid(5, 1)]);
    let reply = served.reaches_the_unit(&listed);
    assert_eq!(reply[1], 15);
    assert_eq!(served.repeats(&listed), reply);
    served.drops(&numbered(11));
    served.drops(&plain_message(14, 11, &[]));
    served.reaches_the_unit(&numbered(12));
    served.reaches_the_unit(&plain_message(14, 13, &[]));
}

/// "An empty store takes any number."
#[test]
fn an_empty_store() {
    for number in [0, 1, 8_388_607, 8_388_608, 8_388_609, LAST_NUMBER] {
        Served::new().reaches_the_unit(&numbered(number));
        Served::new().reaches_the_unit(&plain_message(14, number, &[]));
    }
}

/// "the last eight replied requests": the oldest goes, and sent again it is dropped.
#[test]
fn eight_entries() {
    let mut served = Served::new();
    for number in 1..=MOST_ENTRIES as u32 {
        served.reaches_the_unit(&numbered(number));
    }
    for number in 1..=8 {
        served.repeats(&numbered(number));
    }
    served.reaches_the_unit(&numbered(9));
    assert_eq!(served.entries.len(), MOST_ENTRIES);
    served.drops(&numbered(1));
    for number in 2..=9 {
        served.repeats(&numbered(number));
    }
    // A repeat does not keep its entry from going.
    served.repeats(&numbered(2));
    served.reaches_the_unit(&numbered(10));
    served.drops(&numbered(2));
    let order: Vec<Vec<u8>> = served.entries.iter().map(|entry| entry.message.clone()).collect();
    assert_eq!(order, (3..=10).map(numbered).collect::<Vec<_>>());
    // Out of the store and newer again by the wrapping difference, it is a new request.
    let far = 3 + 8_388_607;
    served.reaches_the_unit(&message(54, 5, far, &[]));
    served.reaches_the_unit(&message(54, 5, far + 8_388_607, &[]));
    served.reaches_the_unit(&numbered(2));
}

/// Outcomes 2 to 5 come before the stored reply and before 6; they are the unit's own.
#[test]
fn order_of_outcomes() {
    let mut served = Served::with(&[5]);
    let before = served.clone();
    let mut outcome = |message: &[u8], length: usize| {
        let mut space = vec![0xEE; length];
        let (way, outcome) =
            request_once(&mut served.unit, 1, &mut served.entries, message, &mut space);
        assert!(space.iter().all(|octet| *octet == 0xEE));
        assert_eq!(served, before);
        assert_eq!((way == Way::Dropped, outcome.reply_length), (outcome.number == 6, 0));
        outcome.number
    };
    // A repeat in too small a space is 2, and so is an old number.
    for length in [0, 16, LEAST_REPLY_SPACE - 1] {
        assert_eq!(outcome(&numbered(5), length), 2);
        assert_eq!(outcome(&numbered(4), length), 2);
        assert_eq!(outcome(&[], length), 2);
    }
    let mut long = message(54, 5, 4, &[ie(40000, &[0; LARGEST_MESSAGE - 19])]);
    assert_eq!(long.len(), LARGEST_MESSAGE + 1);
    assert_eq!(outcome(&long, LEAST_REPLY_SPACE), 3);
    long.pop();
    assert_eq!(outcome(&long, LEAST_REPLY_SPACE), 4);
    assert_eq!(outcome(&message(56, 5, 4, &[]), LEAST_REPLY_SPACE), 5);
    assert_eq!(outcome(&message(54, 5, 4, &[]), LEAST_REPLY_SPACE), 6);
}

/// A reply of the greatest length is given whole.
#[test]
fn the_longest_entries() {
    let longest =
        |number: u32| message(54, 5, number, &[ie(40000, &[number as u8; LARGEST_MESSAGE - 20])]);
    let entry = |number| Entry { message: longest(number), reply: vec![7; LARGEST_REPLY] };
    let mut served = Served::new();
    served.entries = (1..=8).map(entry).collect();
    let octets = store::encode(&served.entries);
    assert_eq!((octets.len(), octets.last()), (LENGTH, Some(&7)));
    assert_eq!(served.repeats(&longest(1)), vec![7; LARGEST_REPLY]);
    served.reaches_the_unit(&longest(9));
    assert_eq!(served.entries[0].message, longest(2));
}

/// Entries of a store with their octets, to be spoiled.
fn two_entries() -> (Vec<Entry>, Vec<u8>) {
    let entry = |number: u32| Entry { message: numbered(number), reply: vec![number as u8; 20] };
    let entries = vec![entry(1), entry(2)];
    let octets = store::encode(&entries);
    (entries, octets)
}

#[test]
fn octets_of_a_store() {
    assert_eq!(LENGTH, 26_657);
    assert_eq!(store::encode(&[]), vec![0; LENGTH]);
    assert_eq!(store::sound(&[0; LENGTH]), Ok(vec![]));
    let message = hex("20 0E 00 04 00 00 09 00");
    let octets = store::encode(&[Entry { message, reply: vec![0xAB] }]);
    assert_eq!(octets[..15], hex("01 00 08 20 0E 00 04 00 00 09 00 00 01 AB 00"));
    assert!(octets[15..].iter().all(|octet| *octet == 0));
    let (entries, octets) = two_entries();
    assert_eq!(store::sound(&octets), Ok(entries));
}

/// "It is broken exactly when ..", case by case.
#[test]
fn broken_stores() {
    let (entries, octets) = two_entries();
    let broken = |change: &dyn Fn(&mut Vec<u8>)| {
        let mut changed = octets.clone();
        change(&mut changed);
        store::sound(&changed).err()
    };
    assert_eq!(broken(&|_| ()), None);
    // "its length is wrong"
    assert_eq!(store::sound(&[]), Err(Broken::Length));
    assert_eq!(broken(&|store| store.push(0)), Some(Broken::Length));
    assert_eq!(broken(&|store| store.truncate(LENGTH - 1)), Some(Broken::Length));
    // "it counts more than eight", also where none of them is there
    for count in [9, 10, 255] {
        assert_eq!(broken(&|store| store[0] = count), Some(Broken::Count));
    }
    assert_eq!(store::sound(&[vec![9], vec![0; LENGTH - 1]].concat()), Err(Broken::Count));
    // A count that is not that of its entries.
    assert_eq!(broken(&|store| store[0] = 1), Some(Broken::Room));
    assert_eq!(broken(&|store| store[0] = 0), Some(Broken::Room));
    assert_eq!(broken(&|store| store[0] = 3), Some(Broken::Message(4)));
    // "unused room isn't zero"
    let used = 1 + entries.iter().map(|e| 4 + e.message.len() + e.reply.len()).sum::<usize>();
    assert_eq!(octets[used - 1], 2);
    for at in [used, used + 1, LENGTH - 1] {
        assert_eq!(broken(&|store| store[at] = 1), Some(Broken::Room));
    }
    // An entry's octets: any in a reply and in a message's body are sound.
    assert_eq!(broken(&|store| store[used - 1] = 0), None);
    assert_eq!(broken(&|store| store[3 + 16] = 0xFF), None);
}

fn of(entries: &[(Vec<u8>, Vec<u8>)]) -> Result<usize, Broken> {
    let entry = |(message, reply): &(Vec<u8>, Vec<u8>)| Entry {
        message: message.clone(),
        reply: reply.clone(),
    };
    let entries: Vec<Entry> = entries.iter().map(entry).collect();
    store::sound(&store::encode(&entries)).map(|found| {
        assert_eq!(found, entries);
        found.len()
    })
}

#[test]
fn broken_entries() {
    let sound = |number| (numbered(number), vec![1]);
    // "an entry's message would get one of outcomes 3 to 5", at any place
    let long = |octets: usize| message(54, 5, 4, &[ie(40000, &vec![0; octets - 20])]);
    let mut version = numbered(3);
    version[0] = 0x41;
    let mut set_with_seid = plain_message(14, 3, &[]);
    set_with_seid[0] |= 1;
    let mut length = numbered(3);
    length.push(0);
    for place in 0..3 {
        let among = |message: &[u8], reply: &[u8]| {
            let mut all = vec![sound(1), sound(2), sound(4)];
            all[place] = (message.to_vec(), reply.to_vec());
            of(&all)
        };
        assert_eq!(among(&long(LARGEST_MESSAGE), &[1]), Ok(3));
        assert_eq!(among(&long(LARGEST_MESSAGE + 1), &[1]), Err(Broken::Message(3)));
        assert_eq!(among(&[], &[1]), Err(Broken::Message(4)));
        assert_eq!(among(&numbered(3)[..15], &[1]), Err(Broken::Message(4)));
        assert_eq!(among(&version, &[1]), Err(Broken::Message(4)));
        assert_eq!(among(&set_with_seid, &[1]), Err(Broken::Message(4)));
        assert_eq!(among(&length, &[1]), Err(Broken::Message(4)));
        assert_eq!(among(&message(56, 1, 3, &[]), &[1]), Err(Broken::Message(5)));
        assert_eq!(among(&plain_message(14, 3, &[]), &[1]), Ok(3));
        // "an entry's reply is empty or over" the limit
        assert_eq!(among(&numbered(3), &[]), Err(Broken::EmptyReply));
        assert_eq!(among(&numbered(3), &[0; LARGEST_REPLY]), Ok(3));
        assert_eq!(among(&numbered(3), &[0; LARGEST_REPLY + 1]), Err(Broken::LongReply));
    }
    // "two entries' messages are equal", neighbours or not, whatever their replies
    assert_eq!(of(&[sound(1), sound(1)]), Err(Broken::EqualMessages));
    assert_eq!(of(&[sound(1), sound(2), (numbered(1), vec![2])]), Err(Broken::EqualMessages));
    // Equal numbers, descending ones and equal replies are sound; nothing is asked of a reply's octets.
    assert_eq!(of(&[sound(3), sound(2), (message(54, 9, 2, &[]), vec![0])]), Ok(3));
    let eight: Vec<_> = (1..=8).map(sound).collect();
    assert_eq!(of(&eight), Ok(8));
    // A length past everything that is there.
    let mut store = store::encode(&[Entry { message: numbered(1), reply: vec![1] }]);
    store[1] = 0xFF;
    assert_eq!(store::sound(&store), Err(Broken::Message(3)));
}

/// Generated traffic of both peers, each with its store: the host can tell repeats and drops from
/// messages and outcomes alone, the live set is that of the requests that reached the unit, and no
/// stored message reaches it twice.
#[test]
fn traffic() {
    let mut random = Random::new(7);
    let mut generator = Generator::new(7);
    let mut ways = [0; 5];
    for _ in 0..12 {
        let mut scenario = generator.scenario();
        let mut unit = Unit::new(scenario.settings.clone()).unwrap();
        let mut stores = [vec![], vec![]];
        let (mut live, mut told) = (LiveSet::new(), [Vec::<Vec<u8>>::new(), vec![]]);
        let mut traffic = [Traffic::new(&mut random), Traffic::new(&mut random)];
        for _ in 0..scenario.calls {
            let generated = generator.call(&mut scenario, &live.sessions);
            // Where there is no such peer any store is lent.
            let of = usize::from(generated.peer == 2);
            let Call { peer, message, reply_space } = traffic[of].call(&mut random, generated);
            let known = told[of].iter().rev().take(MOST_ENTRIES).any(|stored| *stored == message);
            let way = way_of(peer, &stores[of], &message, reply_space);
            let mut space = vec![0; reply_space];
            let before = (unit.clone(), stores.clone());
            let (met, outcome) =
                request_once(&mut unit, peer, &mut stores[of], &message, &mut space);
            assert_eq!(met, way);
            ways[way as usize] += 1;
            let reached = outcome.number == 0 && !known;
            assert_eq!(reached, way == Way::Engine);
            if reached {
                live.follow(peer, &message, 0, &space[..outcome.reply_length]).unwrap();
                traffic[of].was_stored(&message);
                told[of].push(message);
                assert_eq!(stores[1 - of], before.1[1 - of], "the other peer's store");
            } else {
                assert_eq!((&unit, &stores), (&before.0, &before.1));
            }
            assert_eq!(live.sessions, *unit.sessions());
            assert!(store::sound(&store::encode(&stores[of])).is_ok());
        }
    }
    assert!(ways.iter().all(|count| *count > 20), "{ways:?}");
}
