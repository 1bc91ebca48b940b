//! Damage to a store of repeated requests. Some of it leaves a sound store, which is meant.

use second::generate::random::Random;
use second::ie::LARGEST_MESSAGE;
use second::store::{encode, Entry, LARGEST_REPLY, LENGTH};

/// The octets of a store with these entries and one piece of damage. Its length may be another one.
pub fn spoil(entries: &[Entry], random: &mut Random) -> Vec<u8> {
    let mut entries = entries.to_vec();
    if entries.is_empty() || random.percent(5) {
        entries = vec![made_up(1, LARGEST_MESSAGE, 1), made_up(2, 20, LARGEST_REPLY)];
    }
    match random.below(12) {
        0..=3 => change_octets(encode(&entries), used(&entries), random),
        4 => {
            // Where every entry is the longest, the store has no room left.
            let longest = |number| made_up(number, LARGEST_MESSAGE, LARGEST_REPLY);
            let entries: Vec<Entry> = (1..=random.between(7, 8)).map(longest).collect();
            change_octets(encode(&entries), used(&entries), random)
        }
        _ => {
            change_an_entry(&mut entries, random);
            // An entry may have become longer than allowed.
            while used(&entries) > LENGTH {
                entries.remove(0);
            }
            encode(&entries)
        }
    }
}

/// A deletion of so many octets, 20 or more, with a reply of so many.
fn made_up(number: usize, octets: usize, reply: usize) -> Entry {
    let mut message = vec![0x21, 54];
    message.extend((octets as u16 - 4).to_be_bytes());
    message.extend([0, 0, 0, 0, 0, 0, 0, 5, 0, 0, number as u8, 0, 0x9C, 0x40]);
    message.extend((octets as u16 - 20).to_be_bytes());
    message.resize(octets, 7);
    Entry { message, reply: vec![number as u8; reply] }
}

/// How many octets the count and the entries take.
fn used(entries: &[Entry]) -> usize {
    1 + entries.iter().map(|entry| 4 + entry.message.len() + entry.reply.len()).sum::<usize>()
}

/// The length, the count, some octet, or a part cleared.
fn change_octets(mut store: Vec<u8>, used: usize, random: &mut Random) -> Vec<u8> {
    match random.below(8) {
        0 => store.resize(random.pick(&[0, 1, used, LENGTH - 1, LENGTH + 1]), 0),
        1 => store[0] = random.pick(&[store[0] - 1, store[0] + 1, 0, 8, 9, 16, 255]),
        2 => store[random.between(used - 1, LENGTH - 1)] ^= 1 << random.below(8),
        3 if used < LENGTH => store[random.pick(&[used, LENGTH - 1])] = 1,
        4 | 5 => {
            // The entries are cut off somewhere.
            let from = random.below(used);
            store[from..].fill(0);
        }
        _ => store[random.below(used)] = random.octet(),
    }
    store
}

fn change_an_entry(entries: &mut Vec<Entry>, random: &mut Random) {
    let (place, other) = (random.below(entries.len()), random.below(entries.len()));
    let changed = &mut entries[place];
    match random.below(11) {
        0 => changed.message = made_up(3, LARGEST_MESSAGE + 1, 1).message,
        1 => changed.message[1] = random.pick(&[0, 1, 13, 15, 49, 51, 53, 55, 56]),
        2 => changed.message[0] ^= random.pick(&[1, 2, 4, 8, 0x20, 0x40]),
        3 => changed.message[random.between(2, 3)] ^= 1,
        4 => drop(changed.message.drain(random.below(changed.message.len())..)),
        5 => changed.reply.clear(),
        6 => changed.reply.resize(LARGEST_REPLY + random.pick(&[0, 1, 2, 500]), 1),
        7 => changed.reply = vec![random.octet(); random.pick(&[1, 2, LARGEST_REPLY])],
        8 => entries[other].message = entries[place].message.clone(),
        9 => drop(entries.remove(place)),
        _ => entries.swap(place, other),
    }
}
