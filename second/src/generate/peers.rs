//! What the two peers of a unit have: their addresses, guarantees and limits.

use super::random::Random;
use crate::settings::Peer;

/// Two addresses that differ; one of them may be the unit's.
pub fn addresses(random: &mut Random, ipv4: [u8; 4]) -> [[u8; 4]; 2] {
    let mut near = ipv4;
    near[random.below(4)] ^= 1 << random.below(8);
    let mut pair =
        random.pick(&[[ipv4, near], [[198, 51, 100, 1], [198, 51, 100, 2]], [[0; 4], [255; 4]]]);
    random.shuffle(&mut pair);
    pair
}

/// Guarantees and limits of any size that a pool allows: none at all, all of it, and between.
pub fn any(random: &mut Random, ipv4: [u8; 4], size: u32) -> [Peer; 2] {
    let addresses = addresses(random, ipv4);
    let mut left = size;
    let mut peers = addresses.map(|address| {
        let some = random.below(left as usize + 1) as u32;
        let guarantee = random.pick(&[0, some, some, left / 3, left / 2, left]);
        left -= guarantee;
        let more = random.below((size - guarantee) as usize + 1) as u32;
        let limit = random.pick(&[guarantee, guarantee + more, guarantee + more, size, size]);
        Peer { address, guarantee, limit }
    });
    if random.percent(50) {
        peers.swap(0, 1);
    }
    peers
}

/// Each may take all that the other has not been guaranteed, which is nothing or little.
pub fn generous(random: &mut Random, ipv4: [u8; 4], size: u32) -> [Peer; 2] {
    let guarantee = random.pick(&[0, 0, size / 8]);
    addresses(random, ipv4).map(|address| Peer { address, guarantee, limit: size })
}

/// Peers that are not allowed for a pool of this size, for one reason alone.
pub fn refused(random: &mut Random, peers: [Peer; 2], size: u32) -> [Peer; 2] {
    let mut changed = peers;
    let at = random.below(2);
    match random.below(4) {
        0 => changed[at].address = peers[1 - at].address,
        1 => changed[at].limit = random.pick(&[size + 1, u32::MAX]),
        2 => {
            let limit = random.below(size as usize) as u32;
            changed[at] = Peer { guarantee: limit + 1, limit, ..peers[at] };
            changed[1 - at].guarantee = 0;
        }
        _ => {
            let guarantee = random.between(1, size as usize) as u32;
            let rest = size - guarantee + 1;
            changed[at] = Peer { guarantee, limit: size, ..peers[at] };
            changed[1 - at] = Peer { guarantee: rest, limit: size, ..peers[1 - at] };
        }
    }
    changed
}
