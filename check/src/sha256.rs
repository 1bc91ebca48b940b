//! SHA-256 (FIPS 180-4). It shares nothing with the library by which the unit works it out.

pub const LENGTH: usize = 32;

/// The first 32 bits of the fractional part of a root of a prime; the roots are exact in whole numbers.
fn fraction(prime: u128, is_cube: bool) -> u32 {
    // The root times 2^32, and of that the last 32 bits.
    let wanted = if is_cube { prime << 96 } else { prime << 64 };
    let power = |root: u128| if is_cube { root * root * root } else { root * root };
    let (mut root, mut step) = (0_u128, 1_u128 << 36);
    while step > 0 {
        if power(root + step) <= wanted {
            root += step;
        }
        step >>= 1;
    }
    (root & 0xFFFF_FFFF) as u32
}

fn primes() -> impl Iterator<Item = u128> {
    let is_prime = |number: &u128| {
        let mut others = (2..*number).take_while(|other| other * other <= *number);
        others.all(|other| number % other != 0)
    };
    (2..).filter(is_prime)
}

/// The eight first words and the 64 constants.
fn words() -> ([u32; 8], [u32; 64]) {
    let (mut first, mut constants) = ([0; 8], [0; 64]);
    for (place, prime) in primes().take(64).enumerate() {
        constants[place] = fraction(prime, true);
        if place < first.len() {
            first[place] = fraction(prime, false);
        }
    }
    (first, constants)
}

/// One block of 64 octets.
fn compress(state: &mut [u32; 8], constants: &[u32; 64], block: &[u8]) {
    let mut schedule = [0_u32; 64];
    for (word, octets) in schedule.iter_mut().zip(block.chunks_exact(4)) {
        *word = octets.iter().fold(0, |word, octet| word << 8 | u32::from(*octet));
    }
    for at in 16..64 {
        let (early, late) = (schedule[at - 15], schedule[at - 2]);
        let small = early.rotate_right(7) ^ early.rotate_right(18) ^ early >> 3;
        let large = late.rotate_right(17) ^ late.rotate_right(19) ^ late >> 10;
        let sum = schedule[at - 16].wrapping_add(small).wrapping_add(schedule[at - 7]);
        schedule[at] = sum.wrapping_add(large);
    }
    let [mut a, mut b, mut c, mut d, mut e, mut f, mut g, mut h] = *state;
    for (constant, word) in constants.iter().zip(schedule) {
        let of_e = e.rotate_right(6) ^ e.rotate_right(11) ^ e.rotate_right(25);
        let chosen = e & f ^ !e & g;
        let sum = h.wrapping_add(of_e).wrapping_add(chosen);
        let first = sum.wrapping_add(*constant).wrapping_add(word);
        let of_a = a.rotate_right(2) ^ a.rotate_right(13) ^ a.rotate_right(22);
        let second = of_a.wrapping_add(a & b ^ a & c ^ b & c);
        (h, g, f, e) = (g, f, e, d.wrapping_add(first));
        (d, c, b, a) = (c, b, a, first.wrapping_add(second));
    }
    for (word, more) in state.iter_mut().zip([a, b, c, d, e, f, g, h]) {
        *word = word.wrapping_add(more);
    }
}

pub fn digest(octets: &[u8]) -> [u8; LENGTH] {
    let (mut state, constants) = words();
    let blocks = octets.chunks_exact(64);
    let mut last = blocks.remainder().to_vec();
    for block in blocks {
        compress(&mut state, &constants, block);
    }
    last.push(0x80);
    last.resize((last.len() + 8).next_multiple_of(64) - 8, 0);
    last.extend((octets.len() as u64 * 8).to_be_bytes());
    for block in last.chunks_exact(64) {
        compress(&mut state, &constants, block);
    }
    let mut sum = [0; LENGTH];
    for (four, word) in sum.chunks_exact_mut(4).zip(state) {
        four.copy_from_slice(&word.to_be_bytes());
    }
    sum
}

#[cfg(test)]
mod tests {
    use super::*;

    fn hexadecimal(octets: &[u8]) -> String {
        digest(octets).iter().map(|octet| format!("{octet:02x}")).collect()
    }

    /// FIPS 180-4's examples and lengths around a block's end; by sha256sum.
    #[test]
    fn known_digests() {
        let long = "abcdbcdecdefdefgefghfghighijhijkijkljklmklmnlmnomnopnopq";
        for (octets, expected) in [
            (vec![], "e3b0c44298fc1c149afbf4c8996fb92427ae41e4649b934ca495991b7852b855"),
            (b"abc".to_vec(), "ba7816bf8f01cfea414140de5dae2223b00361a396177a9cb410ff61f20015ad"),
            (long.into(), "248d6a61d20638b8e5c026930c3e6039a33ce45964ff2167f6ecedd419db06c1"),
            (
                vec![b'a'; 1_000_000],
                "cdc76e5c9914fb9281a1c7e284d73e67f1809a48a497200e046d39ccc7112cd0",
            ),
            (vec![0; 55], "02779466cdec163811d078815c633f21901413081449002f24aa3e80f0b88ef7"),
            (vec![0; 56], "d4817aa5497628e7c77e6b606107042bbba3130888c5f47a375e6179be789fbb"),
            (vec![0; 63], "c7723fa1e0127975e49e62e753db53924c1bd84b8ac1ac08df78d09270f3d971"),
            (vec![0; 64], "f5a5fd42d16a20302798ef6ed309979b43003d2320d9f0e8ea9831a92759fb4b"),
            (vec![0; 119], "f616b0d54e78571a9611f343c9f8e022e859e920381ab0e4d3da01e193a7bd7e"),
            (vec![0; 120], "6edd9f6f9cc92cded36e6c4a580933f9c9f1b90562b46903b806f21902a1a54f"),
        ] {
            assert_eq!(hexadecimal(&octets), expected, "{} octets", octets.len());
        }
    }
}
