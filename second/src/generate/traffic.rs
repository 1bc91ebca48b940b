//! The traffic of a peer that numbers its requests and sends some of them again. It gives generated
//! messages their numbers; which of them were stored it is told by whoever drives it.

use super::plan::SET_DELETION;
use super::random::Random;
use super::Call;
use crate::ie::LEAST_REPLY_SPACE;

/// How many stored messages are remembered: those that are in a store, and as many that are not any
/// more.
const REMEMBERED: usize = 16;

/// Differences from the last number at the edges of what is newer.
const NEWER: [u32; 6] = [1, 1, 1, 2, 100, 8_388_607];
const NOT_NEWER: [u32; 5] = [0, 8_388_608, 8_388_609, (1 << 24) - 1, (1 << 24) - 2];

#[derive(Clone, Debug)]
pub struct Traffic {
    /// The number of the message stored last.
    last: u32,
    /// The messages stored last, the newest at the end.
    stored: Vec<Vec<u8>>,
}

impl Traffic {
    /// At first near the end of the numbers, so that a sequence wraps around.
    pub fn new(random: &mut Random) -> Traffic {
        Traffic { last: (1 << 24) - 1 - random.below(60) as u32, stored: vec![] }
    }

    /// The next call, made of a generated one.
    pub fn call(&mut self, random: &mut Random, mut generated: Call) -> Call {
        match random.below(100) {
            _ if self.stored.is_empty() => self.renumber(&mut generated.message, 1),
            0..=44 => {
                let any = 1 + random.below(8_388_607) as u32;
                let step = if random.percent(10) { any } else { random.pick(&NEWER) };
                self.renumber(&mut generated.message, step);
            }
            45..=74 => generated.message = random.pick(&self.stored),
            75..=84 => {
                let step = random.pick(&NOT_NEWER);
                self.renumber(&mut generated.message, step);
            }
            85..=94 => generated.message = self.nearly_a_repeat(random),
            _ => {}
        }
        if random.percent(6) {
            generated.reply_space = random.pick(&[0, 1, LEAST_REPLY_SPACE - 1]);
        }
        generated
    }

    /// A message that was stored: whoever drives this tells.
    pub fn was_stored(&mut self, message: &[u8]) {
        self.last = place_of_number(message)
            .map_or(0, |at| u32::from_be_bytes([0, message[at], message[at + 1], message[at + 2]]));
        self.stored.push(message.to_vec());
        if self.stored.len() > REMEMBERED {
            self.stored.remove(0);
        }
    }

    /// Writes the last number plus a step; too short a message has no number.
    fn renumber(&self, message: &mut [u8], step: u32) {
        if let Some(at) = place_of_number(message) {
            message[at..at + 3].copy_from_slice(&(self.last + step).to_be_bytes()[1..]);
        }
    }

    /// A stored message with one octet changed: with the same number, or with one near it.
    fn nearly_a_repeat(&self, random: &mut Random) -> Vec<u8> {
        let mut message = random.pick(&self.stored);
        let header = if message[1] == SET_DELETION { 8 } else { 16 };
        let at = match random.below(4) {
            0 => header - 2,
            1 => header - 1,
            2 => message.len() - 1,
            _ => random.below(message.len()),
        };
        message[at] ^= 1 << random.below(8);
        message
    }
}

/// Where a message's number stands.
fn place_of_number(message: &[u8]) -> Option<usize> {
    let at = if message.get(1) == Some(&SET_DELETION) { 4 } else { 12 };
    (message.len() >= at + 4).then_some(at)
}
