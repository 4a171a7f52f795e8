//! Messages, value lists and paths a little wrong.

use super::List;
use crate::random::Random;

/// Octets that begin or end a form.
const OCTETS: [u8; 14] = [0x00, 0x01, 0x02, 0x05, 0x3F, 0x7F, 0x80, 0x81, 0x82, 0x88, 0x89, 0xBF, 0xFE, 0xFF];

/// Cut, longer, a bit or an octet changed, an octet too many or missing. Once or twice.
pub fn octets(random: &mut Random, octets: &mut Vec<u8>) {
    for _ in 0..1 + random.below(2) {
        let at = if octets.is_empty() { 0 } else { near_front(random, octets.len()) };
        match random.below(10) {
            0 => octets.truncate(at),
            1 => octets.push(random.pick(&OCTETS)),
            2 | 3 if !octets.is_empty() => octets[at] ^= 1 << random.below(8),
            4 | 5 if !octets.is_empty() => octets[at] = random.pick(&OCTETS),
            6 if !octets.is_empty() => {
                octets.remove(at);
            }
            7 => drop(octets.splice(at..at, wide_number(random))),
            8 => drop(octets.splice(at..at, many(random))),
            _ => octets.insert(at, random.pick(&OCTETS)),
        }
    }
    if random.once_in(400) {
        octets.resize(random.pick(&[65_535, 65_536]), 0);
    }
}

/// A length and a number of seven to nine octets: the widest, one wider, or padded.
fn wide_number(random: &mut Random) -> Vec<u8> {
    let length = 7 + random.below(3);
    let first = random.pick(&[0x00, 0x01, 0x7F, 0x80, 0xFF]);
    let rest = random.pick(&[0x00, 0xFF]);
    let mut octets = vec![length as u8 | random.pick(&[0, 0, 128]), first];
    octets.resize(length + 1, rest);
    octets
}

/// A quantity next to 4,096, or one that no message backs.
fn many(random: &mut Random) -> Vec<u8> {
    match random.below(3) {
        0 => vec![8, 255, 255, 255, 255, 255, 255, 255, 255],
        _ => vec![2, random.pick(&[0x0F, 0x10]), random.pick(&[0x00, 0x01, 0xFC, 0xFD, 0xFE, 0xFF])],
    }
}

/// Heads of values are more often near the front.
fn near_front(random: &mut Random, length: usize) -> usize {
    if random.once_in(2) { random.below(length.min(6)) } else { random.below(length) }
}

/// A word or an octet changed, a node or contents too many or missing, an odd word.
pub fn list(random: &mut Random, list: &mut List) {
    let words = list.nodes.len();
    match random.below(10) {
        0 => list.nodes.push(random.below(3) as u64),
        1 => list.nodes.extend([random.below(13) as u64, random.below(3) as u64]),
        2 => list.nodes.truncate(words.saturating_sub(1 + random.below(3))),
        3 => list.contents.push(random.pick(&OCTETS)),
        4 => {
            list.contents.pop();
        }
        5 if !list.contents.is_empty() => {
            let at = random.below(list.contents.len());
            list.contents[at] = random.pick(&OCTETS);
        }
        6 if random.once_in(10) => list.contents.resize(random.pick(&[65_535, 65_536]), 65),
        7 if random.once_in(10) => list.nodes.resize(2 * random.pick(&[4096, 4097]), 0),
        _ if words > 0 => {
            let at = random.below(words);
            list.nodes[at] = other_word(random, list.nodes[at]);
        }
        _ => {}
    }
}

fn other_word(random: &mut Random, word: u64) -> u64 {
    let single_nan = 0x7FC0_0001;
    let double_nan = 0x7FF8_0000_0000_0001;
    random.pick(&[
        word.wrapping_add(1),
        word.wrapping_sub(1),
        word.wrapping_neg(),
        word ^ 256,
        word | 1 << 32,
        word | 1 << 63,
        0,
        1,
        2,
        127,
        128,
        single_nan,
        double_nan,
        u64::MAX,
    ])
}

/// A step changed, too many or missing.
pub fn path(random: &mut Random, path: &mut Vec<u64>) {
    let step = random.pick(&[0, 1, 2, 9, 255, 1 << 32, u64::MAX]);
    match random.below(3) {
        0 => path.push(step),
        1 => {
            path.pop();
        }
        _ if !path.is_empty() => {
            let at = random.below(path.len());
            path[at] = step;
        }
        _ => path.push(step),
    }
}
