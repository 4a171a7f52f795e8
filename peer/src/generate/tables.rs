//! Tables near the edges of the rules; most are sound.

use crate::builder::Builder;
use crate::random::Random;
use crate::table::{ITEM_WORDS, Mark, ROW_WORDS, Table, Type};

/// Numbers next to which an INTEGER's width or an octet count changes.
pub const EDGES: [i128; 24] = [
    0,
    1,
    5,
    62,
    63,
    127,
    128,
    129,
    255,
    256,
    32_767,
    32_768,
    65_535,
    65_536,
    8_388_607,
    8_388_608,
    0x7FFF_FFFF,
    0x8000_0000,
    0xFFFF_FFFF,
    0x1_0000_0000,
    i64::MAX as i128 - 1,
    i64::MAX as i128,
    1 << 63,
    u64::MAX as i128,
];

pub const TAGS: [u64; 16] = [0, 1, 2, 30, 31, 61, 62, 63, 64, 126, 127, 128, 16_383, 16_384, 2_097_150, 2_097_151];

pub fn table(random: &mut Random) -> Builder {
    let mut builder = Builder::new();
    let rows = match random.below(40) {
        0 => random.pick(&[0, 256, 257]),
        1 => 17 + random.below(20),
        _ => 1 + random.below(12),
    };
    for row in 0..rows {
        add_row(random, &mut builder, row as u64);
    }
    if random.once_in(25) {
        break_table(random, &mut builder);
    }
    builder
}

/// Leaves first; later rows mostly hold others.
fn add_row(random: &mut Random, builder: &mut Builder, row: u64) {
    let holds_others = row > 0 && random.below(row as usize + 3) > 2;
    if !holds_others {
        add_leaf(random, builder);
        return;
    }
    match random.below(8) {
        0..=3 => {
            let components = components(random, builder, row);
            builder.sequence(&components);
        }
        4 => {
            share_items(random, builder, row);
        }
        5 => {
            let element = earlier(random, row);
            builder.sequence_of(element);
        }
        _ => {
            let alternatives = alternatives(random, row);
            builder.choice(&alternatives);
        }
    }
}

/// An earlier row, a near one more often.
fn earlier(random: &mut Random, row: u64) -> u64 {
    let near = random.below(3) as u64 + 1;
    if near <= row && random.once_in(2) { row - near } else { random.below(row as usize) as u64 }
}

fn add_leaf(random: &mut Random, builder: &mut Builder) {
    match random.below(12) {
        0 => builder.boolean(),
        1 => builder.null(),
        2 => builder.plain(4),
        3 => builder.plain(5),
        4 | 5 => {
            let numbers = enumeration(random);
            builder.enumerated(&numbers)
        }
        6..=8 => {
            let (low, high) = bounds(random);
            builder.integer(low, high)
        }
        _ => {
            let kind = 7 + random.below(3) as u64;
            let (least, greatest) = sizes(random);
            builder.string(kind, least, greatest)
        }
    };
}

pub fn edge(random: &mut Random) -> i128 {
    let edge = random.pick(&EDGES);
    match random.below(4) {
        0 => -edge,
        1 => -edge - 1,
        _ => edge,
    }
}

fn bounds(random: &mut Random) -> (Option<i64>, Option<i128>) {
    let low = i64::try_from(edge(random)).ok().filter(|_| !random.once_in(4));
    let unsigned = low.is_some_and(|low| low >= 0);
    let least = low.map_or(i64::MIN as i128, |low| low as i128);
    let greatest = if unsigned { u64::MAX as i128 } else { i64::MAX as i128 };
    let high = edge(random);
    let high = if random.once_in(8) { least + random.below(3) as i128 } else { high };
    let high = Some(high).filter(|high| (least..=greatest).contains(high) && !random.once_in(4));
    (low, high)
}

fn enumeration(random: &mut Random) -> Vec<i64> {
    let mut numbers: Vec<i64> = (0..1 + random.below(9)).filter_map(|_| i64::try_from(edge(random)).ok()).collect();
    numbers.push(random.below(200) as i64);
    numbers.sort();
    numbers.dedup();
    numbers
}

fn sizes(random: &mut Random) -> (u64, Option<u64>) {
    let least = random.pick(&[0, 0, 0, 0, 1, 2, 3, 7, 8, 9, 16, 127, 128]);
    let greatest = match random.below(4) {
        0 => None,
        1 => Some(least),
        2 => Some(least + random.below(10) as u64),
        _ => Some(random.pick(&[128, 255, 256, 65_535])),
    };
    if random.once_in(300) { (65_534, Some(65_535)) } else { (least, greatest) }
}

/// Up to ten components, or 8, 9, 16 or 17 that are all marked.
fn components(random: &mut Random, builder: &Builder, row: u64) -> Vec<(u64, Mark)> {
    let many = random.once_in(6);
    let count = if many { random.pick(&[8, 9, 16, 17]) } else { random.below(7) };
    let table = Table::check(&builder.rows, &builder.items).ok();
    (0..count)
        .map(|_| {
            let row = earlier(random, row);
            let plain = !many && random.once_in(2);
            (row, if plain { Mark::Plain } else { mark(random, table.as_ref(), row) })
        })
        .collect()
}

fn mark(random: &mut Random, table: Option<&Table>, row: u64) -> Mark {
    if random.once_in(3) {
        return Mark::Optional;
    }
    match table.map(|table| table.get(row as usize)) {
        Some(Type::Boolean) => Mark::Default(random.below(2) as u64),
        Some(Type::Integer(bounds)) => {
            let ends = [bounds.low, bounds.high, Some(0), Some(5)];
            let fit: Vec<i128> = ends.into_iter().flatten().filter(|&number| bounds.allow(number)).collect();
            if fit.is_empty() { Mark::Optional } else { Mark::Default(random.pick(&fit) as u64) }
        }
        Some(Type::Enumerated(numbers)) => Mark::Default(random.pick(numbers) as u64),
        Some(Type::SequenceOf(_)) => Mark::Default(0),
        _ => Mark::Optional,
    }
}

fn alternatives(random: &mut Random, row: u64) -> Vec<(u64, u64, u64)> {
    let mut tags: Vec<(u64, u64)> =
        (0..1 + random.below(6)).map(|_| (random.below(4) as u64, random.pick(&TAGS))).collect();
    tags.sort();
    tags.dedup();
    tags.into_iter().map(|(class, number)| (class, number, earlier(random, row))).collect()
}

/// A SEQUENCE whose items are some of an earlier SEQUENCE's, or an empty range anywhere.
fn share_items(random: &mut Random, builder: &mut Builder, row: u64) {
    let items = (builder.items.len() / ITEM_WORDS) as u64;
    let of = random.below(row as usize) * ROW_WORDS;
    let words = &builder.rows[of..of + ROW_WORDS];
    let (kind, first, count) = (words[0], words[4], words[5]);
    if kind != 10 || count == 0 {
        let first = random.below(items as usize + 1) as u64;
        builder.row([10, 0, 0, 0, first, 0]);
        return;
    }
    let skip = random.below(count as usize) as u64;
    let take = 1 + random.below((count - skip) as usize) as u64;
    builder.row([10, 0, 0, 0, first + skip, take]);
}

/// One word changed, or a word too many or too few.
fn break_table(random: &mut Random, builder: &mut Builder) {
    let words = if random.once_in(2) { &mut builder.rows } else { &mut builder.items };
    match random.below(8) {
        0 => {
            words.pop();
        }
        1 => words.push(0),
        _ if !words.is_empty() => {
            let at = random.below(words.len());
            let word = words[at];
            words[at] = random.pick(&[word.wrapping_add(1), word.wrapping_sub(1), word | 1 << 63, word ^ 256, 0, 13]);
        }
        _ => {}
    }
}
