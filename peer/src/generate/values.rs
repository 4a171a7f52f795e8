//! Values of a type, near the edges of the rules.

use super::tables::edge;
use crate::numbers::{DOUBLE_NAN, SINGLE_NAN, octets_of_bits, unused_mask};
use crate::random::Random;
use crate::table::{Bounds, Component, Mark, Size, Table, Type};
use crate::value::{Text, Value, missing_value};

/// A value of the row's type, a little above the limits now and then. None if all of them are far above the limits.
pub fn value(random: &mut Random, table: &Table, row: usize) -> Option<Value> {
    let least = least_nodes(table);
    let long_list = random.once_in(60);
    let left = if long_list { 5000 } else { 300 };
    (least[row] <= 5000).then(|| Maker { random, table, least, left, long_list }.value(row))
}

/// For each row how many nodes its smallest value has.
fn least_nodes(table: &Table) -> Vec<usize> {
    let mut least: Vec<usize> = Vec::with_capacity(table.types.len());
    for of_type in &table.types {
        let inside = match of_type {
            Type::Sequence(components) => components.iter().fold(0usize, |sum, component| {
                let plain = component.mark == Mark::Plain;
                sum.saturating_add(if plain { least[component.row] } else { 1 })
            }),
            Type::Choice(alternatives) => alternatives.iter().map(|a| least[a.row]).min().unwrap_or(0),
            _ => 0,
        };
        least.push(inside.saturating_add(1));
    }
    least
}

struct Maker<'a> {
    random: &'a mut Random,
    table: &'a Table,
    least: Vec<usize>,
    /// How many nodes more there should be; once it is used up, what can be left out is left out.
    left: usize,
    long_list: bool,
}

impl Maker<'_> {
    fn value(&mut self, row: usize) -> Value {
        self.left = self.left.saturating_sub(1);
        let table = self.table;
        match table.get(row) {
            Type::Boolean => Value::Boolean(self.random.once_in(2)),
            Type::Integer(bounds) => Value::Integer(self.integer(bounds)),
            Type::Enumerated(numbers) => Value::Enumerated(self.random.pick(numbers)),
            Type::Single => Value::Single(self.single()),
            Type::Double => Value::Double(self.double()),
            Type::Null => Value::Null,
            Type::Octets(size) => {
                let size = self.size(size);
                Value::Octets(self.text(size, 0..=255))
            }
            Type::Bits(size) => self.bits(size),
            Type::Visible(size) => {
                let size = self.size(size);
                Value::Visible(self.text(size, 32..=126))
            }
            Type::Sequence(components) => {
                Value::Sequence(components.iter().map(|component| self.component(component)).collect())
            }
            Type::SequenceOf(element) => {
                let count = self.count(*element);
                Value::SequenceOf((0..count).map(|_| self.value(*element)).collect())
            }
            Type::Choice(alternatives) => {
                let rows: Vec<usize> = alternatives.iter().map(|a| a.row).collect();
                let place = self.alternative(&rows);
                Value::Choice(place, Box::new(self.value(rows[place])))
            }
        }
    }

    fn component(&mut self, component: &Component) -> Value {
        let missing = missing_value(self.table, component.row, component.mark);
        let often_missing = self.left < self.least[component.row] || self.random.once_in(2);
        match missing {
            Some(missing) if often_missing => {
                self.left = self.left.saturating_sub(1);
                missing
            }
            _ => self.value(component.row),
        }
    }

    /// Any alternative that fits what is left, or the smallest.
    fn alternative(&mut self, rows: &[usize]) -> usize {
        let fit: Vec<usize> = (0..rows.len()).filter(|&place| self.least[rows[place]] <= self.left).collect();
        let smallest = (0..rows.len()).min_by_key(|&place| self.least[rows[place]]).unwrap_or(0);
        if fit.is_empty() { smallest } else { self.random.pick(&fit) }
    }

    fn integer(&mut self, bounds: &Bounds) -> i128 {
        let least = if bounds.unsigned() { 0 } else { i64::MIN as i128 };
        let greatest = if bounds.unsigned() { u64::MAX as i128 } else { i64::MAX as i128 };
        let (low, high) = (bounds.low.unwrap_or(least), bounds.high.unwrap_or(greatest));
        match self.random.below(6) {
            0 => low,
            1 => high,
            2 => low + (self.random.word() as i128) % (high - low + 1),
            _ => edge(self.random).clamp(low, high),
        }
    }

    fn single(&mut self) -> u32 {
        let edges = [0, 1 << 31, 1, 0x7F80_0000, 0xFF80_0000, 0x3F80_0000, 0x7F7F_FFFF, SINGLE_NAN];
        let bits = if self.random.once_in(2) { self.random.pick(&edges) } else { self.random.word() as u32 };
        if f32::from_bits(bits).is_nan() { SINGLE_NAN } else { bits }
    }

    fn double(&mut self) -> u64 {
        let edges = [0, 1 << 63, 1, 0x7FF0 << 48, 0xFFF0 << 48, 0x3FF0 << 48, 0x7FEF_FFFF_FFFF_FFFF, DOUBLE_NAN];
        let bits = if self.random.once_in(2) { self.random.pick(&edges) } else { self.random.word() };
        if f64::from_bits(bits).is_nan() { DOUBLE_NAN } else { bits }
    }

    fn size(&mut self, size: &Size) -> u64 {
        let wanted = match self.random.below(30) {
            0 => self.random.pick(&[16_383, 16_384, 65_530, 65_532, 65_533, 65_535]),
            1..=3 => self.random.pick(&[126, 127, 128, 129, 254, 255, 256, 257]),
            _ => self.random.below(20) as u64,
        };
        wanted.clamp(size.least, size.greatest.unwrap_or(65_535))
    }

    fn text(&mut self, size: u64, octets: std::ops::RangeInclusive<u8>) -> Text {
        let span = (octets.end() - octets.start()) as usize + 1;
        let text: Vec<u8> = (0..size).map(|_| octets.start() + self.random.below(span) as u8).collect();
        Text::new(&text)
    }

    fn bits(&mut self, size: &Size) -> Value {
        let bits = self.size(size);
        let mut text = self.text(octets_of_bits(bits), 0..=255);
        if let Some(last) = text.octets.last_mut() {
            *last &= !unused_mask(bits);
        }
        Value::Bits(bits, text)
    }

    fn count(&mut self, element: usize) -> usize {
        let wanted = if self.long_list {
            self.random.pick(&[127, 128, 255, 256, 257, 4094, 4095, 4096, 4097])
        } else {
            self.random.below(5)
        };
        self.long_list = false;
        wanted.min(self.left / self.least[element])
    }
}
