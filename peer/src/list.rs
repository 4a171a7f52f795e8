//! Reading a value list: the value, or the first fault of the walk (11, then 7, at each node). A fault's place is a
//! node.

use crate::numbers::{double_allowed, octets_of_bits, single_allowed, unused_mask};
use crate::reply::{Fault, LIST, LONG, MOST_NODES, MOST_OCTETS, NODES, NOT_ALLOWED, must};
use crate::table::{Component, Mark, Size, Table, Type};
use crate::value::{Text, Value};

/// The value of a whole list for a component: odd word 11, 10, 4, the walk, left over nodes 11, left over contents 11.
pub fn read_list(table: &Table, component: Component, words: &[u64], contents: &[u8]) -> Result<Value, Fault> {
    let count = words.len() / 2;
    must(words.len().is_multiple_of(2), LIST, count)?;
    must(count <= MOST_NODES, NODES, 0)?;
    must(contents.len() <= MOST_OCTETS, LONG, 0)?;
    let mut walk = Walk { table, words, contents, at: 0, used: 0 };
    let value = walk.component(component)?;
    must(walk.at == count, LIST, walk.at)?;
    must(walk.used == contents.len(), LIST, count)?;
    Ok(value)
}

/// The next node, and how many octets of the contents are used.
struct Walk<'a> {
    table: &'a Table,
    words: &'a [u64],
    contents: &'a [u8],
    at: usize,
    used: usize,
}

impl<'a> Walk<'a> {
    /// The next node's kind and number; a missing one is missed at the number of nodes.
    fn node(&mut self) -> Result<(u64, u64), Fault> {
        must(2 * self.at < self.words.len(), LIST, self.at)?;
        let node = (self.words[2 * self.at], self.words[2 * self.at + 1]);
        self.at += 1;
        Ok(node)
    }

    /// A component: ABSENT is for an OPTIONAL one only.
    fn component(&mut self, component: Component) -> Result<Value, Fault> {
        let place = self.at;
        let next_kind = self.words.get(2 * place);
        if component.mark == Mark::Optional && next_kind == Some(&0) {
            let (_, number) = self.node()?;
            must(number == 0, LIST, place)?;
            return Ok(Value::Absent);
        }
        self.value(component.row)
    }

    fn value(&mut self, row: usize) -> Result<Value, Fault> {
        let place = self.at;
        let (kind, number) = self.node()?;
        let table: &'a Table = self.table;
        let of_type = table.get(row);
        must(kind == of_type.kind(), LIST, place)?;
        match of_type {
            Type::Boolean => {
                must(number <= 1, LIST, place)?;
                Ok(Value::Boolean(number == 1))
            }
            Type::Integer(bounds) => {
                let number = bounds.number(number);
                must(bounds.allow(number), NOT_ALLOWED, place)?;
                Ok(Value::Integer(number))
            }
            Type::Enumerated(numbers) => {
                must(numbers.contains(&(number as i64)), NOT_ALLOWED, place)?;
                Ok(Value::Enumerated(number as i64))
            }
            Type::Single => {
                let bits = u32::try_from(number).map_err(|_| Fault::at(LIST, place))?;
                must(single_allowed(bits), NOT_ALLOWED, place)?;
                Ok(Value::Single(bits))
            }
            Type::Double => {
                must(double_allowed(number), NOT_ALLOWED, place)?;
                Ok(Value::Double(number))
            }
            Type::Null => {
                must(number == 0, LIST, place)?;
                Ok(Value::Null)
            }
            Type::Octets(size) => {
                let text = self.text(number, place)?;
                must(size.allows(number), NOT_ALLOWED, place)?;
                Ok(Value::Octets(text))
            }
            Type::Bits(size) => self.bits(size, number, place),
            Type::Visible(size) => {
                let text = self.text(number, place)?;
                let visible = text.octets.iter().all(|o| (32..=126).contains(o));
                must(size.allows(number) && visible, NOT_ALLOWED, place)?;
                Ok(Value::Visible(text))
            }
            Type::Sequence(components) => {
                must(number == components.len() as u64, LIST, place)?;
                let values: Result<Vec<Value>, Fault> = components.iter().map(|&c| self.component(c)).collect();
                Ok(Value::Sequence(values?))
            }
            Type::SequenceOf(element) => {
                // The count is believed only as far as nodes go.
                let mut values = Vec::new();
                for _ in 0..number {
                    values.push(self.value(*element)?);
                }
                Ok(Value::SequenceOf(values))
            }
            Type::Choice(alternatives) => {
                must(number < alternatives.len() as u64, LIST, place)?;
                let value = self.value(alternatives[number as usize].row)?;
                Ok(Value::Choice(number as usize, Box::new(value)))
            }
        }
    }

    /// The next octets of the contents list.
    fn text(&mut self, octets: u64, place: usize) -> Result<Text, Fault> {
        let left = &self.contents[self.used..];
        must(octets <= left.len() as u64, LIST, place)?;
        self.used += octets as usize;
        Ok(Text::new(&left[..octets as usize]))
    }

    fn bits(&mut self, size: &Size, bits: u64, place: usize) -> Result<Value, Fault> {
        let text = self.text(octets_of_bits(bits), place)?;
        let last = text.octets.last().copied().unwrap_or(0);
        must(last & unused_mask(bits) == 0, LIST, place)?;
        must(size.allows(bits), NOT_ALLOWED, place)?;
        Ok(Value::Bits(bits, text))
    }
}
