//! Reading a message: the value, or the first fault in reading order. A fault's place is the offset of the first octet
//! of the innermost value being read.

use crate::numbers::{
    double_allowed, octets_of_bits, padded_signed, padded_unsigned, signed, single_allowed, unsigned, unused_mask,
};
use crate::reply::{Fault, LEFT_OVER, MOST_NODES, NODES, NOT_ALLOWED, NOT_CANONICAL, SHORT, WIDE, must};
use crate::table::{Alternative, Bounds, Component, Mark, Size, Table, Type};
use crate::value::{Text, Value, missing_value};

/// The value of a whole message.
pub fn read_message(table: &Table, row: usize, message: &[u8]) -> Result<Value, Fault> {
    let mut reader = Reader { table, message, at: 0, nodes: 0 };
    let value = reader.value(row)?;
    must(reader.at == message.len(), LEFT_OVER, reader.at)?;
    Ok(value)
}

/// Where the reading stands, and how many nodes were counted.
struct Reader<'a> {
    table: &'a Table,
    message: &'a [u8],
    at: usize,
    nodes: usize,
}

impl<'a> Reader<'a> {
    /// A value is counted before any octet of it is looked at.
    fn count_node(&mut self) -> Result<(), Fault> {
        must(self.nodes < MOST_NODES, NODES, self.at)?;
        self.nodes += 1;
        Ok(())
    }

    /// The next octets; those missing are missed at `place`.
    fn take(&mut self, count: usize, place: usize) -> Result<&'a [u8], Fault> {
        must(count <= self.message.len() - self.at, SHORT, place)?;
        let octets = &self.message[self.at..self.at + count];
        self.at += count;
        Ok(octets)
    }

    fn octet(&mut self, place: usize) -> Result<u8, Fault> {
        Ok(self.take(1, place)?[0])
    }

    /// A length determinant and the octets that it counts (8.6, 31.2).
    fn determined(&mut self, place: usize) -> Result<&'a [u8], Fault> {
        let initial = self.octet(place)?;
        if initial < 128 {
            return self.take(initial as usize, place);
        }
        must(initial > 128, NOT_CANONICAL, place)?;
        let subsequent = self.take(initial as usize - 128, place)?;
        let needless = padded_unsigned(subsequent) || (subsequent.len() == 1 && subsequent[0] < 128);
        must(!needless, NOT_CANONICAL, place)?;
        // A length of more than eight octets, none of them needless, lies past the end of any message.
        must(subsequent.len() <= 8, SHORT, place)?;
        let length = usize::try_from(unsigned(subsequent)).map_err(|_| Fault::at(SHORT, place))?;
        self.take(length, place)
    }

    fn value(&mut self, row: usize) -> Result<Value, Fault> {
        self.count_node()?;
        let table = self.table;
        match table.get(row) {
            Type::Boolean => self.boolean(),
            Type::Integer(bounds) => self.integer(bounds),
            Type::Enumerated(numbers) => self.enumerated(numbers),
            Type::Single => self.single(),
            Type::Double => self.double(),
            Type::Null => Ok(Value::Null),
            Type::Octets(size) => self.octet_string(size),
            Type::Bits(size) => self.bit_string(size),
            Type::Visible(size) => self.visible_string(size),
            Type::Sequence(components) => self.sequence(components),
            Type::SequenceOf(element) => self.sequence_of(*element),
            Type::Choice(alternatives) => self.choice(alternatives),
        }
    }

    /// Clauses 9 and 31.3.
    fn boolean(&mut self) -> Result<Value, Fault> {
        let place = self.at;
        match self.octet(place)? {
            0x00 => Ok(Value::Boolean(false)),
            0xFF => Ok(Value::Boolean(true)),
            _ => Err(Fault::at(NOT_CANONICAL, place)),
        }
    }

    /// Clauses 10 and 31.4.
    fn integer(&mut self, bounds: &Bounds) -> Result<Value, Fault> {
        let place = self.at;
        let octets = match bounds.width() {
            Some(width) => self.take(width, place)?,
            None => self.fewest(place, !bounds.unsigned())?,
        };
        let number = if bounds.unsigned() { unsigned(octets) as i128 } else { signed(octets) as i128 };
        must(bounds.allow(number), NOT_ALLOWED, place)?;
        Ok(Value::Integer(number))
    }

    /// A length determinant and the number in fewest octets, one to eight of them.
    fn fewest(&mut self, place: usize, is_signed: bool) -> Result<&'a [u8], Fault> {
        let octets = self.determined(place)?;
        must(!octets.is_empty(), NOT_CANONICAL, place)?;
        let padded = if is_signed { padded_signed(octets) } else { padded_unsigned(octets) };
        must(!padded, NOT_CANONICAL, place)?;
        must(octets.len() <= 8, WIDE, place)?;
        Ok(octets)
    }

    /// Clauses 11 and 31.5.
    fn enumerated(&mut self, numbers: &[i64]) -> Result<Value, Fault> {
        let place = self.at;
        let initial = self.octet(place)?;
        let number = if initial < 128 { initial as i64 } else { self.long_enumerated(initial, place)? };
        must(numbers.contains(&number), NOT_ALLOWED, place)?;
        Ok(Value::Enumerated(number))
    }

    fn long_enumerated(&mut self, initial: u8, place: usize) -> Result<i64, Fault> {
        let octets = self.take(initial as usize - 128, place)?;
        must(!octets.is_empty() && !padded_signed(octets), NOT_CANONICAL, place)?;
        let short_would_do = octets.len() == 1 && octets[0] < 128;
        must(!short_would_do, NOT_CANONICAL, place)?;
        must(octets.len() <= 8, WIDE, place)?;
        Ok(signed(octets))
    }

    fn single(&mut self) -> Result<Value, Fault> {
        let place = self.at;
        let bits = unsigned(self.take(4, place)?) as u32;
        must(single_allowed(bits), NOT_CANONICAL, place)?;
        Ok(Value::Single(bits))
    }

    fn double(&mut self) -> Result<Value, Fault> {
        let place = self.at;
        let bits = unsigned(self.take(8, place)?);
        must(double_allowed(bits), NOT_CANONICAL, place)?;
        Ok(Value::Double(bits))
    }

    /// The octets of a string whose size counts octets: alone if the size is fixed, else behind a determinant.
    fn sized(&mut self, size: &Size, place: usize) -> Result<Text, Fault> {
        let octets = match size.fixed() {
            Some(fixed) => self.take(fixed as usize, place)?,
            None => self.determined(place)?,
        };
        Ok(Text { octets: octets.to_vec(), at: self.at - octets.len() })
    }

    fn octet_string(&mut self, size: &Size) -> Result<Value, Fault> {
        let place = self.at;
        let text = self.sized(size, place)?;
        must(size.allows(text.octets.len() as u64), NOT_ALLOWED, place)?;
        Ok(Value::Octets(text))
    }

    fn visible_string(&mut self, size: &Size) -> Result<Value, Fault> {
        let place = self.at;
        let text = self.sized(size, place)?;
        must(size.allows(text.octets.len() as u64), NOT_ALLOWED, place)?;
        must(text.octets.iter().all(|o| (32..=126).contains(o)), NOT_ALLOWED, place)?;
        Ok(Value::Visible(text))
    }

    fn bit_string(&mut self, size: &Size) -> Result<Value, Fault> {
        let place = self.at;
        let (bits, octets) = match size.fixed() {
            Some(bits) => (bits, self.take(octets_of_bits(bits) as usize, place)?),
            None => self.variable_bits(place)?,
        };
        let last = octets.last().copied().unwrap_or(0);
        must(last & unused_mask(bits) == 0, NOT_CANONICAL, place)?;
        must(size.allows(bits), NOT_ALLOWED, place)?;
        Ok(Value::Bits(bits, Text { octets: octets.to_vec(), at: self.at - octets.len() }))
    }

    /// Behind the determinant stands the number of unused bits, then the contents.
    fn variable_bits(&mut self, place: usize) -> Result<(u64, &'a [u8]), Fault> {
        let octets = self.determined(place)?;
        let (&unused, contents) = octets.split_first().ok_or(Fault::at(NOT_CANONICAL, place))?;
        must(unused <= 7 && (unused == 0 || !contents.is_empty()), NOT_CANONICAL, place)?;
        Ok((8 * contents.len() as u64 - unused as u64, contents))
    }

    /// Clauses 16 and 31.9: presence bits, then the components that are carried.
    fn sequence(&mut self, components: &[Component]) -> Result<Value, Fault> {
        let place = self.at;
        let marked = components.iter().filter(|c| c.mark != Mark::Plain).count();
        let preamble = self.take(marked.div_ceil(8), place)?;
        let last = preamble.last().copied().unwrap_or(0);
        must(last & unused_mask(marked as u64) == 0, NOT_CANONICAL, place)?;
        let mut bits = preamble.iter().flat_map(|octet| (0..8).rev().map(move |bit| octet >> bit & 1 == 1));
        let mut values = Vec::with_capacity(components.len());
        for component in components {
            let carried = component.mark == Mark::Plain || bits.next().unwrap_or(false);
            values.push(self.component(component, carried)?);
        }
        Ok(Value::Sequence(values))
    }

    fn component(&mut self, component: &Component, carried: bool) -> Result<Value, Fault> {
        let place = self.at;
        let missing = missing_value(self.table, component.row, component.mark);
        match missing {
            Some(missing) if !carried => {
                self.count_node()?;
                Ok(missing)
            }
            missing => {
                let value = self.value(component.row)?;
                must(missing.as_ref() != Some(&value), NOT_CANONICAL, place)?;
                Ok(value)
            }
        }
    }

    /// Clauses 17 and 31.7. The quantity is believed only as far as elements are read.
    fn sequence_of(&mut self, element: usize) -> Result<Value, Fault> {
        let place = self.at;
        let quantity = unsigned(self.fewest(place, false)?);
        let mut values = Vec::new();
        for _ in 0..quantity {
            values.push(self.value(element)?);
        }
        Ok(Value::SequenceOf(values))
    }

    /// Clauses 8.7 and 20.
    fn choice(&mut self, alternatives: &[Alternative]) -> Result<Value, Fault> {
        let place = self.at;
        let (class, number) = self.tag(place)?;
        let chosen = alternatives.iter().position(|a| a.class == class && Some(a.number) == number);
        let chosen = chosen.ok_or(Fault::at(NOT_ALLOWED, place))?;
        let value = self.value(alternatives[chosen].row)?;
        Ok(Value::Choice(chosen, Box::new(value)))
    }

    /// The class and the number of a tag; no number if it is above 64 bits.
    fn tag(&mut self, place: usize) -> Result<(u64, Option<u64>), Fault> {
        let initial = self.octet(place)?;
        let (class, low) = (initial as u64 >> 6, initial as u64 & 63);
        if low < 63 {
            return Ok((class, Some(low)));
        }
        let mut groups = vec![self.octet(place)?];
        while groups[groups.len() - 1] >= 128 {
            groups.push(self.octet(place)?);
        }
        let number = groups
            .iter()
            .try_fold(0u64, |number, group| number.checked_mul(128).map(|shifted| shifted + (group & 127) as u64));
        must(groups[0] & 127 != 0, NOT_CANONICAL, place)?;
        must(number.is_none_or(|number| number >= 63), NOT_CANONICAL, place)?;
        Ok((class, number))
    }
}
