//! Writing a value as octets. The value is one of its type.

use crate::numbers::{determinant, fewest_signed, fewest_unsigned, tag};
use crate::table::{Bounds, Component, Mark, Size, Table, Type};
use crate::value::{Value, missing_value};

/// The octets of a value.
pub fn encode(table: &Table, row: usize, value: &Value) -> Vec<u8> {
    let mut out = Vec::new();
    write(table, row, value, &mut out);
    out
}

fn write(table: &Table, row: usize, value: &Value, out: &mut Vec<u8>) {
    match (table.get(row), value) {
        (Type::Boolean, Value::Boolean(truth)) => out.push(if *truth { 0xFF } else { 0x00 }),
        (Type::Integer(bounds), Value::Integer(number)) => integer(bounds, *number, out),
        (Type::Enumerated(_), Value::Enumerated(number)) => enumerated(*number, out),
        (Type::Single, Value::Single(bits)) => out.extend(bits.to_be_bytes()),
        (Type::Double, Value::Double(bits)) => out.extend(bits.to_be_bytes()),
        (Type::Null, Value::Null) => {}
        (Type::Octets(size), Value::Octets(text)) | (Type::Visible(size), Value::Visible(text)) => {
            string(size, &[], &text.octets, out)
        }
        (Type::Bits(size), Value::Bits(bits, text)) => string(size, &[((8 - bits % 8) % 8) as u8], &text.octets, out),
        (Type::Sequence(components), Value::Sequence(values)) => sequence(table, components, values, out),
        (Type::SequenceOf(element), Value::SequenceOf(values)) => {
            counted(&fewest_unsigned(values.len() as u64), out);
            values.iter().for_each(|value| write(table, *element, value, out));
        }
        (Type::Choice(alternatives), Value::Choice(place, value)) => {
            let chosen = alternatives[*place];
            out.extend(tag(chosen.class, chosen.number));
            write(table, chosen.row, value, out);
        }
        (of_type, value) => unreachable!("{value:?} is no value of {of_type:?}"),
    }
}

/// A length determinant and these octets.
fn counted(octets: &[u8], out: &mut Vec<u8>) {
    out.extend(determinant(octets.len()));
    out.extend(octets);
}

/// The width comes from the bounds, never from the value (10.3, 10.4).
fn integer(bounds: &Bounds, number: i128, out: &mut Vec<u8>) {
    match bounds.width() {
        Some(width) => out.extend(&number.to_be_bytes()[16 - width..]),
        None if bounds.unsigned() => counted(&fewest_unsigned(number as u64), out),
        None => counted(&fewest_signed(number as i64), out),
    }
}

fn enumerated(number: i64, out: &mut Vec<u8>) {
    if (0..128).contains(&number) {
        return out.push(number as u8);
    }
    let octets = fewest_signed(number);
    out.push(128 + octets.len() as u8);
    out.extend(octets);
}

/// Contents alone if the size is fixed; else a determinant, `before` and the contents.
fn string(size: &Size, before: &[u8], contents: &[u8], out: &mut Vec<u8>) {
    match size.fixed() {
        Some(_) => out.extend(contents),
        None => counted(&[before, contents].concat(), out),
    }
}

/// A component that is what a missing one stands for is left out (31.9).
fn sequence(table: &Table, components: &[Component], values: &[Value], out: &mut Vec<u8>) {
    let carried: Vec<bool> = components
        .iter()
        .zip(values)
        .map(|(c, value)| missing_value(table, c.row, c.mark).as_ref() != Some(value))
        .collect();
    let presence: Vec<bool> =
        components.iter().zip(&carried).filter(|(c, _)| c.mark != Mark::Plain).map(|(_, &carried)| carried).collect();
    for octet in presence.chunks(8) {
        out.push(octet.iter().enumerate().map(|(bit, &there)| (there as u8) << (7 - bit)).sum());
    }
    for ((component, value), _) in components.iter().zip(values).zip(&carried).filter(|(_, carried)| **carried) {
        write(table, component.row, value, out);
    }
}
