// Yards as in samples/: the sample itself with its lists repeated, and one of many renters with long notes.
use peer::builder::Builder;
use peer::read::read_message;
use peer::table::Mark::{Default, Optional, Plain};
use peer::table::Table;
use peer::value::{Text, Value};
use peer::write::encode;

use crate::workloads::{Workload, component};

const HEADS: usize = 4;
const RENTERS: usize = 5;

// The rows of samples/yard.table.
fn table() -> Builder {
    let mut table = Builder::new();
    let (flag, nothing, single, double) = (table.plain(1), table.plain(6), table.plain(4), table.plain(5));
    let (name, note) = (table.string(9, 1, Some(24)), table.string(9, 0, None));
    let (serial, channels, days) =
        (table.string(7, 4, Some(4)), table.string(8, 12, Some(12)), table.string(8, 0, None));
    let units = table.enumerated(&[-1, 0, 1000]);
    let revision = table.integer(Some(0), Some(65_535));
    let capacity = table.integer(Some(0), Some(4_294_967_295));
    let band = table.integer(Some(-1000), Some(1000));
    let limit = table.integer(Some(0), None);
    let byte = table.integer(Some(0), Some(255));
    let horn = table.integer(Some(0), Some(60));
    let balance = table.integer(None, None);
    let action = table.choice(&[(2, 0, nothing), (2, 1, horn), (2, 63, name)]);
    let alarm = table.sequence(&[(limit, Plain), (byte, Default(5)), (action, Plain)]);
    let zero_band = table.sequence(&[(band, Plain), (band, Plain), (single, Plain), (flag, Default(1))]);
    let plain = [serial, capacity, double, zero_band].map(|row| (row, Plain));
    let head = table.sequence(&[&plain[..], &[(alarm, Optional), (channels, Plain)]].concat());
    let plain = [name, byte, balance, alarm].map(|row| (row, Plain));
    let renter = table.sequence(&[&plain[..], &[(note, Optional), (days, Plain)]].concat());
    let (heads, renters) = (table.sequence_of(head), table.sequence_of(renter));
    let front = [(name, Plain), (revision, Plain), (units, Default(0)), (flag, Default(0))];
    table.sequence(&[&front[..], &[(heads, Plain), (renters, Plain)]].concat());
    table
}

fn list(yard: &mut Value, component: usize) -> &mut Vec<Value> {
    match &mut yard.children_mut()[component] {
        Value::SequenceOf(elements) => elements,
        _ => unreachable!("heads and renters are lists"),
    }
}

fn checked() -> Table {
    let table = table();
    Table::check(&table.rows, &table.items).expect("the yard's table is sound")
}

// The value of samples/yard.hex.
fn sample() -> Value {
    let octet = |word: &str| u8::from_str_radix(word, 16).expect("a hexadecimal octet");
    let message: Vec<u8> = include_str!("../../samples/yard.hex").split_whitespace().map(octet).collect();
    let table = checked();
    read_message(&table, table.types.len() - 1, &message).expect("the sample is sound")
}

// Adds elements to the lists of heads and of renters as long as the message stays within the size.
fn filled(mut yard: Value, size: usize, elements: impl Iterator<Item = [Option<Value>; 2]>) -> Value {
    let table = checked();
    let rows = table.types.len();
    // the last rows are head, renter, heads, renters and the yard; a quantity may grow by an octet
    let mut length = encode(&table, rows - 1, &yard).len() + 2;
    for both in elements {
        for (element, (component, row)) in both.into_iter().zip([(HEADS, rows - 5), (RENTERS, rows - 4)]) {
            let Some(element) = element else { continue };
            length += encode(&table, row, &element).len();
            if length > size {
                return yard;
            }
            list(&mut yard, component).push(element);
        }
    }
    yard
}

// The yard, with the alarm limit of the renter in the middle and that of the last one to be raised to four octets.
fn workload(name: &str, value: &Value) -> Workload {
    let last = value.children()[RENTERS].children().len() as u64 - 1;
    let limit = |name, renter| component(name, &[RENTERS as u64, renter, 3, 0], Value::Integer(1 << 24));
    Workload::of_value(name, table(), value, vec![limit("middle", last / 2), limit("end", last)])
}

// The sample with its heads and renters again and again, as far as the size allows.
pub fn repeated(name: &str, size: usize) -> Workload {
    let sample = sample();
    let of = |component: usize, i: usize| {
        let elements = sample.children()[component].children();
        Some(elements[i % elements.len()].clone())
    };
    let more = (0..).map(|i| [of(HEADS, i), of(RENTERS, i)]);
    workload(name, &filled(sample.clone(), size, more))
}

// A renter as in the sample, with a note of 140 characters.
fn renter(i: usize) -> Value {
    let text = |size: usize| Text::new(&(0..size).map(|k| b'a' + ((k + i) % 26) as u8).collect::<Vec<u8>>());
    let action = match i % 3 {
        0 => Value::Choice(0, Box::new(Value::Null)),
        1 => Value::Choice(1, Box::new(Value::Integer(i as i128 % 61))),
        _ => Value::Choice(2, Box::new(Value::Visible(text(1 + i % 24)))),
    };
    let delay = Value::Integer(if i % 2 == 0 { 5 } else { i as i128 % 256 });
    let alarm = Value::Sequence(vec![Value::Integer(200 + 77 * i as i128), delay, action]);
    Value::Sequence(vec![
        Value::Visible(text(1 + i * 7 % 24)),
        Value::Integer(i as i128 % 256),
        Value::Integer(i as i128 * 331 - 20_000),
        alarm,
        Value::Visible(text(140)),
        Value::Bits(7, Text::new(&[0xFC])),
    ])
}

// The sample with its renters replaced by new ones, as far as the size allows.
pub fn of_renters(name: &str, size: usize) -> Workload {
    let mut value = sample();
    list(&mut value, RENTERS).clear();
    workload(name, &filled(value, size, (0..).map(|i| [None, Some(renter(i))])))
}
