//! Paths into a value, and a component read as a single setting (document 01, "Editing and reading by path").

use crate::reply::{Fault, PATH};
use crate::table::{Component, Mark, Table, Type};
use crate::value::Value;

/// A component: its row and mark, and its value.
pub struct Found<'v> {
    pub component: Component,
    pub value: &'v Value,
}

/// The whole value as a component.
pub fn whole(row: usize) -> Component {
    Component { row, mark: Mark::Plain }
}

/// The component at a path, or 13 at the first step that leads nowhere.
pub fn find<'v>(table: &Table, row: usize, value: &'v Value, path: &[u64]) -> Result<Found<'v>, Fault> {
    let mut here = Found { component: whole(row), value };
    for (place, &step) in path.iter().enumerate() {
        here = child(table, here, step).ok_or(Fault::at(PATH, place))?;
    }
    Ok(here)
}

fn child<'v>(table: &Table, here: Found<'v>, step: u64) -> Option<Found<'v>> {
    let step = usize::try_from(step).ok()?;
    let value = here.value.children().get(step)?;
    let component = match (table.get(here.component.row), here.value) {
        (Type::Sequence(components), _) => components[step],
        (Type::SequenceOf(element), _) => whole(*element),
        (Type::Choice(alternatives), Value::Choice(chosen, _)) => whole(alternatives[*chosen].row),
        _ => return None,
    };
    Some(Found { component, value })
}

/// Puts a new value in the place of the component at a path that is there.
pub fn replace(value: &mut Value, path: &[u64], new: Value) {
    match path.split_first() {
        None => *value = new,
        Some((&step, rest)) => replace(&mut value.children_mut()[step as usize], rest, new),
    }
}

/// A single setting. Reals by their bits.
#[derive(Clone, Copy, Debug, PartialEq, Eq)]
pub enum Setting {
    Absent,
    Truth(bool),
    Unsigned(u64),
    Signed(i64),
    Single(u32),
    Double(u64),
    Size(u64),
    Group(u64),
}

impl Setting {
    /// The component as a setting. Whether an INTEGER is unsigned is its type's matter, not its value's.
    pub fn of(table: &Table, found: &Found) -> Setting {
        let number = found.value.number();
        match found.value {
            Value::Absent => Setting::Absent,
            Value::Boolean(truth) => Setting::Truth(*truth),
            Value::Integer(_) => match table.get(found.component.row) {
                Type::Integer(bounds) if bounds.unsigned() => Setting::Unsigned(number),
                _ => Setting::Signed(number as i64),
            },
            Value::Enumerated(number) => Setting::Signed(*number),
            Value::Single(bits) => Setting::Single(*bits),
            Value::Double(bits) => Setting::Double(*bits),
            Value::Octets(_) | Value::Bits(..) | Value::Visible(_) => Setting::Size(number),
            Value::Null | Value::Sequence(_) | Value::SequenceOf(_) | Value::Choice(..) => {
                Setting::Group(found.value.children().len() as u64)
            }
        }
    }

    /// What it is (1 to 8), and its word.
    pub fn words(self) -> (u64, u64) {
        match self {
            Setting::Absent => (1, 0),
            Setting::Truth(truth) => (2, truth as u64),
            Setting::Unsigned(number) => (3, number),
            Setting::Signed(number) => (4, number as u64),
            Setting::Single(bits) => (5, bits as u64),
            Setting::Double(bits) => (6, bits),
            Setting::Size(size) => (7, size),
            Setting::Group(count) => (8, count),
        }
    }
}
