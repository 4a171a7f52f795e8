//! Cases from a seed: a table, a message, a path and value lists, near the edges of the rules, some of them damaged.

pub mod damage;
pub mod tables;
pub mod values;

use crate::builder::Builder;
use crate::path::{find, whole};
use crate::random::Random;
use crate::table::{Component, Mark, Table};
use crate::value::{Value, missing_value};
use crate::write::encode;

/// A value list: its nodes' words and its contents.
#[derive(Clone, Debug, Default, PartialEq, Eq)]
pub struct List {
    pub nodes: Vec<u64>,
    pub contents: Vec<u8>,
}

impl List {
    pub fn of(value: &Value) -> List {
        let (nodes, contents) = value.to_list();
        List { nodes, contents }
    }
}

/// What all eight operations are run on.
#[derive(Clone, Debug, Default, PartialEq, Eq)]
pub struct Case {
    pub rows: Vec<u64>,
    pub items: Vec<u64>,
    pub row: u64,
    pub message: Vec<u8>,
    pub path: Vec<u64>,
    /// A list for the whole type.
    pub list: List,
    /// A list for the component at the path.
    pub new: List,
}

impl Case {
    /// The case of this number.
    pub fn generate(seed: u64, number: u64) -> Case {
        let random = &mut Random::for_case(seed, number);
        let Builder { rows, items } = tables::table(random);
        let mut case = Case { rows, items, ..Case::default() };
        match Table::check(&case.rows, &case.items) {
            Ok(table) => case.fill(&table, random),
            Err(_) => {
                case.row = random.below(4) as u64;
                case.fill_blindly(random);
            }
        }
        case
    }

    /// Nothing fits a broken table or a type too large; the operations are tried with what comes.
    fn fill_blindly(&mut self, random: &mut Random) {
        self.message = (0..random.below(6)).map(|_| random.octet()).collect();
        self.path = (0..random.below(3)).map(|_| random.below(3) as u64).collect();
        self.list.nodes = vec![1, 1];
        self.new = self.list.clone();
    }

    fn fill(&mut self, table: &Table, random: &mut Random) {
        let count = table.types.len();
        let row = if random.once_in(3) { random.below(count) } else { count - 1 };
        self.row = if random.once_in(60) { random.pick(&[count as u64, 1 << 32, u64::MAX]) } else { row as u64 };
        let (Some(value), Some(other)) = (values::value(random, table, row), values::value(random, table, row)) else {
            return self.fill_blindly(random);
        };
        self.message = encode(table, row, &value);
        self.list = List::of(&other);
        self.path = path_into(random, &value);
        let at = find(table, row, &value, &self.path).map_or(whole(row), |found| found.component);
        self.new = new_list(random, table, at);
        self.damage(random);
    }

    fn damage(&mut self, random: &mut Random) {
        if random.once_in(3) {
            damage::octets(random, &mut self.message);
        }
        if random.once_in(3) {
            damage::list(random, &mut self.list);
        }
        if random.once_in(4) {
            damage::list(random, &mut self.new);
        }
        if random.once_in(6) {
            damage::path(random, &mut self.path);
        }
    }
}

/// A path that leads somewhere; it may pass no ABSENT component because that has no children.
fn path_into(random: &mut Random, value: &Value) -> Vec<u64> {
    let mut path = Vec::new();
    let mut here = value;
    while !here.children().is_empty() && !random.once_in(5) {
        let step = random.below(here.children().len());
        path.push(step as u64);
        here = &here.children()[step];
    }
    path
}

/// A list for a component, often ABSENT or the default where it may be.
fn new_list(random: &mut Random, table: &Table, component: Component) -> List {
    let missing = missing_value(table, component.row, component.mark);
    let value = match missing {
        Some(missing) if random.once_in(3) => missing,
        _ => values::value(random, table, component.row).unwrap_or(Value::Absent),
    };
    if component.mark == Mark::Plain && random.once_in(30) {
        return List::of(&Value::Absent);
    }
    List::of(&value)
}
