// The tables and messages that the whole face is measured on: everyday ones, and hostile ones at the limits of
// document 01.
use peer::builder::Builder;
use peer::generate::{Case, List};
use peer::read::read_message;
use peer::table::Mark::{Default, Optional, Plain};
use peer::table::Table;
use peer::value::{Text, Value};
use peer::write::encode;

use crate::yard;

// A component to be read and edited: its path, and the new list.
pub struct Component {
    pub name: &'static str,
    pub path: Vec<u64>,
    pub new: List,
}

// Where a component stands in the value list.
pub struct Place {
    pub node: usize,
    pub nodes: usize,
    pub contents: usize,
    pub octets: usize,
}

pub struct Workload {
    pub name: String,
    // The table, the row, a message and a value list; path and new list are those of the components.
    pub case: Case,
    pub components: Vec<Component>,
    // A message alone: there is no list to be written.
    pub message_only: bool,
    // The table alone: a check and nothing else.
    pub table_only: bool,
}

impl Workload {
    // A table and a value of its last row.
    pub fn of_value(name: &str, table: Builder, value: &Value, components: Vec<Component>) -> Workload {
        let checked = Table::check(&table.rows, &table.items).expect("a sound table");
        let message = encode(&checked, checked.types.len() - 1, value);
        Workload { components, ..Workload::of_message(name, table, message, List::of(value)) }
    }

    fn of_message(name: &str, table: Builder, message: Vec<u8>, list: List) -> Workload {
        let row = (table.rows.len() / 6 - 1) as u64;
        let case = Case { rows: table.rows, items: table.items, row, message, list, ..Case::default() };
        Workload { name: name.to_string(), case, components: Vec::new(), message_only: false, table_only: false }
    }

    // The case of a component.
    pub fn case_of(&self, component: &Component) -> Case {
        Case { path: component.path.clone(), new: component.new.clone(), ..self.case.clone() }
    }

    // Where a component stands in the list; none if the message is refused.
    pub fn place_of(&self, component: &Component) -> Option<Place> {
        let table = Table::check(&self.case.rows, &self.case.items).ok()?;
        let mut value = &read_message(&table, self.case.row as usize, &self.case.message).ok()?;
        let (mut node, mut contents) = (0, 0);
        for &step in &component.path {
            let (before, rest) = value.children().split_at(step as usize);
            node += 1 + before.iter().map(Value::node_count).sum::<usize>();
            contents += before.iter().map(|child| child.to_list().1.len()).sum::<usize>();
            value = &rest[0];
        }
        Some(Place { node, nodes: value.node_count(), contents, octets: value.to_list().1.len() })
    }
}

pub fn component(name: &'static str, path: &[u64], value: Value) -> Component {
    Component { name, path: path.to_vec(), new: List::of(&value) }
}

fn middle(path: &[u64], value: Value) -> Component {
    component("middle", path, value)
}

fn end(path: &[u64], value: Value) -> Component {
    component("end", path, value)
}

// 4,000 truth values of one octet each.
fn tiny() -> Workload {
    let mut table = Builder::new();
    let boolean = table.boolean();
    table.sequence_of(boolean);
    let value = Value::SequenceOf((0..4000).map(|i| Value::Boolean(i % 3 == 0)).collect());
    let components = vec![middle(&[2000], Value::Boolean(true)), end(&[3999], Value::Boolean(true))];
    Workload::of_value("4,000 tiny nodes", table, &value, components)
}

fn visible(size: usize) -> Value {
    Value::Visible(Text::new(&(0..size).map(|i| 32 + (i * 7 % 95) as u8).collect::<Vec<u8>>()))
}

// A flag, a text of 65,000 characters, and a limit.
fn long_string() -> Workload {
    let mut table = Builder::new();
    let rows = [table.boolean(), table.string(9, 0, None), table.integer(Some(0), None)];
    table.sequence(&rows.map(|row| (row, Plain)));
    let value = Value::Sequence(vec![Value::Boolean(true), visible(65_000), Value::Integer(255)]);
    let components = vec![middle(&[1], visible(64_000)), end(&[2], Value::Integer(256))];
    Workload::of_value("one string of 65,000", table, &value, components)
}

// C0 FF 06 12 34 02 01 00.
fn eight_octets() -> Workload {
    let mut table = Builder::new();
    let truth = table.boolean();
    let byte = table.integer(Some(0), Some(255));
    let word = table.integer(Some(0), Some(65_535));
    let limit = table.integer(Some(0), None);
    table.sequence(&[(truth, Optional), (byte, Default(5)), (word, Plain), (limit, Plain)]);
    let numbers = [6, 0x1234, 256].map(Value::Integer);
    let value = Value::Sequence([Value::Boolean(true)].into_iter().chain(numbers).collect());
    let components = vec![middle(&[1], Value::Integer(5)), end(&[3], Value::Integer(255))];
    Workload::of_value("8 octets", table, &value, components)
}

// 256 rows and 1,024 items: each row but the first is a SEQUENCE with all of the items.
fn shared_items() -> Workload {
    let mut table = Builder::new();
    let truth = table.boolean();
    let marks = [Plain, Optional, Default(0), Default(1)];
    table.sequence(&(0..1024).map(|i| (truth, marks[i % 4])).collect::<Vec<_>>());
    for _ in 2..256 {
        table.row([10, 0, 0, 0, 0, 1024]);
    }
    let value = Value::Sequence((0..1024).map(|i| Value::Boolean(i % 3 == 0)).collect());
    let components = vec![middle(&[513], Value::Absent), end(&[1023], Value::Boolean(true))];
    Workload::of_value("256 rows of 1,024 items", table, &value, components)
}

// 255 SEQUENCEs share 512 items, each with the last of 512 enumerated numbers as its DEFAULT.
fn defaults() -> Workload {
    let mut table = Builder::new();
    let numbers = table.enumerated(&(0..512).collect::<Vec<_>>());
    table.sequence(&[(numbers, Default(511)); 512]);
    for _ in 2..256 {
        table.row([10, 0, 0, 0, 512, 512]);
    }
    let whole = Workload::of_message("255 rows of 512 DEFAULTs", table, Vec::new(), List::default());
    Workload { table_only: true, ..whole }
}

// A tag that goes on for 65,000 octets and is in no table: 7.
fn long_tag() -> Workload {
    let mut table = Builder::new();
    let truth = table.boolean();
    table.choice(&[(2, 0, truth), (2, 63, truth)]);
    let mut message = vec![0x80; 65_000];
    message[0] = 0xBF;
    message[1] = 0x81;
    message[64_999] = 0;
    let components = vec![middle(&[0], Value::Boolean(true))];
    let whole = Workload::of_message("a tag of 65,000 octets", table, message, List::default());
    Workload { components, message_only: true, ..whole }
}

// 2,000 CHOICEs of 1,024 alternatives. The SEQUENCE OF reads the item (1, 0, 0), a tag of class 1, as its row 1.
fn alternatives() -> Workload {
    let mut table = Builder::new();
    let null = table.null();
    let tags: Vec<(u64, u64, u64)> = (0..1024).map(|i| (i / 512, i % 512 * 4000, null)).collect();
    table.choice(&tags);
    table.row([11, 0, 0, 0, 512, 1]);
    let chosen = |i: usize| Value::Choice(if i % 2 == 0 { 1023 } else { i * 37 % 1024 }, Box::new(Value::Null));
    let value = Value::SequenceOf((0..2000).map(chosen).collect());
    let components = vec![middle(&[1000], chosen(3)), end(&[1999], chosen(0))];
    Workload::of_value("CHOICE of 1,024", table, &value, components)
}

// Nesting 16: each row but the first is a SEQUENCE that names the row before it 68 times; the last of them is carried.
fn deepest() -> Workload {
    let mut table = Builder::new();
    let mut row = table.boolean();
    let mut value = Value::Boolean(true);
    for _ in 0..15 {
        row = table.sequence(&[(row, Optional); 68]);
        let mut components = vec![Value::Absent; 68];
        components[67] = value;
        value = Value::Sequence(components);
    }
    let components = vec![middle(&[67; 8], Value::Absent), end(&[67; 15], Value::Boolean(false))];
    Workload::of_value("nesting 16", table, &value, components)
}

// A quantity of 2^64-1 before elements that take no octets: 10 in a message, 11 in a list.
fn quantity() -> Workload {
    let mut table = Builder::new();
    let null = table.null();
    table.sequence_of(null);
    let message = [&[8][..], &[0xFF; 8]].concat();
    let nodes = [11, u64::MAX].into_iter().chain([6, 0].repeat(4095)).collect();
    let whole = Workload::of_message("a quantity of 2^64-1", table, message, List { nodes, contents: Vec::new() });
    Workload { components: vec![middle(&[0], Value::Null)], ..whole }
}

pub fn all() -> Vec<Workload> {
    let mut all = vec![yard::repeated("a yard of 4 KB", 4096), yard::of_renters("a message of 60 KB", 60 * 1024)];
    all.extend([tiny(), long_string(), eight_octets()]);
    all.extend([shared_items(), defaults(), long_tag(), alternatives(), deepest(), quantity()]);
    all
}

// The same yard with more and more renters.
pub fn growing() -> Vec<Workload> {
    [1, 2, 4, 8, 16, 32, 60].into_iter().map(|size| yard::of_renters(&format!("{size} KB"), size * 1024)).collect()
}
