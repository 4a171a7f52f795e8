//! A value as lines, one setting a line (`renters.0.alarm.limit = 255`), and lines as a value.

use crate::leaf::Leaf;
use crate::schema::{Component, Schema, Type};
use oer::List;

/// A setting: where it is in names and in steps, and its text.
#[derive(Clone, Debug, PartialEq, Eq)]
pub struct Line {
    pub name: String,
    pub path: Vec<u64>,
    pub text: String,
    /// It is what a message without it stands for: absent, or its default.
    pub missing: bool,
}

/// The lines of a value list that the codec gave.
pub fn lines(schema: &Schema, list: &List) -> Vec<Line> {
    Walk::over(schema, list, &[]).lines
}

/// A component of a value: its row, its own list, how many children it has, and whether a message leaves it out.
pub struct Part {
    pub row: usize,
    pub list: List,
    pub children: u64,
    pub missing: bool,
}

/// The component at a path.
pub fn part(schema: &Schema, list: &List, path: &[u64]) -> Option<Part> {
    Walk::over(schema, list, path).part
}

struct Walk<'a> {
    schema: &'a Schema,
    list: &'a List,
    node: usize,
    used: usize,
    lines: Vec<Line>,
    wanted: &'a [u64],
    part: Option<Part>,
}

fn below(name: &str, part: &str) -> String {
    if name.is_empty() { part.to_string() } else { format!("{name}.{part}") }
}

fn step(path: &[u64], step: usize) -> Vec<u64> {
    [path, &[step as u64]].concat()
}

impl<'a> Walk<'a> {
    fn over(schema: &'a Schema, list: &'a List, wanted: &'a [u64]) -> Walk<'a> {
        let mut walk = Walk { schema, list, node: 0, used: 0, lines: Vec::new(), wanted, part: None };
        walk.component(schema.last(), String::new(), Vec::new(), None);
        walk
    }

    /// A value, and its part of the list if it is the one at the wanted path.
    fn component(&mut self, row: usize, name: String, path: Vec<u64>, component: Option<&Component>) {
        let (node, used, line) = (self.node, self.used, self.lines.len());
        let wanted = path == self.wanted;
        self.value(row, name, path, component);
        if wanted {
            let nodes = self.list.nodes[2 * node..2 * self.node].to_vec();
            let contents = self.list.contents[used..self.used].to_vec();
            let children = match nodes[0] {
                10 | 11 => nodes[1],
                12 => 1,
                _ => 0,
            };
            let missing = component.is_some() && self.lines.len() == line + 1 && self.lines[line].missing;
            self.part = Some(Part { row, list: List { nodes, contents }, children, missing });
        }
    }

    fn value(&mut self, row: usize, name: String, path: Vec<u64>, component: Option<&Component>) {
        let (kind, number) = (self.list.nodes[2 * self.node], self.list.nodes[2 * self.node + 1]);
        self.node += 1;
        let schema = self.schema;
        let default = component.and_then(|component| component.default);
        match &schema.types[row] {
            _ if kind == 0 => self.line(name, path, "absent".to_string(), true),
            Type::Sequence(components) => {
                for (place, component) in components.iter().enumerate() {
                    let name = below(&name, &component.name);
                    self.component(component.row, name, step(&path, place), Some(component));
                }
            }
            Type::List(_) if number == 0 => self.line(name, path, "{}".to_string(), default == Some(0)),
            Type::List(element) => {
                for place in 0..number as usize {
                    self.component(*element, below(&name, &place.to_string()), step(&path, place), None);
                }
            }
            Type::Choice(alternatives) => {
                let (alternative, row) = &alternatives[number as usize];
                self.component(*row, below(&name, alternative), step(&path, 0), None);
            }
            leaf => {
                let size = match kind {
                    7 | 9 => number as usize,
                    8 => number.div_ceil(8) as usize,
                    _ => 0,
                };
                let text = Leaf::show(leaf, number, &self.list.contents[self.used..self.used + size]);
                self.used += size;
                self.line(name, path, text, default == Some(number));
            }
        }
    }

    fn line(&mut self, name: String, path: Vec<u64>, text: String, missing: bool) {
        self.lines.push(Line { name, path, text, missing });
    }
}

/// The row, the steps and the mark of a component by its name; lists by number, a CHOICE's alternative by its name.
pub fn find(schema: &Schema, name: &str) -> Result<(usize, Vec<u64>), String> {
    let (mut row, mut path) = (schema.last(), Vec::new());
    for part in name.split('.').filter(|part| !part.is_empty()) {
        let found = match &schema.types[row] {
            Type::Sequence(components) => {
                components.iter().position(|c| c.name == part).map(|place| (components[place].row, place as u64))
            }
            Type::List(element) => part.parse().ok().map(|place| (*element, place)),
            Type::Choice(alternatives) => alternatives.iter().find(|(n, _)| n == part).map(|(_, row)| (*row, 0)),
            _ => None,
        };
        let (next, step) = found.ok_or(format!("{name}: there is no {part}"))?;
        row = next;
        path.push(step);
    }
    Ok((row, path))
}

/// The value list of a text of settings.
pub fn pack(schema: &Schema, text: &str) -> Result<List, String> {
    let mut settings = Vec::new();
    for (number, line) in (1..).zip(text.lines().map(str::trim)) {
        if line.is_empty() || line.starts_with('#') {
            continue;
        }
        let (name, value) = line.split_once('=').ok_or(format!("line {number}: a setting is NAME = VALUE"))?;
        find(schema, name.trim()).map_err(|error| format!("line {number}: {error}"))?;
        settings.push((name.trim().to_string(), value.trim().to_string()));
    }
    let mut packer = Packer { schema, settings, list: List::default() };
    packer.value(schema.last(), "")?;
    Ok(packer.list)
}

struct Packer<'a> {
    schema: &'a Schema,
    settings: Vec<(String, String)>,
    list: List,
}

impl Packer<'_> {
    fn text(&self, name: &str) -> Option<&str> {
        self.settings.iter().find(|(known, _)| known == name).map(|(_, text)| text.as_str())
    }

    /// Whether there is a setting of this name or below it.
    fn named(&self, name: &str) -> bool {
        let inside = format!("{name}.");
        self.settings.iter().any(|(known, _)| known == name || known.starts_with(&inside))
    }

    fn node(&mut self, kind: u64, number: u64) {
        self.list.nodes.extend([kind, number]);
    }

    fn value(&mut self, row: usize, name: &str) -> Result<(), String> {
        let schema = self.schema;
        match &schema.types[row] {
            Type::Sequence(components) => {
                self.node(10, components.len() as u64);
                components.iter().try_for_each(|component| self.component(component, &below(name, &component.name)))
            }
            Type::List(element) => {
                let count = (0..).take_while(|place: &usize| self.named(&below(name, &place.to_string()))).count();
                self.node(11, count as u64);
                (0..count).try_for_each(|place| self.value(*element, &below(name, &place.to_string())))
            }
            Type::Choice(alternatives) => {
                let place = alternatives.iter().position(|(alternative, _)| self.named(&below(name, alternative)));
                let place = place.ok_or(format!("{name}: no alternative is given"))?;
                self.node(12, place as u64);
                self.value(alternatives[place].1, &below(name, &alternatives[place].0))
            }
            leaf => {
                let text = self.text(name).ok_or(format!("{name} is missing"))?;
                let leaf = Leaf::parse(leaf, text).map_err(|error| format!("{name}: {error}"))?;
                self.node(leaf.kind, leaf.number);
                self.list.contents.extend(leaf.contents);
                Ok(())
            }
        }
    }

    fn component(&mut self, component: &Component, name: &str) -> Result<(), String> {
        let left_out = !self.named(name) || self.text(name) == Some("absent");
        match component.default {
            _ if left_out && component.optional => self.node(0, 0),
            Some(default) if left_out => {
                let kind = self.schema.rows[6 * component.row];
                self.node(kind, default);
            }
            _ => return self.value(component.row, name),
        }
        Ok(())
    }
}
