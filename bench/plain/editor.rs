// Editing at a path, and reading a single setting: the component is found in the same pass that validates the whole
// message.
use super::Cause::*;
use super::reader::{Reader, Survey, asked_of};
use super::table::*;
use super::writer::{Measure, Put, write};
use super::{Counts, Fault, MAX_NODES, MAX_OCTETS, Reply};

// A component: its item, and the octet and the bit of its presence if it has one.
#[derive(Clone, Copy)]
struct Component {
    item: Item,
    presence: Option<(usize, u8)>,
}

// The component at the path: its octets in the message, its nodes, and its own node.
#[derive(Clone, Copy)]
struct Found {
    component: Component,
    start: usize,
    end: usize,
    nodes: usize,
    kind: u64,
    number: u64,
}

// The component, or the first step that leads nowhere.
type Trail = Result<Found, usize>;

impl<'a> Reader<'a, Survey> {
    // A component that the first `depth` steps led to, with the steps that are left.
    fn follow(&mut self, here: Component, present: bool, path: &[u64], depth: usize) -> Result<Trail, Fault> {
        let Some((&step, steps)) = path.split_first().filter(|_| present) else {
            let (start, before) = (self.at() as usize, self.found.nodes);
            let number = self.component(&here.item, present)?;
            if !path.is_empty() {
                return Ok(Err(depth));
            }
            let [row, mark, _] = here.item;
            let kind = if present || mark == 2 { self.table.rows[row as usize][0] } else { 0 };
            let nodes = self.found.nodes - before;
            return Ok(Ok(Found { component: here, start, end: self.at() as usize, nodes, kind, number }));
        };
        let place = self.at();
        let row = self.table.rows[here.item[0] as usize];
        match row[0] {
            10 => self.follow_sequence(&row, step, steps, depth),
            11 => {
                let (quantity, trail) = self.follow_sequence_of(&row, step, steps, depth)?;
                if here.item[1] == 2 && quantity == 0 {
                    return Err(Fault { cause: NotCanonical, place });
                }
                Ok(trail)
            }
            12 => self.follow_choice(&row, step, steps, depth),
            _ => self.component(&here.item, present).map(|_| Err(depth)),
        }
    }

    fn follow_sequence(&mut self, row: &Row, step: u64, steps: &[u64], depth: usize) -> Result<Trail, Fault> {
        self.count()?;
        let place = self.at();
        let items = self.table.items_of(row);
        let preamble = self.preamble(items, place)?;
        let (mut bit, mut trail) = (0, Err(depth));
        for (k, item) in items.iter().enumerate() {
            let mut present = true;
            let mut presence = None;
            if item[1] != 0 {
                let mask = 0x80 >> (bit % 8);
                present = preamble[bit / 8] & mask != 0;
                presence = Some((place as usize + bit / 8, mask));
                bit += 1;
            }
            if k as u64 == step {
                trail = self.follow(Component { item: *item, presence }, present, steps, depth + 1)?;
            } else {
                self.component(item, present)?;
            }
        }
        Ok(trail)
    }

    fn follow_sequence_of(&mut self, row: &Row, step: u64, steps: &[u64], depth: usize) -> Result<(u64, Trail), Fault> {
        self.count()?;
        let (quantity, inner) = self.quantity(row, self.at())?;
        let element = Component { item: [inner as u64, 0, 0], presence: None };
        if step >= quantity {
            for _ in 0..quantity {
                self.value(inner)?;
            }
            return Ok((quantity, Err(depth)));
        }
        for _ in 0..step {
            self.value(inner)?;
        }
        let trail = self.follow(element, true, steps, depth + 1)?;
        for _ in step + 1..quantity {
            self.value(inner)?;
        }
        Ok((quantity, trail))
    }

    fn follow_choice(&mut self, row: &Row, step: u64, steps: &[u64], depth: usize) -> Result<Trail, Fault> {
        self.count()?;
        let (_, inner) = self.alternative(row, self.at())?;
        if step == 0 {
            return self.follow(Component { item: [inner as u64, 0, 0], presence: None }, true, steps, depth + 1);
        }
        self.value(inner)?;
        Ok(Err(depth))
    }
}

// The component at the path and the nodes of the whole value: as decode up to LEFT OVER, then PATH.
fn find(table: Table, row: usize, msg: &[u8], path: &[u64]) -> Result<(Found, usize), Reply> {
    let mut reader = Reader::new(table, msg, Survey);
    let whole = Component { item: [row as u64, 0, 0], presence: None };
    let trail = reader.follow(whole, true, path, 0).map_err(|fault| fault.in_part(1))?;
    reader.end()?;
    let found = trail.map_err(|step| Reply::refusal(Path, 3, step as u64))?;
    Ok((found, reader.found.nodes))
}

// The message with a new list at the path. Nothing is written before the result is known to fit; then the octets in
// front and those behind are copied once, the new ones written between them, and at most one presence bit is changed.
pub fn edit(
    rows: &[u64],
    items: &[u64],
    row: u64,
    msg: &[u8],
    path: &[u64],
    nodes: &[u64],
    contents: &[u8],
    out: &mut [u8],
) -> Result<Counts, Reply> {
    let (table, row) = asked_of(rows, items, row, msg)?;
    let (found, all) = find(table, row, msg, path)?;
    let item = &found.component.item;
    let new = write(table, item, nodes, contents, Measure).map_err(|fault| fault.in_part(2))?;
    if all - found.nodes + nodes.len() / 2 > MAX_NODES {
        return Err(Reply::refusal(Nodes, 4, 0));
    }
    let (front, back) = (&msg[..found.start], &msg[found.end..]);
    let octets = front.len() + new.octets + back.len();
    if octets > MAX_OCTETS {
        return Err(Reply::refusal(Long, 4, 0));
    }
    let out = out.get_mut(..octets).ok_or(Reply::refusal(Room, 4, 0))?;
    out[..found.start].copy_from_slice(front);
    let (between, behind) = out[found.start..].split_at_mut(new.octets);
    write(table, item, nodes, contents, Put(between)).map_err(|fault| fault.in_part(2))?;
    behind.copy_from_slice(back);
    if let Some((octet, mask)) = found.component.presence {
        if new.carried {
            out[octet] |= mask;
        } else {
            out[octet] &= !mask;
        }
    }
    Ok(Counts { nodes: 0, octets })
}

// What a setting is, and its word, as include/oer.h numbers them.
pub fn read_setting(rows: &[u64], items: &[u64], row: u64, msg: &[u8], path: &[u64]) -> Result<(u64, u64), Reply> {
    let (table, row) = asked_of(rows, items, row, msg)?;
    let (Found { component, kind, number, .. }, _) = find(table, row, msg, path)?;
    let [_, flags, a, ..] = table.rows[component.item[0] as usize];
    Ok(match kind {
        0 => (1, 0),
        1 => (2, number),
        2 if is_unsigned(flags, a) => (3, number),
        2 | 3 => (4, number),
        4 => (5, number),
        5 => (6, number),
        7..=9 => (7, number),
        12 => (8, 1),
        _ => (8, number),
    })
}
