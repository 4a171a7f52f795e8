// Writing a value list: measure and encode.
use super::Cause::*;
use super::reader::is_padded;
use super::table::*;
use super::{Cause, Counts, Fault, MAX_NODES, MAX_OCTETS, Reply};

// Where a writing puts its octets.
pub trait Out {
    fn octet(&mut self, to: usize, octet: u8);
    fn octets(&mut self, to: usize, octets: &[u8]);
    fn set(&mut self, at: usize, bits: u8);
}

// Nowhere: the first pass.
pub struct Measure;

impl Out for Measure {
    fn octet(&mut self, _: usize, _: u8) {}
    fn octets(&mut self, _: usize, _: &[u8]) {}
    fn set(&mut self, _: usize, _: u8) {}
}

// In a lent buffer that has the room: the second pass.
pub struct Put<'b>(pub &'b mut [u8]);

impl Out for Put<'_> {
    fn octet(&mut self, to: usize, octet: u8) {
        self.0[to] = octet;
    }

    fn octets(&mut self, to: usize, octets: &[u8]) {
        self.0[to..to + octets.len()].copy_from_slice(octets);
    }

    fn set(&mut self, at: usize, bits: u8) {
        self.0[at] |= bits;
    }
}

// How many octets an unsigned number takes, at least one.
fn unsigned_size(w: u64) -> usize {
    (71 - (w | 1).leading_zeros() as usize) / 8
}

// How many octets a signed number takes in two's complement, at least one.
fn signed_size(w: u64) -> usize {
    let bits = w ^ (w as i64 >> 63) as u64;
    (72 - bits.leading_zeros() as usize) / 8
}

// A value list being written: the next node, the contents left, the octets put. Leaves answer a cause; its place is
// the node.
pub struct Writer<'a, O> {
    table: Table<'a>,
    nodes: &'a [[u64; 2]],
    next: usize,
    contents: &'a [u8],
    to: usize,
    out: O,
}

impl<'a, O: Out> Writer<'a, O> {
    fn octet(&mut self, octet: u8) {
        self.out.octet(self.to, octet);
        self.to += 1;
    }

    fn octets(&mut self, octets: &[u8]) {
        self.out.octets(self.to, octets);
        self.to += octets.len();
    }

    // The low octets of a number, big end first.
    fn low(&mut self, w: u64, size: usize) {
        for i in (0..size).rev() {
            self.octet((w >> (8 * i)) as u8);
        }
    }

    fn determinant(&mut self, length: usize) {
        if length >= 128 {
            let size = unsigned_size(length as u64);
            self.octet(128 + size as u8);
            return self.low(length as u64, size);
        }
        self.octet(length as u8);
    }

    fn unsigned(&mut self, w: u64) {
        let size = unsigned_size(w);
        self.octet(size as u8);
        self.low(w, size);
    }

    fn integer(&mut self, row: &Row, w: u64) -> Result<(), Cause> {
        let [_, flags, a, b, ..] = *row;
        if !is_allowed(flags, a, b, w) {
            return Err(NotAllowed);
        }
        if is_unsigned(flags, a) {
            match b {
                _ if !has_upper(flags) => self.unsigned(w),
                0..=0xff => self.octet(w as u8),
                0x100..=0xffff => self.octets(&(w as u16).to_be_bytes()),
                0x1_0000..=0xffff_ffff => self.octets(&(w as u32).to_be_bytes()),
                _ => self.octets(&w.to_be_bytes()),
            }
        } else if has_lower(flags) && has_upper(flags) {
            let (low, high) = (a as i64, b as i64);
            if low >= i8::MIN.into() && high <= i8::MAX.into() {
                self.octet(w as u8);
            } else if low >= i16::MIN.into() && high <= i16::MAX.into() {
                self.octets(&(w as u16).to_be_bytes());
            } else if low >= i32::MIN.into() && high <= i32::MAX.into() {
                self.octets(&(w as u32).to_be_bytes());
            } else {
                self.octets(&w.to_be_bytes());
            }
        } else {
            let size = signed_size(w);
            self.octet(size as u8);
            self.low(w, size);
        }
        Ok(())
    }

    fn enumerated(&mut self, row: &Row, w: u64) -> Result<(), Cause> {
        if !is_listed(self.table.items_of(row), w) {
            return Err(NotAllowed);
        }
        if w >= 128 {
            let size = signed_size(w);
            self.octet(128 + size as u8);
            self.low(w, size);
        } else {
            self.octet(w as u8);
        }
        Ok(())
    }

    fn single(&mut self, w: u64) -> Result<(), Cause> {
        let bits = u32::try_from(w).map_err(|_| List)?;
        if f32::from_bits(bits).is_nan() && bits != 0x7fc0_0000 {
            return Err(NotAllowed);
        }
        self.octets(&bits.to_be_bytes());
        Ok(())
    }

    fn double(&mut self, w: u64) -> Result<(), Cause> {
        if f64::from_bits(w).is_nan() && w != 0x7ff8_0000_0000_0000 {
            return Err(NotAllowed);
        }
        self.octets(&w.to_be_bytes());
        Ok(())
    }

    // The next octets of the contents list.
    fn take(&mut self, size: u64) -> Result<&'a [u8], Cause> {
        let size = usize::try_from(size).map_err(|_| List)?;
        let (octets, rest) = self.contents.split_at_checked(size).ok_or(List)?;
        self.contents = rest;
        Ok(octets)
    }

    // An OCTET STRING or a VisibleString.
    fn text(&mut self, row: &Row, size: u64) -> Result<(), Cause> {
        let [kind, flags, a, b, ..] = *row;
        let octets = self.take(size)?;
        // no way out of the loop over the characters, so that it runs on vectors
        let visible = |o: &u8| matches!(*o, 32..=126);
        if !is_sized(flags, a, b, size) || (kind == 9 && !octets.iter().fold(true, |all, o| all & visible(o))) {
            return Err(NotAllowed);
        }
        if !is_fixed(flags, a, b) {
            self.determinant(octets.len());
        }
        self.octets(octets);
        Ok(())
    }

    fn bits(&mut self, row: &Row, size: u64) -> Result<(), Cause> {
        let [_, flags, a, b, ..] = *row;
        let octets = self.take(size.div_ceil(8))?;
        let unused = (octets.len() as u64 * 8 - size) as u8;
        if !is_padded(octets, unused.into()) {
            return Err(List);
        }
        if !is_sized(flags, a, b, size) {
            return Err(NotAllowed);
        }
        if !is_fixed(flags, a, b) {
            self.determinant(octets.len() + 1);
            self.octet(unused);
        }
        self.octets(octets);
        Ok(())
    }

    fn tag(&mut self, class: u64, number: u64) {
        let class = (class << 6) as u8;
        if number < 63 {
            return self.octet(class | number as u8);
        }
        self.octet(class | 63);
        if number >= 1 << 14 {
            self.octet((number >> 14) as u8 | 128);
        }
        if number >= 1 << 7 {
            self.octet((number >> 7) as u8 | 128);
        }
        self.octet(number as u8 & 127);
    }

    // A value of a row.
    fn value(&mut self, row: usize) -> Result<(), Fault> {
        let place = self.next as u32;
        let refused = |cause| Fault { cause, place };
        let &[kind, number] = self.nodes.get(self.next).ok_or(refused(List))?;
        self.next += 1;
        let row = &self.table.rows[row];
        if kind != row[0] {
            return Err(refused(List));
        }
        let leaf = match kind {
            1 if number < 2 => Ok(self.octet(if number == 1 { 255 } else { 0 })),
            2 => self.integer(row, number),
            3 => self.enumerated(row, number),
            4 => self.single(number),
            5 => self.double(number),
            6 if number == 0 => Ok(()),
            7 | 9 => self.text(row, number),
            8 => self.bits(row, number),
            10 => return self.sequence(row, number, place),
            11 => return self.sequence_of(row, number),
            12 => return self.choice(row, number, place),
            _ => Err(List),
        };
        leaf.map_err(refused)
    }

    // A component: whether it is carried.
    fn component(&mut self, item: &Item) -> Result<bool, Fault> {
        let [row, mark, default] = *item;
        match (mark, self.nodes.get(self.next)) {
            (1, Some(&[0, 0])) => {}
            (2, Some(&[kind, number])) if number == default && kind == self.table.rows[row as usize][0] => {}
            _ => {
                self.value(row as usize)?;
                return Ok(true);
            }
        }
        self.next += 1;
        Ok(false)
    }

    fn sequence(&mut self, row: &Row, number: u64, place: u32) -> Result<(), Fault> {
        let items = self.table.items_of(row);
        if number != items.len() as u64 {
            return Err(Fault { cause: List, place });
        }
        let preamble = self.to;
        let marked = items.iter().filter(|item| item[1] != 0).count();
        for _ in 0..marked.div_ceil(8) {
            self.octet(0);
        }
        let mut bit = 0;
        for item in items {
            if item[1] == 0 {
                self.value(item[0] as usize)?;
                continue;
            }
            if self.component(item)? {
                self.out.set(preamble + bit / 8, 0x80 >> (bit % 8));
            }
            bit += 1;
        }
        Ok(())
    }

    fn sequence_of(&mut self, row: &Row, number: u64) -> Result<(), Fault> {
        let inner = self.table.items_of(row)[0][0] as usize;
        self.unsigned(number);
        for _ in 0..number {
            self.value(inner)?;
        }
        Ok(())
    }

    fn choice(&mut self, row: &Row, number: u64, place: u32) -> Result<(), Fault> {
        let items = self.table.items_of(row);
        let chosen = usize::try_from(number).ok().and_then(|k| items.get(k));
        let &[class, number, inner] = chosen.ok_or(Fault { cause: List, place })?;
        self.tag(class, number);
        self.value(inner as usize)
    }
}

// How many octets a list for a component takes, and whether the component is carried.
#[derive(Clone, Copy)]
pub struct Written {
    pub octets: usize,
    pub carried: bool,
}

// A whole list for a component: an odd word, NODES, LONG, the walk, nodes left over, contents left over.
pub fn write<O: Out>(table: Table, item: &Item, words: &[u64], contents: &[u8], out: O) -> Result<Written, Fault> {
    let (nodes, odd) = words.as_chunks();
    let count = nodes.len() as u32;
    if !odd.is_empty() {
        return Err(Fault { cause: List, place: count });
    }
    if nodes.len() > MAX_NODES {
        return Err(Fault { cause: Nodes, place: 0 });
    }
    if contents.len() > MAX_OCTETS {
        return Err(Fault { cause: Long, place: 0 });
    }
    let mut writer = Writer { table, nodes, next: 0, contents, to: 0, out };
    let carried = writer.component(item)?;
    if writer.next < nodes.len() {
        return Err(Fault { cause: List, place: writer.next as u32 });
    }
    if !writer.contents.is_empty() {
        return Err(Fault { cause: List, place: count });
    }
    Ok(Written { octets: writer.to, carried })
}

// The result's octets, with all that comes before ROOM.
fn survey(table: Table, item: &Item, nodes: &[u64], contents: &[u8]) -> Result<usize, Reply> {
    let written = write(table, item, nodes, contents, Measure).map_err(|fault| fault.in_part(2))?;
    if written.octets > MAX_OCTETS {
        return Err(Reply::refusal(Long, 4, 0));
    }
    Ok(written.octets)
}

pub fn measure(rows: &[u64], items: &[u64], row: u64, nodes: &[u64], contents: &[u8]) -> Result<Counts, Reply> {
    let (table, row) = asked(rows, items, row)?;
    let octets = survey(table, &[row as u64, 0, 0], nodes, contents)?;
    Ok(Counts { nodes: 0, octets })
}

// Two passes: nothing is written before the whole list is known to be sound and its message to fit.
pub fn encode(
    rows: &[u64],
    items: &[u64],
    row: u64,
    nodes: &[u64],
    contents: &[u8],
    out: &mut [u8],
) -> Result<Counts, Reply> {
    let (table, row) = asked(rows, items, row)?;
    let item = [row as u64, 0, 0];
    let octets = survey(table, &item, nodes, contents)?;
    let out = out.get_mut(..octets).ok_or(Reply::refusal(Room, 4, 0))?;
    write(table, &item, nodes, contents, Put(out)).map_err(|fault| fault.in_part(2))?;
    Ok(Counts { nodes: 0, octets })
}
