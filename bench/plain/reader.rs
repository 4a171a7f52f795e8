// Reading a message: validate and decode.
use super::Cause::*;
use super::table::*;
use super::{Cause, Counts, Fault, MAX_NODES, MAX_OCTETS, Reply};

// Where a reading stores what it finds.
pub trait Sink {
    fn node(&mut self, i: usize, kind: u64, number: u64);
    fn contents(&mut self, to: usize, octets: &[u8]);
}

// Nowhere: the first pass.
pub struct Survey;

impl Sink for Survey {
    fn node(&mut self, _: usize, _: u64, _: u64) {}
    fn contents(&mut self, _: usize, _: &[u8]) {}
}

// In lent buffers that have the room: the second pass.
struct Fill<'b> {
    nodes: &'b mut [[u64; 2]],
    contents: &'b mut [u8],
}

impl Sink for Fill<'_> {
    fn node(&mut self, i: usize, kind: u64, number: u64) {
        self.nodes[i] = [kind, number];
    }

    fn contents(&mut self, to: usize, octets: &[u8]) {
        self.contents[to..to + octets.len()].copy_from_slice(octets);
    }
}

// A number of at most 8 octets.
fn unsigned_number(octets: &[u8]) -> u64 {
    octets.iter().fold(0, |n, &o| n << 8 | u64::from(o))
}

// A signed number in the fewest octets.
fn signed_number(octets: &[u8]) -> Result<u64, Cause> {
    match *octets {
        [] | [0, 0..=127, ..] | [255, 128..=255, ..] => Err(NotCanonical),
        _ if octets.len() > 8 => Err(Wide),
        [first, ..] => {
            let sign = if first < 128 { 0 } else { u64::MAX };
            Ok(octets.iter().fold(sign, |n, &o| n << 8 | u64::from(o)))
        }
    }
}

// Whether the unused low bits of a string's last octet are 0.
pub fn is_padded(octets: &[u8], unused: u32) -> bool {
    octets.last().is_none_or(|last| last & !(0xff << unused) == 0)
}

// A message being read: the octets left, the nodes and contents octets found. Leaves answer a cause; its place is the
// value's.
pub struct Reader<'a, S> {
    pub table: Table<'a>,
    length: usize,
    rest: &'a [u8],
    pub found: Counts,
    sink: S,
}

impl<'a, S: Sink> Reader<'a, S> {
    // All of a message is left.
    pub fn new(table: Table<'a>, msg: &'a [u8], sink: S) -> Reader<'a, S> {
        Reader { table, length: msg.len(), rest: msg, found: Counts::default(), sink }
    }

    pub fn at(&self) -> u32 {
        (self.length - self.rest.len()) as u32
    }

    fn octet(&mut self) -> Result<u8, Cause> {
        let (&first, rest) = self.rest.split_first().ok_or(Short)?;
        self.rest = rest;
        Ok(first)
    }

    fn array<const N: usize>(&mut self) -> Result<[u8; N], Cause> {
        let (&front, rest) = self.rest.split_first_chunk().ok_or(Short)?;
        self.rest = rest;
        Ok(front)
    }

    fn take(&mut self, n: usize) -> Result<&'a [u8], Cause> {
        let (front, rest) = self.rest.split_at_checked(n).ok_or(Short)?;
        self.rest = rest;
        Ok(front)
    }

    // A length determinant and the octets that it counts.
    fn run(&mut self) -> Result<&'a [u8], Cause> {
        let x = self.octet()?;
        if x < 128 {
            return self.take(x.into());
        }
        let octets = self.take((x - 128).into())?;
        match *octets {
            [] | [0, ..] => return Err(NotCanonical),
            _ if octets.len() > 8 => return Err(Short),
            _ => {}
        }
        let n = unsigned_number(octets);
        if n < 128 {
            return Err(NotCanonical);
        }
        self.take(usize::try_from(n).map_err(|_| Short)?)
    }

    // A variable-size unsigned number.
    fn unsigned(&mut self) -> Result<u64, Cause> {
        let octets = self.run()?;
        match *octets {
            [] | [0, _, ..] => Err(NotCanonical),
            _ if octets.len() > 8 => Err(Wide),
            _ => Ok(unsigned_number(octets)),
        }
    }

    fn boolean(&mut self) -> Result<u64, Cause> {
        match self.octet()? {
            0 => Ok(0),
            255 => Ok(1),
            _ => Err(NotCanonical),
        }
    }

    fn integer(&mut self, row: &Row) -> Result<u64, Cause> {
        let [_, flags, a, b, ..] = *row;
        let w = if is_unsigned(flags, a) {
            match b {
                _ if !has_upper(flags) => self.unsigned()?,
                0..=0xff => self.octet()?.into(),
                0x100..=0xffff => u16::from_be_bytes(self.array()?).into(),
                0x1_0000..=0xffff_ffff => u32::from_be_bytes(self.array()?).into(),
                _ => u64::from_be_bytes(self.array()?),
            }
        } else if has_lower(flags) && has_upper(flags) {
            let (low, high) = (a as i64, b as i64);
            if low >= i8::MIN.into() && high <= i8::MAX.into() {
                i8::from_be_bytes(self.array()?) as u64
            } else if low >= i16::MIN.into() && high <= i16::MAX.into() {
                i16::from_be_bytes(self.array()?) as u64
            } else if low >= i32::MIN.into() && high <= i32::MAX.into() {
                i32::from_be_bytes(self.array()?) as u64
            } else {
                u64::from_be_bytes(self.array()?)
            }
        } else {
            signed_number(self.run()?)?
        };
        if is_allowed(flags, a, b, w) { Ok(w) } else { Err(NotAllowed) }
    }

    fn enumerated(&mut self, row: &Row) -> Result<u64, Cause> {
        let x = self.octet()?;
        let w = if x < 128 {
            x.into()
        } else {
            match self.take((x - 128).into())? {
                [0..=127] => return Err(NotCanonical),
                octets => signed_number(octets)?,
            }
        };
        if is_listed(self.table.items_of(row), w) { Ok(w) } else { Err(NotAllowed) }
    }

    fn single(&mut self) -> Result<u64, Cause> {
        let bits = u32::from_be_bytes(self.array()?);
        if f32::from_bits(bits).is_nan() && bits != 0x7fc0_0000 { Err(NotCanonical) } else { Ok(bits.into()) }
    }

    fn double(&mut self) -> Result<u64, Cause> {
        let bits = u64::from_be_bytes(self.array()?);
        if f64::from_bits(bits).is_nan() && bits != 0x7ff8_0000_0000_0000 { Err(NotCanonical) } else { Ok(bits) }
    }

    fn store(&mut self, octets: &[u8]) {
        self.sink.contents(self.found.octets, octets);
        self.found.octets += octets.len();
    }

    // An OCTET STRING or a VisibleString.
    fn text(&mut self, row: &Row) -> Result<u64, Cause> {
        let [kind, flags, a, b, ..] = *row;
        let octets = if is_fixed(flags, a, b) { self.take(a as usize)? } else { self.run()? };
        let size = octets.len() as u64;
        // no way out of the loop over the characters, so that it runs on vectors
        let visible = |o: &u8| matches!(*o, 32..=126);
        if !is_sized(flags, a, b, size) || (kind == 9 && !octets.iter().fold(true, |all, o| all & visible(o))) {
            return Err(NotAllowed);
        }
        self.store(octets);
        Ok(size)
    }

    fn bits(&mut self, row: &Row) -> Result<u64, Cause> {
        let [_, flags, a, b, ..] = *row;
        if is_fixed(flags, a, b) {
            let octets = self.take(a.div_ceil(8) as usize)?;
            if !is_padded(octets, (octets.len() as u64 * 8 - a) as u32) {
                return Err(NotCanonical);
            }
            self.store(octets);
            return Ok(a);
        }
        let (&unused, octets) = self.run()?.split_first().ok_or(NotCanonical)?;
        if unused > 7 || (octets.is_empty() && unused != 0) || !is_padded(octets, unused.into()) {
            return Err(NotCanonical);
        }
        let size = octets.len() as u64 * 8 - u64::from(unused);
        if !is_sized(flags, a, b, size) {
            return Err(NotAllowed);
        }
        self.store(octets);
        Ok(size)
    }

    // A tag: class and number, which stops at one that no table has.
    fn tag(&mut self) -> Result<(u64, u64), Cause> {
        let x = u64::from(self.octet()?);
        if x % 64 < 63 {
            return Ok((x / 64, x % 64));
        }
        let first = self.octet()?;
        let mut number = u64::from(first % 128);
        let mut last = first;
        while last >= 128 {
            last = self.octet()?;
            number = (number << 7 | u64::from(last % 128)).min(MAX_TAG + 1);
        }
        if first == 128 || number < 63 {
            return Err(NotCanonical);
        }
        Ok((x / 64, number))
    }

    // Counts a node, before any octet of its value is looked at: its index.
    pub fn count(&mut self) -> Result<usize, Fault> {
        let i = self.found.nodes;
        if i == MAX_NODES {
            return Err(Fault { cause: Nodes, place: self.at() });
        }
        self.found.nodes += 1;
        Ok(i)
    }

    // A value of a row: the number of its node.
    pub fn value(&mut self, row: usize) -> Result<u64, Fault> {
        let node = self.count()?;
        let place = self.at();
        let row = &self.table.rows[row];
        let leaf = match row[0] {
            1 => self.boolean(),
            2 => self.integer(row),
            3 => self.enumerated(row),
            4 => self.single(),
            5 => self.double(),
            6 => Ok(0),
            7 | 9 => self.text(row),
            8 => self.bits(row),
            10 => Ok(self.sequence(row, place)?),
            11 => Ok(self.sequence_of(row, place)?),
            _ => Ok(self.choice(row, place)?),
        };
        let number = leaf.map_err(|cause| Fault { cause, place })?;
        self.sink.node(node, row[0], number);
        Ok(number)
    }

    // The presence bits of a SEQUENCE with these items.
    #[inline(always)]
    pub fn preamble(&mut self, items: &[Item], place: u32) -> Result<&'a [u8], Fault> {
        let marked = items.iter().filter(|item| item[1] != 0).count();
        let preamble = self.take(marked.div_ceil(8)).map_err(|cause| Fault { cause, place })?;
        if !is_padded(preamble, (preamble.len() * 8 - marked) as u32) {
            return Err(Fault { cause: NotCanonical, place });
        }
        Ok(preamble)
    }

    // A component, carried or not: the number of its node.
    #[inline(always)]
    pub fn component(&mut self, item: &Item, present: bool) -> Result<u64, Fault> {
        let [row, mark, default] = *item;
        if !present {
            let node = self.count()?;
            let kind = if mark == 1 { 0 } else { self.table.rows[row as usize][0] };
            self.sink.node(node, kind, default);
            return Ok(default);
        }
        let place = self.at();
        let number = self.value(row as usize)?;
        if number == default && mark == 2 {
            return Err(Fault { cause: NotCanonical, place });
        }
        Ok(number)
    }

    fn sequence(&mut self, row: &Row, place: u32) -> Result<u64, Fault> {
        let items = self.table.items_of(row);
        let preamble = self.preamble(items, place)?;
        let mut bit = 0;
        for item in items {
            if item[1] == 0 {
                self.value(item[0] as usize)?;
                continue;
            }
            let present = preamble[bit / 8] << (bit % 8) & 0x80 != 0;
            bit += 1;
            self.component(item, present)?;
        }
        Ok(items.len() as u64)
    }

    // The quantity of a SEQUENCE OF, and the row of its elements.
    #[inline(always)]
    pub fn quantity(&mut self, row: &Row, place: u32) -> Result<(u64, usize), Fault> {
        let quantity = self.unsigned().map_err(|cause| Fault { cause, place })?;
        Ok((quantity, self.table.items_of(row)[0][0] as usize))
    }

    fn sequence_of(&mut self, row: &Row, place: u32) -> Result<u64, Fault> {
        let (quantity, inner) = self.quantity(row, place)?;
        for _ in 0..quantity {
            self.value(inner)?;
        }
        Ok(quantity)
    }

    // The chosen alternative of a CHOICE, and its row.
    #[inline(always)]
    pub fn alternative(&mut self, row: &Row, place: u32) -> Result<(u64, usize), Fault> {
        let refused = |cause| Fault { cause, place };
        let items = self.table.items_of(row);
        let tag = self.tag().map_err(refused)?;
        let k = items.binary_search_by_key(&tag, |item| (item[0], item[1])).map_err(|_| refused(NotAllowed))?;
        Ok((k as u64, items[k][2] as usize))
    }

    fn choice(&mut self, row: &Row, place: u32) -> Result<u64, Fault> {
        let (k, inner) = self.alternative(row, place)?;
        self.value(inner)?;
        Ok(k)
    }

    // Nothing is left over.
    pub fn end(&self) -> Result<(), Reply> {
        if self.rest.is_empty() { Ok(()) } else { Err(Reply::refusal(LeftOver, 1, self.at().into())) }
    }
}

// The whole message, read into a sink: the first fault in reading order, then LEFT OVER.
fn read<S: Sink>(table: Table, row: usize, msg: &[u8], sink: S) -> Result<Counts, Reply> {
    let mut reader = Reader::new(table, msg, sink);
    reader.value(row).map_err(|fault| fault.in_part(1))?;
    reader.end()?;
    Ok(reader.found)
}

// The checked table and the asked row, then LONG of the message.
pub fn asked_of<'a>(rows: &'a [u64], items: &'a [u64], row: u64, msg: &[u8]) -> Result<(Table<'a>, usize), Reply> {
    let asked = asked(rows, items, row)?;
    if msg.len() > MAX_OCTETS {
        return Err(Reply::refusal(Long, 1, 0));
    }
    Ok(asked)
}

pub fn validate(rows: &[u64], items: &[u64], row: u64, msg: &[u8]) -> Result<Counts, Reply> {
    let (table, row) = asked_of(rows, items, row, msg)?;
    read(table, row, msg, Survey)
}

// Two passes: nothing is written before the whole message is known to be sound and to fit.
pub fn decode(
    rows: &[u64],
    items: &[u64],
    row: u64,
    msg: &[u8],
    nodes: &mut [u64],
    contents: &mut [u8],
) -> Result<Counts, Reply> {
    let (table, row) = asked_of(rows, items, row, msg)?;
    let counts = read(table, row, msg, Survey)?;
    let (nodes, _) = nodes.as_chunks_mut();
    if nodes.len() < counts.nodes || contents.len() < counts.octets {
        return Err(Reply::refusal(Room, 4, 0));
    }
    read(table, row, msg, Fill { nodes, contents })
}
