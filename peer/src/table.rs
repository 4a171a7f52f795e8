//! The type table (document 01, "The type table"): two lists of words become types, or the first fault.

use crate::reply::{Fault, TABLE_ROW, TABLE_SIZE, must};

pub const ROW_WORDS: usize = 6;
pub const ITEM_WORDS: usize = 3;
pub const MOST_ROWS: usize = 256;
pub const MOST_ITEMS: usize = 1024;
pub const MOST_NESTING: usize = 16;
pub const MOST_SIZE: u64 = 65_535;
pub const MOST_TAG: u64 = 2_097_151;

/// A type. Types that hold others name their rows.
#[derive(Clone, Debug, PartialEq, Eq)]
pub enum Type {
    Boolean,
    Integer(Bounds),
    Enumerated(Vec<i64>),
    Single,
    Double,
    Null,
    Octets(Size),
    Bits(Size),
    Visible(Size),
    Sequence(Vec<Component>),
    SequenceOf(usize),
    Choice(Vec<Alternative>),
}

/// Bounds of an INTEGER, as numbers.
#[derive(Clone, Copy, Debug, PartialEq, Eq)]
pub struct Bounds {
    pub low: Option<i128>,
    pub high: Option<i128>,
}

/// Sizes of a string, in octets, bits or characters.
#[derive(Clone, Copy, Debug, PartialEq, Eq)]
pub struct Size {
    pub least: u64,
    pub greatest: Option<u64>,
}

#[derive(Clone, Copy, Debug, PartialEq, Eq)]
pub enum Mark {
    Plain,
    Optional,
    /// With the default as a value list's number.
    Default(u64),
}

#[derive(Clone, Copy, Debug, PartialEq, Eq)]
pub struct Component {
    pub row: usize,
    pub mark: Mark,
}

#[derive(Clone, Copy, Debug, PartialEq, Eq)]
pub struct Alternative {
    pub class: u64,
    pub number: u64,
    pub row: usize,
}

/// A sound table: one type a row.
#[derive(Clone, Debug, PartialEq, Eq)]
pub struct Table {
    pub types: Vec<Type>,
}

impl Bounds {
    /// Unsigned if the lower bound is there and at least 0 (10.2).
    pub fn unsigned(&self) -> bool {
        self.low.is_some_and(|low| low >= 0)
    }

    /// A word as a number of this type: unsigned, or in two's complement.
    pub fn number(&self, word: u64) -> i128 {
        if self.unsigned() { word as i128 } else { word as i64 as i128 }
    }

    pub fn allow(&self, number: i128) -> bool {
        self.low.is_none_or(|low| low <= number) && self.high.is_none_or(|high| number <= high)
    }

    /// How many octets a number of fixed size has (10.3, 10.4); none if its size varies.
    pub fn width(&self) -> Option<usize> {
        let (low, high) = (self.low?, self.high?);
        [1, 2, 4, 8].into_iter().find(|&octets| {
            let bits = 8 * octets as u32;
            if self.unsigned() {
                high < 1i128 << bits
            } else {
                -(1i128 << (bits - 1)) <= low && high < 1i128 << (bits - 1)
            }
        })
    }
}

impl Size {
    /// The size, if there is one only: then no length determinant is written.
    pub fn fixed(&self) -> Option<u64> {
        self.greatest.filter(|&greatest| greatest == self.least)
    }

    pub fn allows(&self, size: u64) -> bool {
        self.least <= size && self.greatest.is_none_or(|greatest| size <= greatest)
    }
}

impl Type {
    pub fn kind(&self) -> u64 {
        match self {
            Type::Boolean => 1,
            Type::Integer(_) => 2,
            Type::Enumerated(_) => 3,
            Type::Single => 4,
            Type::Double => 5,
            Type::Null => 6,
            Type::Octets(_) => 7,
            Type::Bits(_) => 8,
            Type::Visible(_) => 9,
            Type::Sequence(_) => 10,
            Type::SequenceOf(_) => 11,
            Type::Choice(_) => 12,
        }
    }

    /// The rows that it names.
    pub fn rows(&self) -> Vec<usize> {
        match self {
            Type::Sequence(components) => components.iter().map(|c| c.row).collect(),
            Type::SequenceOf(row) => vec![*row],
            Type::Choice(alternatives) => alternatives.iter().map(|a| a.row).collect(),
            _ => Vec::new(),
        }
    }

    /// Whether a DEFAULT component of this type may have this default word.
    fn takes_default(&self, word: u64) -> bool {
        match self {
            Type::Boolean => word <= 1,
            Type::Integer(bounds) => bounds.allow(bounds.number(word)),
            Type::Enumerated(numbers) => numbers.contains(&(word as i64)),
            Type::SequenceOf(_) => word == 0,
            _ => false,
        }
    }
}

impl Table {
    /// The table of these words, or 1 at 0, or 2 at the first row that breaks a rule.
    pub fn check(rows: &[u64], items: &[u64]) -> Result<Table, Fault> {
        let row_count = rows.len() / ROW_WORDS;
        let whole = rows.len().is_multiple_of(ROW_WORDS) && items.len().is_multiple_of(ITEM_WORDS);
        let in_range = (1..=MOST_ROWS).contains(&row_count) && items.len() / ITEM_WORDS <= MOST_ITEMS;
        must(whole && in_range, TABLE_SIZE, 0)?;
        let mut types: Vec<Type> = Vec::with_capacity(row_count);
        // The nesting of each row so far, worked out once: rows share rows.
        let mut nestings: Vec<usize> = Vec::with_capacity(row_count);
        for (row, words) in rows.chunks(ROW_WORDS).enumerate() {
            let fault = Fault::at(TABLE_ROW, row);
            let this = row_type(words, items, &types).ok_or(fault)?;
            let nesting = 1 + this.rows().iter().map(|&r| nestings[r]).max().unwrap_or(0);
            must(nesting <= MOST_NESTING, TABLE_ROW, row)?;
            types.push(this);
            nestings.push(nesting);
        }
        Ok(Table { types })
    }

    pub fn get(&self, row: usize) -> &Type {
        &self.types[row]
    }
}

/// The type of a row; none if the row breaks a rule. `earlier` are the types of the rows with smaller numbers.
fn row_type(words: &[u64], items: &[u64], earlier: &[Type]) -> Option<Type> {
    let [kind, flags, a, b, first, count] = words.try_into().ok()?;
    let items = item_range(items, first, count)?;
    let no_items = first == 0 && count == 0;
    let no_bounds = flags == 0 && a == 0 && b == 0;
    match kind {
        1 | 4 | 5 | 6 if no_items && no_bounds => Some(match kind {
            1 => Type::Boolean,
            4 => Type::Single,
            5 => Type::Double,
            _ => Type::Null,
        }),
        2 if no_items => Some(Type::Integer(bounds(flags, a, b)?)),
        3 if no_bounds => Some(Type::Enumerated(enumeration(items)?)),
        7 if no_items => Some(Type::Octets(sizes(flags, a, b)?)),
        8 if no_items => Some(Type::Bits(sizes(flags, a, b)?)),
        9 if no_items => Some(Type::Visible(sizes(flags, a, b)?)),
        10 if no_bounds => Some(Type::Sequence(components(items, earlier)?)),
        11 if no_bounds => Some(Type::SequenceOf(element(items, earlier)?)),
        12 if no_bounds => Some(Type::Choice(alternatives(items, earlier)?)),
        _ => None,
    }
}

/// The items of a range, which lies inside the list; an empty one may start at the list's end.
fn item_range(items: &[u64], first: u64, count: u64) -> Option<&[u64]> {
    let end = first.checked_add(count)?;
    if end > (items.len() / ITEM_WORDS) as u64 {
        return None;
    }
    Some(&items[first as usize * ITEM_WORDS..end as usize * ITEM_WORDS])
}

fn bounds(flags: u64, a: u64, b: u64) -> Option<Bounds> {
    let (has_low, has_high) = (flags & 1 != 0, flags & 2 != 0);
    if flags > 3 || (!has_low && a != 0) || (!has_high && b != 0) {
        return None;
    }
    let low = has_low.then_some(a as i64 as i128);
    let unsigned = low.is_some_and(|low| low >= 0);
    let high = has_high.then_some(if unsigned { b as i128 } else { b as i64 as i128 });
    if low.is_some_and(|low| high.is_some_and(|high| low > high)) {
        return None;
    }
    Some(Bounds { low, high })
}

fn sizes(flags: u64, a: u64, b: u64) -> Option<Size> {
    let greatest = (flags == 2).then_some(b);
    let flags_known = flags == 0 || flags == 2;
    let unset_is_0 = flags == 2 || b == 0;
    let in_range = a <= MOST_SIZE && b <= MOST_SIZE && greatest.is_none_or(|greatest| a <= greatest);
    (flags_known && unset_is_0 && in_range).then_some(Size { least: a, greatest })
}

fn enumeration(items: &[u64]) -> Option<Vec<i64>> {
    let numbers: Vec<i64> = items.chunks(ITEM_WORDS).map(|item| item[0] as i64).collect();
    let no_other_words = items.chunks(ITEM_WORDS).all(|item| item[1] == 0 && item[2] == 0);
    let ascending = numbers.windows(2).all(|pair| pair[0] < pair[1]);
    (!numbers.is_empty() && no_other_words && ascending).then_some(numbers)
}

/// A row number that names an earlier row.
fn earlier_row(word: u64, earlier: &[Type]) -> Option<usize> {
    (word < earlier.len() as u64).then_some(word as usize)
}

fn components(items: &[u64], earlier: &[Type]) -> Option<Vec<Component>> {
    items.chunks(ITEM_WORDS).map(|item| component(item, earlier)).collect()
}

fn component(item: &[u64], earlier: &[Type]) -> Option<Component> {
    let row = earlier_row(item[0], earlier)?;
    let mark = match item[1] {
        0 if item[2] == 0 => Mark::Plain,
        1 if item[2] == 0 => Mark::Optional,
        2 if earlier[row].takes_default(item[2]) => Mark::Default(item[2]),
        _ => return None,
    };
    Some(Component { row, mark })
}

fn element(items: &[u64], earlier: &[Type]) -> Option<usize> {
    match items {
        [row, 0, 0] => earlier_row(*row, earlier),
        _ => None,
    }
}

fn alternatives(items: &[u64], earlier: &[Type]) -> Option<Vec<Alternative>> {
    let all: Vec<Alternative> = items
        .chunks(ITEM_WORDS)
        .map(|item| Some(Alternative { class: item[0], number: item[1], row: earlier_row(item[2], earlier)? }))
        .collect::<Option<_>>()?;
    let in_range = all.iter().all(|a| a.class <= 3 && a.number <= MOST_TAG);
    let ascending = all.windows(2).all(|p| (p[0].class, p[0].number) < (p[1].class, p[1].number));
    (!all.is_empty() && in_range && ascending).then_some(all)
}
