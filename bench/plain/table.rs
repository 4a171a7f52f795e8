// The type table: its check, and what its words mean.
use super::Cause::*;
use super::Reply;

const MAX_ROWS: usize = 256;
const MAX_ITEMS: usize = 1024;
const MAX_NESTING: u8 = 16;
pub const MAX_TAG: u64 = 2097151;

pub type Row = [u64; 6];
pub type Item = [u64; 3];

// The type table, checked.
#[derive(Clone, Copy)]
pub struct Table<'a> {
    pub rows: &'a [Row],
    pub items: &'a [Item],
}

pub fn has_lower(flags: u64) -> bool {
    flags & 1 != 0
}

pub fn has_upper(flags: u64) -> bool {
    flags & 2 != 0
}

pub fn is_unsigned(flags: u64, a: u64) -> bool {
    has_lower(flags) && a as i64 >= 0
}

// Whether the bounds of an INTEGER allow w.
pub fn is_allowed(flags: u64, a: u64, b: u64, w: u64) -> bool {
    if is_unsigned(flags, a) {
        a <= w && (!has_upper(flags) || w <= b)
    } else {
        (!has_lower(flags) || a as i64 <= w as i64) && (!has_upper(flags) || w as i64 <= b as i64)
    }
}

pub fn is_fixed(flags: u64, a: u64, b: u64) -> bool {
    has_upper(flags) && a == b
}

// Whether a string may have this size.
pub fn is_sized(flags: u64, a: u64, b: u64, size: u64) -> bool {
    a <= size && (!has_upper(flags) || size <= b)
}

// Whether an ENUMERATED with these items has the number w.
pub fn is_listed(items: &[Item], w: u64) -> bool {
    items.binary_search_by_key(&(w as i64), |item| item[0] as i64).is_ok()
}

impl<'a> Table<'a> {
    // The items of a row whose range has been checked.
    pub fn items_of(&self, row: &Row) -> &'a [Item] {
        &self.items[row[4] as usize..][..row[5] as usize]
    }

    // Whether d may be the DEFAULT of a component whose row is sound.
    fn is_default(&self, row: &Row, d: u64) -> bool {
        let [kind, flags, a, b, ..] = *row;
        match kind {
            1 => d < 2,
            2 => is_allowed(flags, a, b, d),
            3 => is_listed(self.items_of(row), d),
            11 => d == 0,
            _ => false,
        }
    }

    // The nesting of row i if the row keeps the rules, as the rows before it do.
    fn nesting(&self, i: usize, nestings: &[u8; MAX_ROWS]) -> Option<u8> {
        let [kind, flags, a, b, first, count] = self.rows[i];
        let unbounded = flags == 0 && a == 0 && b == 0;
        if !matches!(kind, 3 | 10..=12) {
            let sound = match kind {
                1 | 4..=6 => unbounded,
                2 => {
                    let ordered = if is_unsigned(flags, a) { a <= b } else { a as i64 <= b as i64 };
                    flags < 4 && (has_lower(flags) || a == 0) && (has_upper(flags) || b == 0) && (flags != 3 || ordered)
                }
                7..=9 => a <= 65535 && b <= 65535 && if flags == 2 { a <= b } else { flags == 0 && b == 0 },
                _ => false,
            };
            return (sound && first == 0 && count == 0).then_some(1);
        }
        let first = usize::try_from(first).ok()?;
        let end = first.checked_add(usize::try_from(count).ok()?)?;
        let items = self.items.get(first..end)?;
        if !unbounded || (items.is_empty() && kind != 10) {
            return None;
        }
        let is_below = |row: u64| row < i as u64;
        let sound = match kind {
            3 => {
                items.iter().all(|item| item[1] == 0 && item[2] == 0)
                    && items.is_sorted_by(|x, y| (x[0] as i64) < y[0] as i64)
            }
            10 => items.iter().all(|&[row, mark, default]| {
                let defaulted = mark == 2 && is_below(row) && self.is_default(&self.rows[row as usize], default);
                defaulted || (mark < 2 && is_below(row) && default == 0)
            }),
            11 => matches!(*items, [[row, 0, 0]] if is_below(row)),
            _ => {
                items.iter().all(|&[class, number, row]| class < 4 && number <= MAX_TAG && is_below(row))
                    && items.is_sorted_by(|x, y| (x[0], x[1]) < (y[0], y[1]))
            }
        };
        if !sound {
            return None;
        }
        if kind == 3 {
            return Some(1);
        }
        let names = if kind == 12 { 2 } else { 0 };
        let deepest = items.iter().map(|item| nestings[item[names] as usize]).max().unwrap_or(0);
        (deepest < MAX_NESTING).then_some(deepest + 1)
    }
}

// The table in these words; or TABLE SIZE, or TABLE ROW at the first row that breaks a rule. A row's nesting is
// worked out once.
pub fn check<'a>(rows: &'a [u64], items: &'a [u64]) -> Result<Table<'a>, Reply> {
    let (rows, odd_row) = rows.as_chunks::<6>();
    let (items, odd_item) = items.as_chunks::<3>();
    let whole = odd_row.is_empty() && odd_item.is_empty();
    if !whole || rows.is_empty() || rows.len() > MAX_ROWS || items.len() > MAX_ITEMS {
        return Err(Reply::refusal(TableSize, 0, 0));
    }
    let table = Table { rows, items };
    let mut nestings = [0; MAX_ROWS];
    for i in 0..rows.len() {
        nestings[i] = table.nesting(i, &nestings).ok_or(Reply::refusal(TableRow, 0, i as u64))?;
    }
    Ok(table)
}

// The checked table and the asked row: TABLE SIZE, TABLE ROW, TYPE.
pub fn asked<'a>(rows: &'a [u64], items: &'a [u64], row: u64) -> Result<(Table<'a>, usize), Reply> {
    let table = check(rows, items)?;
    if row >= table.rows.len() as u64 {
        return Err(Reply::refusal(Type, 0, 0));
    }
    Ok((table, row as usize))
}
