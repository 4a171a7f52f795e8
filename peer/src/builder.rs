//! Tables by hand: each call adds a row and gives its number.

use crate::table::Mark;

#[derive(Clone, Debug, Default)]
pub struct Builder {
    pub rows: Vec<u64>,
    pub items: Vec<u64>,
}

impl Builder {
    pub fn new() -> Builder {
        Builder::default()
    }

    fn items(&self) -> u64 {
        (self.items.len() / 3) as u64
    }

    /// A row of these six words.
    pub fn row(&mut self, words: [u64; 6]) -> u64 {
        self.rows.extend(words);
        (self.rows.len() / 6 - 1) as u64
    }

    /// A row whose items these are.
    pub fn row_with(&mut self, kind: u64, items: &[[u64; 3]]) -> u64 {
        let first = self.items();
        self.items.extend(items.iter().flatten());
        self.row([kind, 0, 0, 0, first, items.len() as u64])
    }

    /// BOOLEAN (1), binary32 (4), binary64 (5) or NULL (6).
    pub fn plain(&mut self, kind: u64) -> u64 {
        self.row([kind, 0, 0, 0, 0, 0])
    }

    pub fn boolean(&mut self) -> u64 {
        self.plain(1)
    }

    pub fn null(&mut self) -> u64 {
        self.plain(6)
    }

    pub fn integer(&mut self, low: Option<i64>, high: Option<i128>) -> u64 {
        let flags = low.is_some() as u64 + 2 * high.is_some() as u64;
        self.row([2, flags, low.unwrap_or(0) as u64, high.unwrap_or(0) as u64, 0, 0])
    }

    pub fn enumerated(&mut self, numbers: &[i64]) -> u64 {
        let items: Vec<[u64; 3]> = numbers.iter().map(|&n| [n as u64, 0, 0]).collect();
        self.row_with(3, &items)
    }

    /// OCTET STRING (7), BIT STRING (8) or VisibleString (9).
    pub fn string(&mut self, kind: u64, least: u64, greatest: Option<u64>) -> u64 {
        self.row([kind, 2 * greatest.is_some() as u64, least, greatest.unwrap_or(0), 0, 0])
    }

    pub fn sequence(&mut self, components: &[(u64, Mark)]) -> u64 {
        let items: Vec<[u64; 3]> = components
            .iter()
            .map(|&(row, mark)| match mark {
                Mark::Plain => [row, 0, 0],
                Mark::Optional => [row, 1, 0],
                Mark::Default(word) => [row, 2, word],
            })
            .collect();
        self.row_with(10, &items)
    }

    pub fn sequence_of(&mut self, element: u64) -> u64 {
        self.row_with(11, &[[element, 0, 0]])
    }

    /// Alternatives as class, number and row.
    pub fn choice(&mut self, alternatives: &[(u64, u64, u64)]) -> u64 {
        let items: Vec<[u64; 3]> = alternatives.iter().map(|&(class, number, row)| [class, number, row]).collect();
        self.row_with(12, &items)
    }
}
