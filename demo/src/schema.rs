//! A type table in its text form (samples/yard.table): the words that the codec takes, and the names that people read.

/// A type with its names. Types that hold others have their row numbers.
#[derive(Clone, Debug)]
pub enum Type {
    Boolean,
    Null,
    Single,
    Double,
    Integer { unsigned: bool },
    Enumerated(Vec<(String, i64)>),
    Octets,
    Bits,
    Visible,
    Sequence(Vec<Component>),
    List(usize),
    Choice(Vec<(String, usize)>),
}

#[derive(Clone, Debug)]
pub struct Component {
    pub name: String,
    pub row: usize,
    pub optional: bool,
    /// The number of the default's node.
    pub default: Option<u64>,
}

/// The table's words, and each row's type. The last row is the message's.
#[derive(Clone, Debug, Default)]
pub struct Schema {
    pub rows: Vec<u64>,
    pub items: Vec<u64>,
    pub types: Vec<Type>,
    names: Vec<String>,
}

/// A type's first line with its indented lines.
struct Block<'a> {
    line: usize,
    words: Vec<&'a str>,
    inner: Vec<(usize, Vec<&'a str>)>,
}

impl Schema {
    pub fn parse(text: &str) -> Result<Schema, String> {
        let mut schema = Schema::default();
        for block in blocks(text)? {
            schema.add(&block)?;
        }
        if schema.types.is_empty() { Err("the table has no types".to_string()) } else { Ok(schema) }
    }

    pub fn last(&self) -> usize {
        self.types.len() - 1
    }

    fn row_of(&self, name: &str, line: usize) -> Result<usize, String> {
        let found = self.names.iter().position(|known| known == name);
        found.ok_or(format!("line {line}: no type {name} before this line"))
    }

    fn add(&mut self, block: &Block) -> Result<(), String> {
        let line = block.line;
        let [name, kind, rest @ ..] = &block.words[..] else {
            return Err(format!("line {line}: a type has a name and a kind"));
        };
        let row = match (*kind, rest) {
            ("BOOLEAN", []) => self.leaf(1, Type::Boolean),
            ("BINARY32", []) => self.leaf(4, Type::Single),
            ("BINARY64", []) => self.leaf(5, Type::Double),
            ("NULL", []) => self.leaf(6, Type::Null),
            ("INTEGER", []) => self.integer("..", line)?,
            ("INTEGER", [range]) => self.integer(range, line)?,
            ("ENUMERATED", [_, ..]) => self.enumerated(rest, line)?,
            ("OCTETS", _) => self.string(7, Type::Octets, rest, line)?,
            ("BITS", _) => self.string(8, Type::Bits, rest, line)?,
            ("VISIBLE", _) => self.string(9, Type::Visible, rest, line)?,
            ("SEQUENCE", []) => self.sequence(&block.inner)?,
            ("LIST", [element]) => self.list(element, line)?,
            ("CHOICE", []) => self.choice(&block.inner)?,
            _ => return Err(format!("line {line}: {kind} is no kind, or has something wrong behind it")),
        };
        self.rows.extend(row.0);
        self.types.push(row.1);
        self.names.push(name.to_string());
        Ok(())
    }

    fn leaf(&self, kind: u64, of_type: Type) -> ([u64; 6], Type) {
        ([kind, 0, 0, 0, 0, 0], of_type)
    }

    fn integer(&self, range: &str, line: usize) -> Result<([u64; 6], Type), String> {
        let (low, high) = range.split_once("..").ok_or(format!("line {line}: a range is LOW..HIGH"))?;
        let low = bound(low, line)?;
        let high = bound(high, line)?;
        let unsigned = low.is_some_and(|low| low >= 0);
        let flags = low.is_some() as u64 + 2 * high.is_some() as u64;
        let words = [2, flags, low.unwrap_or(0) as u64, high.unwrap_or(0) as u64, 0, 0];
        Ok((words, Type::Integer { unsigned }))
    }

    fn enumerated(&mut self, names: &[&str], line: usize) -> Result<([u64; 6], Type), String> {
        let first = self.item_count();
        let mut numbers = Vec::new();
        for name in names {
            let (name, number) = name.split_once('=').ok_or(format!("line {line}: name=number"))?;
            let number: i64 = number.parse().map_err(|_| format!("line {line}: {number} is no number"))?;
            self.items.extend([number as u64, 0, 0]);
            numbers.push((name.to_string(), number));
        }
        Ok(([3, 0, 0, 0, first, numbers.len() as u64], Type::Enumerated(numbers)))
    }

    fn string(&self, kind: u64, of_type: Type, rest: &[&str], line: usize) -> Result<([u64; 6], Type), String> {
        let (least, greatest) = match rest {
            [] => ("", ""),
            [size] => size.split_once("..").unwrap_or((size, size)),
            _ => return Err(format!("line {line}: a string has one size or range")),
        };
        let least = bound(least, line)?.unwrap_or(0) as u64;
        let greatest = bound(greatest, line)?;
        let words = [kind, 2 * greatest.is_some() as u64, least, greatest.unwrap_or(0) as u64, 0, 0];
        Ok((words, of_type))
    }

    fn sequence(&mut self, inner: &[(usize, Vec<&str>)]) -> Result<([u64; 6], Type), String> {
        let first = self.item_count();
        let mut components = Vec::new();
        for (line, words) in inner {
            let component = self.component(words, *line)?;
            let mark = if component.optional { 1 } else { 2 * component.default.is_some() as u64 };
            self.items.extend([component.row as u64, mark, component.default.unwrap_or(0)]);
            components.push(component);
        }
        Ok(([10, 0, 0, 0, first, components.len() as u64], Type::Sequence(components)))
    }

    fn component(&self, words: &[&str], line: usize) -> Result<Component, String> {
        let [name, of_type, mark @ ..] = words else {
            return Err(format!("line {line}: a component has a name and a type"));
        };
        let row = self.row_of(of_type, line)?;
        let (optional, default) = match mark {
            [] => (false, None),
            ["OPTIONAL"] => (true, None),
            ["DEFAULT", value] => (false, Some(self.default_word(row, value, line)?)),
            _ => return Err(format!("line {line}: OPTIONAL, DEFAULT value, or nothing")),
        };
        Ok(Component { name: name.to_string(), row, optional, default })
    }

    fn default_word(&self, row: usize, value: &str, line: usize) -> Result<u64, String> {
        let word = match &self.types[row] {
            Type::Boolean => ["false", "true"].iter().position(|truth| *truth == value).map(|place| place as u64),
            Type::Integer { .. } => bound(value, line)?.map(|number| number as u64),
            Type::Enumerated(names) => names.iter().find(|(name, _)| name == value).map(|(_, number)| *number as u64),
            Type::List(_) => (value == "{}").then_some(0),
            _ => None,
        };
        word.ok_or(format!("line {line}: {value} is no default for this type"))
    }

    fn list(&mut self, element: &str, line: usize) -> Result<([u64; 6], Type), String> {
        let row = self.row_of(element, line)?;
        let first = self.item_count();
        self.items.extend([row as u64, 0, 0]);
        Ok(([11, 0, 0, 0, first, 1], Type::List(row)))
    }

    fn choice(&mut self, inner: &[(usize, Vec<&str>)]) -> Result<([u64; 6], Type), String> {
        let first = self.item_count();
        let mut alternatives = Vec::new();
        for (line, words) in inner {
            let [name, tag @ .., of_type] = &words[..] else {
                return Err(format!("line {line}: an alternative has a name, a [tag] and a type"));
            };
            let (class, number) = tag_of(&tag.join(" ")).ok_or(format!("line {line}: a tag is [number]"))?;
            let row = self.row_of(of_type, *line)?;
            self.items.extend([class, number, row as u64]);
            alternatives.push((name.to_string(), row));
        }
        Ok(([12, 0, 0, 0, first, alternatives.len() as u64], Type::Choice(alternatives)))
    }

    fn item_count(&self) -> u64 {
        (self.items.len() / 3) as u64
    }
}

fn blocks(text: &str) -> Result<Vec<Block<'_>>, String> {
    let mut blocks: Vec<Block> = Vec::new();
    for (number, line) in (1..).zip(text.lines()) {
        let line = line.split('#').next().unwrap_or("");
        let words: Vec<&str> = line.split_whitespace().collect();
        let indented = line.starts_with(char::is_whitespace);
        match blocks.last_mut() {
            _ if words.is_empty() => {}
            Some(block) if indented => block.inner.push((number, words)),
            None if indented => return Err(format!("line {number}: a component with no type before it")),
            _ => blocks.push(Block { line: number, words, inner: Vec::new() }),
        }
    }
    Ok(blocks)
}

fn bound(text: &str, line: usize) -> Result<Option<i128>, String> {
    if text.is_empty() {
        return Ok(None);
    }
    let number: i128 = text.parse().map_err(|_| format!("line {line}: {text} is no number"))?;
    let in_range = (i64::MIN as i128..=u64::MAX as i128).contains(&number);
    if in_range { Ok(Some(number)) } else { Err(format!("line {line}: {text} is above 64 bits")) }
}

/// `[63]`, or `[APPLICATION 1]`.
fn tag_of(text: &str) -> Option<(u64, u64)> {
    let inside = text.strip_prefix('[')?.strip_suffix(']')?;
    let (class, number) = inside.rsplit_once(' ').unwrap_or(("CONTEXT", inside));
    let class = ["UNIVERSAL", "APPLICATION", "CONTEXT", "PRIVATE"].iter().position(|known| *known == class)?;
    Some((class as u64, number.parse().ok()?))
}
