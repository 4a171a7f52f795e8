//! Values that hold no others, as people write them: `true`, `-20`, `0.5`, `"text"`, `0x00A1`, `0b1100`, `kilogram`,
//! `null`.

use crate::schema::Type;

/// The kind and the number of a leaf's node, and its contents.
#[derive(Clone, Debug, PartialEq, Eq)]
pub struct Leaf {
    pub kind: u64,
    pub number: u64,
    pub contents: Vec<u8>,
}

impl Leaf {
    fn new(kind: u64, number: u64) -> Leaf {
        Leaf { kind, number, contents: Vec::new() }
    }

    /// The leaf of a text. Whether its value is allowed is the codec's matter.
    pub fn parse(of_type: &Type, text: &str) -> Result<Leaf, String> {
        Leaf::of(of_type, text).ok_or(format!("{text} is not written as {}", wanted(of_type)))
    }

    fn of(of_type: &Type, text: &str) -> Option<Leaf> {
        match of_type {
            Type::Boolean => ["false", "true"].iter().position(|t| *t == text).map(|truth| Leaf::new(1, truth as u64)),
            Type::Integer { unsigned: true } => text.parse().ok().map(|number: u64| Leaf::new(2, number)),
            Type::Integer { unsigned: false } => text.parse().ok().map(|number: i64| Leaf::new(2, number as u64)),
            Type::Enumerated(names) => {
                names.iter().find(|(name, _)| name == text).map(|(_, number)| Leaf::new(3, *number as u64))
            }
            Type::Single => text.parse().ok().map(|real: f32| Leaf::new(4, single_bits(real))),
            Type::Double => text.parse().ok().map(|real: f64| Leaf::new(5, double_bits(real))),
            Type::Null => (text == "null").then(|| Leaf::new(6, 0)),
            Type::Octets => octets(text).map(|contents| Leaf { kind: 7, number: contents.len() as u64, contents }),
            Type::Bits => bits(text),
            Type::Visible => {
                let contents = text.strip_prefix('"')?.strip_suffix('"')?.as_bytes().to_vec();
                Some(Leaf { kind: 9, number: contents.len() as u64, contents })
            }
            _ => None,
        }
    }

    /// The text of a leaf.
    pub fn show(of_type: &Type, number: u64, contents: &[u8]) -> String {
        match of_type {
            Type::Boolean => (number == 1).to_string(),
            Type::Integer { unsigned: true } => number.to_string(),
            Type::Integer { unsigned: false } => (number as i64).to_string(),
            Type::Enumerated(names) => {
                let name = names.iter().find(|(_, known)| *known as u64 == number).map(|(name, _)| name.clone());
                name.unwrap_or((number as i64).to_string())
            }
            Type::Single => f32::from_bits(number as u32).to_string(),
            Type::Double => f64::from_bits(number).to_string(),
            Type::Octets => format!("0x{}", contents.iter().map(|octet| format!("{octet:02X}")).collect::<String>()),
            Type::Bits => {
                let bit = |place: u64| contents[place as usize / 8] >> (7 - place % 8) & 1;
                format!("0b{}", (0..number).map(|place| if bit(place) == 1 { '1' } else { '0' }).collect::<String>())
            }
            Type::Visible => format!("\"{}\"", String::from_utf8_lossy(contents)),
            _ => "null".to_string(),
        }
    }
}

fn single_bits(real: f32) -> u64 {
    if real.is_nan() { 0x7FC0_0000 } else { real.to_bits() as u64 }
}

fn double_bits(real: f64) -> u64 {
    if real.is_nan() { 0x7FF8 << 48 } else { real.to_bits() }
}

fn octets(text: &str) -> Option<Vec<u8>> {
    let digits: Option<Vec<u32>> = text.strip_prefix("0x")?.chars().map(|digit| digit.to_digit(16)).collect();
    let digits = digits.filter(|digits| digits.len().is_multiple_of(2))?;
    Some(digits.chunks(2).map(|pair| (pair[0] * 16 + pair[1]) as u8).collect())
}

fn bits(text: &str) -> Option<Leaf> {
    let digits: Option<Vec<u32>> = text.strip_prefix("0b")?.chars().map(|digit| digit.to_digit(2)).collect();
    let digits = digits?;
    let mut contents = vec![0; digits.len().div_ceil(8)];
    for (place, digit) in digits.iter().enumerate() {
        contents[place / 8] |= (*digit as u8) << (7 - place % 8);
    }
    Some(Leaf { kind: 8, number: digits.len() as u64, contents })
}

fn wanted(of_type: &Type) -> &'static str {
    match of_type {
        Type::Boolean => "true or false",
        Type::Integer { unsigned: true } => "a whole number from 0 on",
        Type::Integer { unsigned: false } => "a whole number",
        Type::Enumerated(_) => "one of its names",
        Type::Single | Type::Double => "a real number",
        Type::Null => "null",
        Type::Octets => "octets, 0x and pairs of digits",
        Type::Bits => "bits, 0b and the digits 0 and 1",
        Type::Visible => "a text in quotes",
        _ => "a single setting: it is a group",
    }
}
