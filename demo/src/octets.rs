//! Octets as files and on the screen, and what differs between two messages.

use crate::paint::{Colour, Paint};
use std::fs;

/// Reads a message: hexadecimal digits and `#` comments if the file's name ends in `.hex`, else the octets themselves.
pub fn read(file: &str) -> Result<Vec<u8>, String> {
    let octets = fs::read(file).map_err(|error| format!("{file}: {error}"))?;
    if !file.ends_with(".hex") {
        return Ok(octets);
    }
    let text = String::from_utf8_lossy(&octets);
    let bare: String = text.lines().map(|line| line.split('#').next().unwrap_or("")).collect();
    let digits: Option<Vec<u32>> = bare.chars().filter(|c| !c.is_whitespace()).map(|c| c.to_digit(16)).collect();
    match digits {
        Some(digits) if digits.len().is_multiple_of(2) => {
            Ok(digits.chunks(2).map(|pair| (pair[0] * 16 + pair[1]) as u8).collect())
        }
        _ => Err(format!("{file}: a .hex file holds pairs of hexadecimal digits")),
    }
}

pub fn write(file: &str, octets: &[u8]) -> Result<(), String> {
    let hex = || octets.chunks(24).map(|line| spaced(line) + "\n").collect::<String>().into_bytes();
    let data = if file.ends_with(".hex") { hex() } else { octets.to_vec() };
    fs::write(file, data).map_err(|error| format!("{file}: {error}"))
}

pub fn spaced(octets: &[u8]) -> String {
    octets.iter().map(|octet| format!("{octet:02X}")).collect::<Vec<_>>().join(" ")
}

/// Octets in lines of 16 with their offsets; those that changed stand in brackets, and in colour.
pub fn dump(paint: Paint, octets: &[u8], changed: &[bool], colour: Colour) -> String {
    let mut out = String::new();
    for (line, part) in octets.chunks(16).enumerate() {
        out += &paint.with(Colour::Dim, &format!("{:6}  ", 16 * line));
        for (place, octet) in part.iter().enumerate() {
            let octet = format!("{octet:02X}");
            out += &match changed[16 * line + place] {
                true => paint.with(colour, &format!("[{octet}]")),
                false => format!(" {octet} "),
            };
        }
        out += "\n";
    }
    out
}
