//! Reads a limit, changes it, and reads it again: `cargo run --example limit`.

use oer::{List, Refusal, Table};

fn main() -> Result<(), Refusal> {
    // SEQUENCE {limit INTEGER (0..MAX), alarm BOOLEAN DEFAULT TRUE}
    let rows = [2, 1, 0, 0, 0, 0, 1, 0, 0, 0, 0, 0, 10, 0, 0, 0, 0, 2];
    let items = [0, 0, 0, 1, 2, 1];
    let table = Table::new(&rows, &items)?;
    let before = [0x00, 0x01, 0xFF];
    println!("{before:02X?} limit {:?}", table.setting(2, &before, &[0])?);
    let after = table.edit_to_vec(2, &before, &[0], &List::leaf(2, 256))?;
    println!("{after:02X?} limit {:?}, alarm {:?}", table.setting(2, &after, &[0])?, table.setting(2, &after, &[1])?);
    if let Err(refusal) = table.setting(2, &after[..2], &[0]) {
        println!("{:02X?} is refused: {refusal}", &after[..2]);
    }
    Ok(())
}
