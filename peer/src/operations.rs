//! The eight operations: exact replies, first fault first. A refusal leaves every lent buffer as it was; so do the
//! words and octets past the stated counts on DONE.

use crate::list::read_list;
use crate::path::{Setting, find, replace, whole};
use crate::read::read_message;
use crate::reply::{Fault, LONG, MOST_NODES, MOST_OCTETS, NODES, Part, ROOM, Reply, TYPE, must};
use crate::table::Table;
use crate::value::Value;
use crate::write::encode as encode_value;

/// The table and the asked row: 1, 2, 3.
fn table_and_row(rows: &[u64], items: &[u64], row: u64) -> Result<(Table, usize), Reply> {
    let in_part = |fault: Fault| fault.of(Part::Table);
    let table = Table::check(rows, items).map_err(in_part)?;
    must(row < table.types.len() as u64, TYPE, 0).map_err(in_part)?;
    Ok((table, row as usize))
}

/// The message's value, with all that comes before it: 1, 2, 3, LONG, the first fault, 9.
fn message_value(table: &Table, row: usize, message: &[u8]) -> Result<Value, Reply> {
    must(message.len() <= MOST_OCTETS, LONG, 0)
        .and_then(|()| read_message(table, row, message))
        .map_err(|fault| fault.of(Part::Message))
}

/// The octets of a result: 4, then 12.
fn put_result(octets: &[u8], out: &mut [u8]) -> Result<Reply, Reply> {
    let in_part = |fault: Fault| fault.of(Part::Result);
    must(octets.len() <= MOST_OCTETS, LONG, 0).map_err(in_part)?;
    must(octets.len() <= out.len(), ROOM, 0).map_err(in_part)?;
    out[..octets.len()].copy_from_slice(octets);
    Ok(Reply::done(0, octets.len()))
}

/// A refusal is a reply, too.
fn either(reply: Result<Reply, Reply>) -> Reply {
    reply.unwrap_or_else(|refusal| refusal)
}

pub fn check(rows: &[u64], items: &[u64]) -> Reply {
    either(Table::check(rows, items).map(|_| Reply::default()).map_err(|fault| fault.of(Part::Table)))
}

pub fn validate(rows: &[u64], items: &[u64], row: u64, message: &[u8]) -> Reply {
    either((|| {
        let (table, row) = table_and_row(rows, items, row)?;
        let (nodes, contents) = message_value(&table, row, message)?.to_list();
        Ok(Reply::done(nodes.len() / 2, contents.len()))
    })())
}

pub fn decode(
    rows: &[u64],
    items: &[u64],
    row: u64,
    message: &[u8],
    nodes_out: &mut [u64],
    contents_out: &mut [u8],
) -> Reply {
    either((|| {
        let (table, row) = table_and_row(rows, items, row)?;
        let (nodes, contents) = message_value(&table, row, message)?.to_list();
        let room = nodes.len() <= nodes_out.len() && contents.len() <= contents_out.len();
        must(room, ROOM, 0).map_err(|fault| fault.of(Part::Result))?;
        nodes_out[..nodes.len()].copy_from_slice(&nodes);
        contents_out[..contents.len()].copy_from_slice(&contents);
        Ok(Reply::done(nodes.len() / 2, contents.len()))
    })())
}

/// The octets of a value list, with all that comes before them but LONG and ROOM of the result.
fn list_octets(rows: &[u64], items: &[u64], row: u64, nodes: &[u64], contents: &[u8]) -> Result<Vec<u8>, Reply> {
    let (table, row) = table_and_row(rows, items, row)?;
    let value = read_list(&table, whole(row), nodes, contents).map_err(|fault| fault.of(Part::List))?;
    Ok(encode_value(&table, row, &value))
}

pub fn measure(rows: &[u64], items: &[u64], row: u64, nodes: &[u64], contents: &[u8]) -> Reply {
    either((|| {
        let octets = list_octets(rows, items, row, nodes, contents)?;
        must(octets.len() <= MOST_OCTETS, LONG, 0).map_err(|fault| fault.of(Part::Result))?;
        Ok(Reply::done(0, octets.len()))
    })())
}

pub fn encode(rows: &[u64], items: &[u64], row: u64, nodes: &[u64], contents: &[u8], out: &mut [u8]) -> Reply {
    either(list_octets(rows, items, row, nodes, contents).and_then(|octets| put_result(&octets, out)))
}

/// The longer road of demand 3: decode, find the component, check the new list alone, swap, encode.
#[allow(clippy::too_many_arguments)]
pub fn edit(
    rows: &[u64],
    items: &[u64],
    row: u64,
    message: &[u8],
    path: &[u64],
    nodes: &[u64],
    contents: &[u8],
    out: &mut [u8],
) -> Reply {
    either((|| {
        let (table, row) = table_and_row(rows, items, row)?;
        let mut value = message_value(&table, row, message)?;
        let found = find(&table, row, &value, path).map_err(|fault| fault.of(Part::Path))?;
        let new = read_list(&table, found.component, nodes, contents).map_err(|fault| fault.of(Part::List))?;
        replace(&mut value, path, new);
        must(value.node_count() <= MOST_NODES, NODES, 0).map_err(|fault| fault.of(Part::Result))?;
        put_result(&encode_value(&table, row, &value), out)
    })())
}

/// A single setting, with the refusals of an edit up to PATH.
pub fn read_setting(rows: &[u64], items: &[u64], row: u64, message: &[u8], path: &[u64]) -> Result<Setting, Reply> {
    let (table, row) = table_and_row(rows, items, row)?;
    let value = message_value(&table, row, message)?;
    let found = find(&table, row, &value, path).map_err(|fault| fault.of(Part::Path))?;
    Ok(Setting::of(&table, &found))
}

/// Where in the message a string's octets are: start and length. None if the reading is refused, absent or no string.
pub fn read_text(rows: &[u64], items: &[u64], row: u64, message: &[u8], path: &[u64]) -> Option<(usize, usize)> {
    let (table, row) = table_and_row(rows, items, row).ok()?;
    let value = message_value(&table, row, message).ok()?;
    let text = find(&table, row, &value, path).ok()?.value.text()?;
    Some((text.at, text.octets.len()))
}
