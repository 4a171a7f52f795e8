//! What the tests share: calls with enough room, as plain numbers.

use peer::builder::Builder;
use peer::operations;
use peer::reply::Reply;

/// A refusal's number, part and place.
pub type Refused = (u64, u64, u64);

fn refused(reply: Reply) -> Refused {
    assert_eq!((reply.nodes, reply.octets), (0, 0), "a refusal has zero counts");
    (reply.number, reply.part, reply.place)
}

pub fn encode(t: &Builder, row: u64, nodes: &[u64], contents: &[u8]) -> Result<Vec<u8>, Refused> {
    let mut out = vec![0; 65_535];
    let reply = operations::encode(&t.rows, &t.items, row, nodes, contents, &mut out);
    let measured = operations::measure(&t.rows, &t.items, row, nodes, contents);
    assert_eq!(reply, measured, "with enough room encode replies as measure does");
    if reply.number != 0 {
        return Err(refused(reply));
    }
    Ok(out[..reply.octets as usize].to_vec())
}

pub fn decode(t: &Builder, row: u64, message: &[u8]) -> Result<(Vec<u64>, Vec<u8>), Refused> {
    let (mut nodes, mut contents) = (vec![0; 8192], vec![0; 65_535]);
    let reply = operations::decode(&t.rows, &t.items, row, message, &mut nodes, &mut contents);
    assert_eq!(reply, operations::validate(&t.rows, &t.items, row, message));
    if reply.number != 0 {
        return Err(refused(reply));
    }
    Ok((nodes[..2 * reply.nodes as usize].to_vec(), contents[..reply.octets as usize].to_vec()))
}

pub fn edit(
    t: &Builder,
    row: u64,
    message: &[u8],
    path: &[u64],
    nodes: &[u64],
    contents: &[u8],
) -> Result<Vec<u8>, Refused> {
    let mut out = vec![0; 65_535];
    let reply = operations::edit(&t.rows, &t.items, row, message, path, nodes, contents, &mut out);
    if reply.number != 0 {
        return Err(refused(reply));
    }
    Ok(out[..reply.octets as usize].to_vec())
}
