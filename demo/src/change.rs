//! Where in the octets an edit made its change: the component's own octets, and at most one presence bit.

use crate::schema::Schema;
use crate::settings::part;
use oer::{List, Refusal, Table};

/// A message's octets with its value list.
pub struct Read<'a> {
    pub octets: &'a [u8],
    pub list: List,
}

pub struct Change {
    /// Where the component's octets begin, before and after.
    pub start: usize,
    pub old: Vec<u8>,
    pub new: Vec<u8>,
    /// The octet of the presence bit, if it changed.
    pub presence: Option<usize>,
}

impl Change {
    pub fn find(schema: &Schema, table: &Table, before: &Read, after: &Read, path: &[u64]) -> Result<Change, Refusal> {
        let start = start(schema, table, &before.list, path)?;
        let old = own_octets(schema, table, &before.list, path)?;
        let new = own_octets(schema, table, &after.list, path)?;
        let presence = (0..start).find(|&place| before.octets[place] != after.octets[place]);
        Ok(Change { start, old, new, presence })
    }

    /// For each octet of a message whether it changed; `own` octets of it are the component's.
    pub fn marks(&self, octets: &[u8], own: usize) -> Vec<bool> {
        let changed = |place: usize| (self.start..self.start + own).contains(&place) || self.presence == Some(place);
        (0..octets.len()).map(changed).collect()
    }
}

/// The octets that a message spends on the component at a path; none if it is left out.
fn own_octets(schema: &Schema, table: &Table, list: &List, path: &[u64]) -> Result<Vec<u8>, Refusal> {
    match part(schema, list, path) {
        Some(part) if !part.missing => table.encode_to_vec(part.row as u64, &part.list),
        _ => Ok(Vec::new()),
    }
}

/// Where the component at a path begins: behind what each group on the way has before its children, and behind the
/// children that come first.
fn start(schema: &Schema, table: &Table, list: &List, path: &[u64]) -> Result<usize, Refusal> {
    let mut start = 0;
    for depth in 0..path.len() {
        let group = &path[..depth];
        let children = part(schema, list, group).map_or(0, |part| part.children);
        let sizes = (0..children)
            .map(|child| own_octets(schema, table, list, &[group, &[child]].concat()).map(|octets| octets.len()))
            .collect::<Result<Vec<usize>, Refusal>>()?;
        let whole = own_octets(schema, table, list, group)?.len();
        start += whole - sizes.iter().sum::<usize>() + sizes[..path[depth] as usize].iter().sum::<usize>();
    }
    Ok(start)
}
