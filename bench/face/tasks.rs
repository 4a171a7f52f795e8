// What is measured on a workload: each operation, on each component if it takes a path.
use std::hint::black_box;

use peer::generate::{Case, List};

use crate::common::sides::Operation::{self, *};
use crate::common::sides::{Answer, Lent, Side};
use crate::workloads::{Place, Workload};

pub struct Task {
    workload: String,
    // The operation, and the component's name.
    pub column: String,
    pub operation: Operation,
    pub case: Case,
    // Where the component of an edit stands; none if the message is refused.
    place: Option<Place>,
}

impl Task {
    pub fn name(&self) -> String {
        format!("{}, {}", self.workload, self.column)
    }

    pub fn label(&self, side: &str) -> String {
        label(&self.workload, &self.column, side)
    }

    // The longer road, if this is an edit that is done.
    pub fn longer_road(&self) -> Option<Road<'_>> {
        let place = self.place.as_ref().filter(|_| self.operation == Edit)?;
        Some(Road { case: &self.case, place, lent: Lent::largest(), swapped: empty_list() })
    }
}

pub fn label(workload: &str, column: &str, side: &str) -> String {
    format!("{workload}: {column} {side}")
}

// With room for the largest list, so that no swap has to ask for memory.
fn empty_list() -> List {
    List { nodes: Vec::with_capacity(2 * 4096), contents: Vec::with_capacity(65_535) }
}

fn operations(load: &Workload) -> &'static [Operation] {
    match (load.table_only, load.message_only) {
        (true, _) => &[Check],
        (_, true) => &[Check, Validate, Decode],
        _ => &[Check, Validate, Decode, Measure, Encode],
    }
}

pub fn tasks(load: &Workload) -> Vec<Task> {
    let task = |operation: Operation, column: String, case, place| Task {
        workload: load.name.clone(),
        column,
        operation,
        case,
        place,
    };
    let mut all: Vec<Task> =
        operations(load).iter().map(|&o| task(o, o.name().to_string(), load.case.clone(), None)).collect();
    for operation in [Edit, Setting] {
        for component in &load.components {
            let column = format!("{} {}", operation.name(), component.name);
            all.push(task(operation, column, load.case_of(component), load.place_of(component)));
        }
    }
    all
}

// Decode, swap the component's part of the lists for the new one, encode. Where that part is, is known beforehand.
pub struct Road<'t> {
    case: &'t Case,
    place: &'t Place,
    lent: Lent,
    swapped: List,
}

// A list with a part of it replaced.
fn swap<T: Copy>(old: &[T], start: usize, end: usize, new: &[T], swapped: &mut Vec<T>) {
    swapped.clear();
    swapped.extend_from_slice(&old[..start]);
    swapped.extend_from_slice(new);
    swapped.extend_from_slice(&old[end..]);
}

impl Road<'_> {
    pub fn walk(&mut self, side: &dyn Side) -> Answer {
        let Road { case, place, lent, swapped } = self;
        let decoded = side.decode(black_box(case), &mut lent.nodes, &mut lent.contents);
        let [_, _, _, nodes, octets] = decoded.0;
        let (old_nodes, old_contents) = (&lent.nodes[..2 * nodes as usize], &lent.contents[..octets as usize]);
        swap(old_nodes, 2 * place.node, 2 * (place.node + place.nodes), &case.new.nodes, &mut swapped.nodes);
        swap(old_contents, place.contents, place.contents + place.octets, &case.new.contents, &mut swapped.contents);
        black_box(side.encode(case, &swapped.nodes, &swapped.contents, &mut lent.out))
    }

    pub fn result(&self) -> &[u8] {
        &self.lent.out
    }
}
