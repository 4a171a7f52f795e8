// The tables of docs/BENCHMARKS.md, "The whole face".
use std::hint::black_box;

use crate::common::sides::Operation::Validate;
use crate::common::sides::{Lent, Ours, Peer, Side};
use crate::common::{Counts, markdown, time_ratio};
use crate::tasks::{Task, label, tasks};
use crate::workloads::{Workload, all, growing};

const COLUMNS: [&str; 9] =
    ["check", "validate", "decode", "measure", "encode", "edit middle", "edit end", "setting middle", "setting end"];

// A row for each workload and a column for each operation; a dash where there is nothing to measure.
fn grid(loads: &[Workload], cell: impl Fn(&Task) -> String) {
    markdown::head(&[&["Workload"], &COLUMNS[..]].concat());
    for load in loads {
        let tasks = tasks(load);
        let task = |column: &str| tasks.iter().find(|task| task.column == column);
        let mut cells = vec![load.name.clone()];
        cells.extend(COLUMNS.map(|column| task(column).map_or("-".to_string(), &cell)));
        markdown::row(&cells);
    }
    println!();
}

// The operation on one side, to be timed.
fn runner<'t>(side: &'t dyn Side, task: &'t Task) -> impl FnMut() + 't {
    let mut lent = Lent::largest();
    move || {
        black_box(task.operation.run(side, black_box(&task.case), &mut lent));
    }
}

fn time_beside_peer(side: &dyn Side, task: &Task) -> f64 {
    time_ratio(&mut runner(side, task), &mut runner(&Peer, task))
}

// The peer beside itself: how far the same code's times stray from 1 in this run.
fn noise(loads: &[Workload]) {
    let mut ratios: Vec<f64> = loads.iter().flat_map(tasks).map(|task| time_beside_peer(&Peer, &task)).collect();
    ratios.sort_by(f64::total_cmp);
    let at = |part: usize| markdown::ratio(ratios[(ratios.len() - 1) * part / 20]);
    println!("The peer beside itself, time: {} to {}, nine in ten {} to {}.\n", at(0), at(20), at(1), at(19));
}

// An edit beside the longer road, a setting beside validate: instructions and time. None for the others.
fn beside_longer_road(counts: &Counts, load: &Workload, task: &Task) -> Option<(f64, f64)> {
    let ours = task.label("ours");
    let mut run = runner(&Ours, task);
    if let Some(mut road) = task.longer_road() {
        let mut walk = || {
            road.walk(&Ours);
        };
        return Some((counts.ratio(&ours, &task.label("longer road")), time_ratio(&mut run, &mut walk)));
    }
    if !task.column.starts_with("setting") {
        return None;
    }
    let mut lent = Lent::largest();
    let mut validate = || {
        black_box(Validate.run(&Ours, black_box(&task.case), &mut lent));
    };
    Some((counts.ratio(&ours, &label(&load.name, "validate", "ours")), time_ratio(&mut run, &mut validate)))
}

fn longer_roads(counts: &Counts, loads: &[Workload]) {
    markdown::head(&[&["Workload"], &COLUMNS[5..]].concat());
    for load in loads.iter().filter(|load| !load.components.is_empty()) {
        let tasks = tasks(load);
        let cell = |column: &str| {
            let task = tasks.iter().find(|task| task.column == column)?;
            let (instructions, time) = beside_longer_road(counts, load, task)?;
            Some(format!("{instructions:.2} ({time:.2})"))
        };
        let mut cells = vec![load.name.clone()];
        cells.extend(COLUMNS[5..].iter().map(|column| cell(column).unwrap_or("-".to_string())));
        markdown::row(&cells);
    }
    println!();
}

fn growth(counts: &Counts) {
    let columns = ["validate", "decode", "measure", "encode", "edit middle", "setting middle"];
    markdown::head(&[&["Message", "octets", "nodes"], &columns[..]].concat());
    for load in growing() {
        let octets = load.case.message.len();
        let mut cells = vec![load.name.clone(), markdown::number(octets as u64)];
        cells.push(markdown::number(load.case.list.nodes.len() as u64 / 2));
        cells.extend(columns.map(|column| {
            let count = counts.of(&label(&load.name, column, "ours"));
            format!("{:.1}", count as f64 / octets as f64)
        }));
        markdown::row(&cells);
    }
}

pub fn print(counts: &Counts) {
    let loads = all();
    println!("Instructions of one call:\n");
    grid(&loads, |task| markdown::number(counts.of(&task.label("ours"))));
    println!("Ours beside the peer, instructions:\n");
    grid(&loads, |task| markdown::ratio(counts.ratio(&task.label("ours"), &task.label("peer"))));
    println!("Ours beside the peer, time:\n");
    grid(&loads, |task| markdown::ratio(time_beside_peer(&Ours, task)));
    noise(&loads);
    println!("An edit beside decode, swap and encode, and a setting beside validate: instructions (time):\n");
    longer_roads(counts, &loads);
    println!("Growth, instructions an octet of the message:\n");
    growth(counts);
}
