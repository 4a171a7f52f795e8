//! Generated cases as lines of a case file. A case's name has its seed and its number.

use super::File;
use crate::builder::Builder;
use crate::generate::Case;
use crate::operations::{edit, measure, validate};

/// A generated case that is small enough to be stored.
fn small_cases(seed: u64) -> impl Iterator<Item = (u64, Case)> {
    let small = |case: &Case| {
        let words = case.rows.len() + case.items.len() + case.list.nodes.len() + case.new.nodes.len();
        words + case.message.len() + case.list.contents.len() + case.new.contents.len() < 250
    };
    (0..).map(move |number| (number, Case::generate(seed, number))).filter(move |(_, case)| small(case))
}

fn table(file: &mut File, case: &Case) {
    file.table(&Builder { rows: case.rows.clone(), items: case.items.clone() });
}

/// Room by turns: two more than needed, exact, one too small, none.
fn room(number: u64, needed: u64) -> usize {
    match number % 4 {
        0 | 1 => needed as usize + 2,
        2 => needed as usize,
        _ if number % 8 == 3 => (needed as usize).saturating_sub(1),
        _ => 0,
    }
}

pub fn lists(file: &mut File, seed: u64, count: usize) {
    for (number, case) in small_cases(seed).take(count) {
        table(file, &case);
        list(file, seed, number, &case);
    }
}

fn list(file: &mut File, seed: u64, number: u64, case: &Case) {
    let needed = measure(&case.rows, &case.items, case.row, &case.list.nodes, &case.list.contents).octets;
    let name = format!("seed {seed}, case {number}: list");
    file.list(&name, case.row, room(number, needed), &case.list.nodes, &case.list.contents);
}

pub fn edits(file: &mut File, seed: u64, count: usize) {
    for (number, case) in small_cases(seed).take(count) {
        table(file, &case);
        edit_and_setting(file, seed, number, &case);
    }
}

fn edit_and_setting(file: &mut File, seed: u64, number: u64, case: &Case) {
    let (rows, items, new) = (&case.rows, &case.items, &case.new);
    let mut large = vec![0; 65_535];
    let needed = edit(rows, items, case.row, &case.message, &case.path, &new.nodes, &new.contents, &mut large).octets;
    let name = format!("seed {seed}, case {number}: edit");
    let room = room(number, needed);
    file.edit_with(&name, case.row, room, &case.message, &case.path, &new.nodes, &new.contents);
    file.setting(&format!("seed {seed}, case {number}: setting"), case.row, &case.message, &case.path);
}

/// Cases of every operation.
pub fn generated(seed: u64) -> String {
    let mut file = File::default();
    small_cases(seed).take(400).for_each(|(number, case)| every_operation(&mut file, seed, number, &case));
    file.text
}

/// One case of every operation as lines of a case file.
pub fn case_lines(seed: u64, number: u64, case: &Case) -> String {
    let mut file = File::default();
    every_operation(&mut file, seed, number, case);
    file.text
}

fn every_operation(file: &mut File, seed: u64, number: u64, case: &Case) {
    table(file, case);
    file.name(&format!("seed {seed}, case {number}: check"));
    file.line('c', &[0], |_| {});
    message(file, seed, number, case);
    list(file, seed, number, case);
    edit_and_setting(file, seed, number, case);
}

fn message(file: &mut File, seed: u64, number: u64, case: &Case) {
    let needed = validate(&case.rows, &case.items, case.row, &case.message);
    let nodes = room(number, 2 * needed.nodes) as u64;
    let contents = room(number + 1, needed.octets) as u64;
    file.name(&format!("seed {seed}, case {number}: message"));
    file.line('m', &[case.row, nodes, contents], |line| line.list(&case.message));
}
