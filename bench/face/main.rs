// The whole C face beside the peer, called as a Rust library, and beside our own longer roads: decode, swap and
// encode for an edit, validate for a setting. Run by ../face.sh: `agree` compares the answers of both sides, `count`
// does the work that callgrind counts, `print FILE` times both sides in turn and makes the tables.
#[path = "../common/mod.rs"]
mod common;
mod tables;
mod tasks;
mod workloads;
mod yard;

use common::sides::{Lent, Ours, Peer, Side};
use common::{Counts, agreed, count, count_operation};
use tasks::tasks;
use workloads::Workload;

fn agree_on(load: &Workload) {
    let lent = Lent::largest();
    for task in &tasks(load) {
        let answer = agreed(&task.name(), task.operation, &task.case, &lent, &Ours, &Peer);
        if let Some(mut road) = task.longer_road() {
            let mut edited = lent.clone();
            task.operation.run(&Ours, &task.case, &mut edited);
            assert_eq!(road.walk(&Ours), answer, "{}: the longer road answers differently", task.name());
            assert!(road.result() == edited.out, "{}: the longer road ends elsewhere", task.name());
        }
    }
    let [number, _, _, nodes, _] = Peer.validate(&load.case).0;
    println!("{}: {} octets, reply {number}, {nodes} nodes: agree", load.name, load.case.message.len());
}

fn count_on(load: &Workload) {
    let mut lent = Lent::largest();
    for task in &tasks(load) {
        for side in [&Ours as &dyn Side, &Peer] {
            count_operation(&task.label(side.name()), side, task.operation, &task.case, &mut lent);
        }
        if let Some(mut road) = task.longer_road() {
            road.walk(&Ours);
            count(&task.label("longer road"), || {
                road.walk(&Ours);
            });
        }
    }
}

fn main() {
    let arguments: Vec<String> = std::env::args().collect();
    let all = || workloads::all().into_iter().chain(workloads::growing());
    match arguments.iter().map(String::as_str).collect::<Vec<_>>()[1..] {
        ["agree"] => all().for_each(|load| agree_on(&load)),
        ["count"] => all().for_each(|load| count_on(&load)),
        ["print", file] => tables::print(&Counts::read(file)),
        _ => panic!("agree, count, or print FILE"),
    }
}
