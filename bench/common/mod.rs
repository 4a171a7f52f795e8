// What the benchmarks over the C face share: the operations and their sides, counting, timing, and Markdown.
#![allow(dead_code)]

pub mod markdown;
pub mod sides;

use std::collections::HashMap;
use std::hint::black_box;
use std::time::Instant;

use peer::generate::Case;
use sides::{Answer, Lent, Operation, Side};

// Callgrind counts the instructions inside this function and dumps them at its end (common/bench.sh): the work, and
// five of its own.
#[unsafe(no_mangle)]
#[inline(never)]
pub fn measured(work: &mut dyn FnMut()) {
    work();
    black_box(());
}

// Names the next dump, and does the work that is counted for it.
pub fn count(label: &str, mut work: impl FnMut()) {
    println!("{label}");
    measured(&mut work);
}

// One call of an operation, counted; another one comes before it, so that a heap is in order.
pub fn count_operation(label: &str, side: &dyn Side, operation: Operation, case: &Case, lent: &mut Lent) {
    operation.run(side, case, lent);
    count(label, || {
        black_box(operation.run(side, black_box(case), lent));
    });
}

// The counts by their labels, from the file that common/bench.sh writes.
pub struct Counts(HashMap<String, u64>);

impl Counts {
    pub fn read(path: &str) -> Counts {
        let text = std::fs::read_to_string(path).expect("the file of counts is there");
        let line = |line: &str| {
            let (count, label) = line.split_once('\t').expect("a line has a count and a label");
            (label.to_string(), count.parse().expect("a count is a number"))
        };
        Counts(text.lines().map(line).collect())
    }

    pub fn of(&self, label: &str) -> u64 {
        *self.0.get(label).unwrap_or_else(|| panic!("{label} was not counted"))
    }

    pub fn ratio(&self, label: &str, beside: &str) -> f64 {
        self.of(label) as f64 / self.of(beside) as f64
    }
}

const ROUNDS: usize = 25;
const SAMPLE_NANOSECONDS: f64 = 200_000.0;

// How long one call takes, in nanoseconds.
fn timed(calls: u64, work: &mut dyn FnMut()) -> f64 {
    let start = Instant::now();
    for _ in 0..calls {
        work();
    }
    start.elapsed().as_nanos() as f64 / calls as f64
}

// How many calls make a sample long enough to be timed: the most of three tries, since one may have been interrupted.
fn calls(work: &mut dyn FnMut()) -> u64 {
    let mut long_enough = || {
        let mut calls = 1;
        while timed(calls, work) * (calls as f64) < SAMPLE_NANOSECONDS {
            calls *= 2;
        }
        calls
    };
    (0..3).map(|_| long_enough()).max().unwrap_or(1)
}

// The time of one side beside that of the other: the median of rounds in which both are timed in turn.
pub fn time_ratio(one: &mut dyn FnMut(), other: &mut dyn FnMut()) -> f64 {
    let (one_calls, other_calls) = (calls(one), calls(other));
    let mut ratios: Vec<f64> = (0..ROUNDS)
        .map(|round| {
            if round % 2 == 0 {
                let time = timed(one_calls, one);
                time / timed(other_calls, other)
            } else {
                let time = timed(other_calls, other);
                timed(one_calls, one) / time
            }
        })
        .collect();
    ratios.sort_by(f64::total_cmp);
    ratios[ROUNDS / 2]
}

// Both sides on one case, each with its own copy of the lent buffers, which have to end the same: the answer.
pub fn agreed(name: &str, operation: Operation, case: &Case, lent: &Lent, one: &dyn Side, other: &dyn Side) -> Answer {
    let (mut lent, mut other_lent) = (lent.clone(), lent.clone());
    let answer = operation.run(one, case, &mut lent);
    let other_answer = operation.run(other, case, &mut other_lent);
    assert_eq!(answer, other_answer, "{name}: {} and {} answer differently", one.name(), other.name());
    assert!(lent == other_lent, "{name}: {} and {} leave other buffers", one.name(), other.name());
    answer
}
