//! Calls each function of the library on document 01's first task and on one thing that it refuses, and
//! prints every number that comes back: a line for each call, with the answer first and then each table
//! or set that was lent, filled with sevens before.

#[path = "../crates/exports/rust/salgezhim.rs"]
mod salgezhim;

use salgezhim::{Answer, Task};
use std::fmt::Display;

/// Document 01's first task: five facts, five steps, four words a set.
const FIRST: Task<'static> = Task {
    facts: 5,
    steps: 5,
    needs: &[0, 0, 0, 0, 1, 0, 0, 0, 1, 0, 0, 0, 1, 0, 0, 0, 12, 0, 0, 0],
    sets: &[1, 0, 0, 0, 6, 0, 0, 0, 4, 0, 0, 0, 8, 0, 0, 0, 16, 0, 0, 0],
    clears: &[0; 20],
    costs: &[1, 3, 1, 2, 1],
    start: &[0; 4],
    goal: &[16, 0, 0, 0],
};

/// The same, where no step sets anything: no way leads to the goal.
const BARREN: Task<'static> = Task {
    sets: &[0; 20],
    ..FIRST
};

/// Its file.
const FILE: [u8; 67] = [
    1, 5, 0, 5, 0, 3, 4, 0, // head, goal
    4, 1, 0, 0, 0, 6, 0, 0, // step 0
    4, 3, 0, 0, 0, 5, 0, 0, 6, 1, 0, 6, 2, 0, // step 1
    4, 1, 0, 0, 0, 5, 0, 0, 6, 2, 0, // step 2
    4, 2, 0, 0, 0, 5, 0, 0, 6, 3, 0, // step 3
    4, 1, 0, 0, 0, 5, 2, 0, 5, 3, 0, 6, 4, 0, // step 4
    0, // end
];

/// Numbers with a blank before each.
fn blank_before<T: Display>(numbers: &[T]) -> String {
    numbers.iter().map(|n| format!(" {n}")).collect()
}

/// Prints a name, the fields of an answer and, after a bar, each table.
fn print(name: &str, answer: &[u64], tables: &[String]) {
    let tables: String = tables.iter().map(|t| format!(" |{t}")).collect();
    println!("{name}{}{tables}", blank_before(answer));
}

/// Prints a name, a plain answer and a table.
fn print_table<T: Display>(name: &str, answer: Answer, table: &[T]) {
    print(name, &[answer.number, answer.place], &[blank_before(table)]);
}

/// Checking: the task, and one with no facts.
fn check() {
    for facts in [5, 0] {
        let answer = Task { facts, ..FIRST }.check();
        print("check", &[answer.number, answer.place], &[]);
    }
}

/// Reach: the task, and one with too many steps.
fn reach() {
    for steps in [5, 1025] {
        let mut set = [7; 4];
        let answer = Task { steps, ..FIRST }.reach(&mut set);
        print(
            "reach",
            &[answer.number, answer.place, answer.passes],
            &[blank_before(&set)],
        );
    }
}

/// Distances: with room for more than they need, and for less.
fn distances() {
    for room in [6, 4] {
        let mut table = vec![7; room];
        let answer = FIRST.distances(&mut table);
        print_table("distances", answer, &table);
    }
}

/// Must rows: with room for more than they need, and for less.
fn must_rows() {
    for room in [21, 19] {
        let mut table = vec![7; room];
        let answer = FIRST.must_rows(&mut table);
        print_table("must_rows", answer, &table);
    }
}

/// Must-pass facts: the task, and one where no step sets anything.
fn must_facts() {
    for task in [FIRST, BARREN] {
        let mut set = [7; 4];
        let answer = task.must_facts(&mut set);
        print_table("must_facts", answer, &set);
    }
}

/// Must-pass steps: the task, and one where no step sets anything.
fn must_steps() {
    for task in [FIRST, BARREN] {
        let mut set = [7; 16];
        let answer = task.must_steps(&mut set);
        print_table("must_steps", answer, &set);
    }
}

/// Just-before rows: the task, and one with a cost too few.
fn just_before_rows() {
    for costs in [FIRST.costs, &FIRST.costs[..4]] {
        let mut table = [7; 21];
        let answer = Task { costs, ..FIRST }.just_before_rows(&mut table);
        print_table("just_before_rows", answer, &table);
    }
}

/// Cuts: with room for as many rounds as steps, and with a word too few.
fn cuts() {
    for room in [80, 79] {
        let (mut rows, mut prices, mut left) = (vec![7; room], [7; 5], [7; 6]);
        let answer = FIRST.cuts(&mut rows, &mut prices, &mut left);
        print(
            "cuts",
            &[answer.number, answer.place, answer.rounds, answer.floor],
            &[
                blank_before(&rows),
                blank_before(&prices),
                blank_before(&left),
            ],
        );
    }
}

/// Replay: walks that are done, stuck, short of the goal and refused.
fn replay() {
    for walk in [&[0, 2, 3, 4][..], &[0, 4], &[], &[0, 5]] {
        let answer = FIRST.replay(walk);
        print(
            "replay",
            &[answer.outcome, answer.number, answer.place, answer.cost],
            &[],
        );
    }
}

/// Reading: the whole file, and without its end record.
fn read() {
    for length in [67, 66] {
        let (mut needs, mut sets, mut clears) = ([7; 21], [7; 21], [7; 21]);
        let (mut costs, mut start, mut goal) = ([7; 6], [7; 4], [7; 4]);
        let answer = salgezhim::read(
            &FILE[..length],
            &mut needs,
            &mut sets,
            &mut clears,
            &mut costs,
            &mut start,
            &mut goal,
        );
        print(
            "read",
            &[answer.number, answer.place, answer.facts, answer.steps],
            &[
                blank_before(&needs),
                blank_before(&sets),
                blank_before(&clears),
                blank_before(&costs),
                blank_before(&start),
                blank_before(&goal),
            ],
        );
    }
}

fn main() {
    check();
    reach();
    distances();
    must_rows();
    must_facts();
    must_steps();
    just_before_rows();
    cuts();
    replay();
    read();
}
