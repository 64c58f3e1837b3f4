//! The library: calls of the exported functions, by the declarations that come with them.

#[path = "../../crates/exports/rust/salgezhim.rs"]
mod salgezhim;

use crate::sets::{FactSet, StepSet};
use crate::task::{Answer, Task};

/// A task as the library is lent it.
fn lent(task: &Task) -> salgezhim::Task<'_> {
    salgezhim::Task {
        facts: task.facts,
        steps: task.steps,
        needs: &task.needs,
        sets: &task.sets,
        clears: &task.clears,
        costs: &task.costs,
        start: &task.start,
        goal: &task.goal,
    }
}

/// The answer for a refusal's number and place, or what to answer where nothing is refused.
fn unless_refused(number: u64, place: u64, fine: Answer) -> Answer {
    match number {
        0 => fine,
        _ => Answer::Refused { number, place },
    }
}

/// A refusal or two zeros as an answer.
fn answer(told: salgezhim::Answer) -> Answer {
    unless_refused(told.number, told.place, Answer::Fine)
}

/// Whether a task is sound.
pub fn check(task: &Task) -> Answer {
    answer(lent(task).check())
}

/// What can be reached, and in how many passes.
pub fn reach(task: &Task, set: &mut FactSet) -> Answer {
    let reached = lent(task).reach(set);
    let passes = reached.passes;
    unless_refused(reached.number, reached.place, Answer::Reached { passes })
}

/// The distance of every fact.
pub fn distances(task: &Task, table: &mut [u32]) -> Answer {
    answer(lent(task).distances(table))
}

/// The must row of every fact.
pub fn must_rows(task: &Task, rows: &mut [u64]) -> Answer {
    answer(lent(task).must_rows(rows))
}

/// The must-pass facts.
pub fn must_facts(task: &Task, set: &mut FactSet) -> Answer {
    answer(lent(task).must_facts(set))
}

/// The must-pass steps.
pub fn must_steps(task: &Task, set: &mut StepSet) -> Answer {
    answer(lent(task).must_steps(set))
}

/// The just-before row of every fact.
pub fn just_before_rows(task: &Task, rows: &mut [u64]) -> Answer {
    answer(lent(task).just_before_rows(rows))
}

/// The cuts, their costs, and the costs left.
pub fn cuts(task: &Task, rows: &mut [u64], prices: &mut [u32], left: &mut [u32]) -> Answer {
    let cutting = lent(task).cuts(rows, prices, left);
    let (rounds, floor) = (cutting.rounds, cutting.floor);
    unless_refused(cutting.number, cutting.place, Answer::Cut { rounds, floor })
}

/// What becomes of a walk.
pub fn replay(task: &Task, walk: &[u16]) -> Answer {
    let replayed = lent(task).replay(walk);
    let (number, place, cost) = (replayed.number, replayed.place, replayed.cost);
    match replayed.outcome {
        0 => Answer::Done { cost },
        1 => Answer::Stuck { entry: place },
        2 => Answer::Short,
        _ => Answer::Refused { number, place },
    }
}

/// The task of a file, written into the six tables of a task.
pub fn read(file: &[u8], lent: &mut Task) -> Answer {
    let reading = salgezhim::read(
        file,
        &mut lent.needs,
        &mut lent.sets,
        &mut lent.clears,
        &mut lent.costs,
        &mut lent.start,
        &mut lent.goal,
    );
    let (facts, steps) = (reading.facts, reading.steps);
    unless_refused(reading.number, reading.place, Answer::Read { facts, steps })
}
