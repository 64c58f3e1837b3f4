//! The task as document 01 lends it, its limits, and what an operation answers.

use crate::sets::FACT_WORDS;

/// The most facts a task has.
pub const MOST_FACTS: usize = 256;

/// The most steps a task has.
pub const MOST_STEPS: usize = 1_024;

/// The highest cost of a step.
pub const HIGHEST_COST: u32 = 65_535;

/// The most entries a walk has.
pub const LONGEST_WALK: usize = 65_535;

/// The most bytes a task file has.
pub const LONGEST_FILE: usize = 65_535;

/// The distance of a fact that no way leads to.
pub const UNREACHABLE: u32 = u32::MAX;

/// The tables of a task, with the numbers of its facts and steps.
#[derive(Clone, Debug, Default, PartialEq)]
pub struct Task {
    pub facts: usize,
    pub steps: usize,
    pub needs: Vec<u64>,
    pub sets: Vec<u64>,
    pub clears: Vec<u64>,
    pub costs: Vec<u32>,
    pub start: Vec<u64>,
    pub goal: Vec<u64>,
}

impl Task {
    /// A task of this size whose sets are empty and whose steps are free.
    pub fn blank(facts: usize, steps: usize) -> Task {
        Task {
            facts,
            steps,
            needs: vec![0; FACT_WORDS * steps],
            sets: vec![0; FACT_WORDS * steps],
            clears: vec![0; FACT_WORDS * steps],
            costs: vec![0; steps],
            start: vec![0; FACT_WORDS],
            goal: vec![0; FACT_WORDS],
        }
    }

    /// What a step needs.
    pub fn needs_of(&self, step: usize) -> &[u64] {
        row(&self.needs, step)
    }

    /// What a step sets.
    pub fn sets_of(&self, step: usize) -> &[u64] {
        row(&self.sets, step)
    }

    /// What a step clears.
    pub fn clears_of(&self, step: usize) -> &[u64] {
        row(&self.clears, step)
    }
}

/// The set of facts that stands at a place of a table of such sets.
pub fn row(table: &[u64], place: usize) -> &[u64] {
    &table[FACT_WORDS * place..FACT_WORDS * (place + 1)]
}

/// The set of facts that stands at a place of a table of such sets, for writing.
pub fn row_mut(table: &mut [u64], place: usize) -> &mut [u64] {
    &mut table[FACT_WORDS * place..FACT_WORDS * (place + 1)]
}

/// What an operation answers, beside what it writes into the tables lent to it.
#[derive(Clone, Copy, Debug, PartialEq)]
pub enum Answer {
    Fine,
    Reached { passes: u64 },
    Cut { rounds: u64, floor: u64 },
    Done { cost: u64 },
    Stuck { entry: u64 },
    Short,
    Read { facts: u64, steps: u64 },
    Refused { number: u64, place: u64 },
}

impl Answer {
    /// A refusal whose place is 0.
    pub fn refused(number: u64) -> Answer {
        Answer::Refused { number, place: 0 }
    }
}
