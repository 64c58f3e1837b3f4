//! A task: its facts, steps, start and goal, and what it is refused for.

use std::collections::BTreeSet;

/// The largest number of facts.
pub const MOST_FACTS: usize = 256;
/// The largest number of steps.
pub const MOST_STEPS: usize = 1_024;
/// The largest cost of one step.
pub const MOST_COST: u32 = 65_535;

/// Fact numbers or step numbers, lowest first.
pub type Numbers = BTreeSet<usize>;

/// Why something is refused, and where.
#[derive(Clone, Copy, Debug, PartialEq, Eq)]
pub struct Refusal {
    pub number: u8,
    pub place: usize,
}

impl Refusal {
    /// The refusal of this number with a place of its own.
    pub fn at(number: u8, place: usize) -> Refusal {
        Refusal { number, place }
    }

    /// The refusal of this number where no place is told.
    pub fn new(number: u8) -> Refusal {
        Refusal::at(number, 0)
    }
}

/// What one step costs, needs, sets and clears.
#[derive(Clone, Debug, Default, PartialEq, Eq)]
pub struct Step {
    pub cost: u32,
    pub needs: Numbers,
    pub sets: Numbers,
    pub clears: Numbers,
}

impl Step {
    /// A step that clears nothing.
    pub fn new(cost: u32, needs: &[usize], sets: &[usize]) -> Step {
        Step {
            cost,
            needs: numbers(needs),
            sets: numbers(sets),
            clears: Numbers::new(),
        }
    }

    /// The same step, clearing these facts as well.
    pub fn clearing(mut self, facts: &[usize]) -> Step {
        self.clears.extend(facts);
        self
    }
}

/// A task whose sizes, facts and costs are within the limits.
#[derive(Clone, Debug, Default, PartialEq, Eq)]
pub struct Task {
    pub facts: usize,
    pub start: Numbers,
    pub goal: Numbers,
    pub steps: Vec<Step>,
}

impl Task {
    /// A task from its parts.
    pub fn new(facts: usize, start: &[usize], goal: &[usize], steps: Vec<Step>) -> Task {
        Task {
            facts,
            start: numbers(start),
            goal: numbers(goal),
            steps,
        }
    }

    /// The costs of the steps as given.
    pub fn costs(&self) -> Vec<u32> {
        self.steps.iter().map(|step| step.cost).collect()
    }

    /// The lowest of 1, 2, 4 and 5 that applies, if any. A task held in
    /// this form has no table that could have another length (3).
    pub fn check(&self) -> Result<(), Refusal> {
        check_sizes(self.facts, self.steps.len())?;
        if self.largest_fact().is_some_and(|fact| fact >= self.facts) {
            return Err(Refusal::new(4));
        }
        if self.steps.iter().any(|step| step.cost > MOST_COST) {
            return Err(Refusal::new(5));
        }
        Ok(())
    }

    /// The largest fact number that any set of the task holds.
    fn largest_fact(&self) -> Option<usize> {
        let of_steps = self
            .steps
            .iter()
            .flat_map(|step| [&step.needs, &step.sets, &step.clears]);
        of_steps
            .chain([&self.start, &self.goal])
            .filter_map(|set| set.last().copied())
            .max()
    }
}

/// Refusal 1 or 2 for sizes outside the limits.
pub fn check_sizes(facts: usize, steps: usize) -> Result<(), Refusal> {
    if facts == 0 || facts > MOST_FACTS {
        return Err(Refusal::new(1));
    }
    if steps > MOST_STEPS {
        return Err(Refusal::new(2));
    }
    Ok(())
}

/// The set of these numbers.
pub fn numbers(list: &[usize]) -> Numbers {
    list.iter().copied().collect()
}

/// The numbers that are marked.
pub fn marked(marks: &[bool]) -> Numbers {
    (0..marks.len()).filter(|&number| marks[number]).collect()
}
