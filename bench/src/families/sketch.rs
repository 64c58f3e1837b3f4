//! A task as lists of numbers, and the case that it becomes: tables, a walk and a file.

use super::{Case, Costs, Dice, Order};
use crate::plain::take;
use crate::sets::{add, fact_set, members, within};
use crate::task::{row_mut, Task, LONGEST_WALK, MOST_STEPS};

/// A step by the numbers of its facts.
#[derive(Clone, Default)]
pub struct Step {
    needs: Vec<usize>,
    sets: Vec<usize>,
    clears: Vec<usize>,
    cost: u32,
}

impl Step {
    /// A step that clears nothing.
    pub fn new(needs: &[usize], sets: &[usize]) -> Step {
        Step {
            needs: needs.to_vec(),
            sets: sets.to_vec(),
            ..Step::default()
        }
    }

    /// The same step, clearing facts.
    pub fn clearing(self, clears: &[usize]) -> Step {
        let clears = clears.to_vec();
        Step { clears, ..self }
    }

    /// The same step at a cost.
    pub fn costing(self, cost: usize) -> Step {
        let cost = cost as u32;
        Step { cost, ..self }
    }

    /// The same step with its facts numbered from the other end.
    fn mirrored(&self, facts: usize) -> Step {
        let mirror = |list: &[usize]| list.iter().map(|fact| facts - 1 - fact).collect();
        Step {
            needs: mirror(&self.needs),
            sets: mirror(&self.sets),
            clears: mirror(&self.clears),
            cost: self.cost,
        }
    }
}

/// A task by the numbers of its facts.
pub struct Sketch {
    pub facts: usize,
    pub steps: Vec<Step>,
    pub start: Vec<usize>,
    pub goal: Vec<usize>,
}

impl Sketch {
    /// The same task with its facts numbered from the other end.
    pub fn mirrored(self) -> Sketch {
        let mirror = |fact: usize| self.facts - 1 - fact;
        Sketch {
            facts: self.facts,
            steps: self
                .steps
                .iter()
                .map(|step| step.mirrored(self.facts))
                .collect(),
            start: self.start.into_iter().map(mirror).collect(),
            goal: self.goal.into_iter().map(mirror).collect(),
        }
    }

    /// The task with its costs drawn and its steps put in order, as tables.
    pub fn into_case(self, family: &'static str, costs: Costs, order: Order, seed: u64) -> Case {
        let mut dice = Dice(seed ^ 0xABCDEF);
        let mut steps = self.steps;
        steps.truncate(MOST_STEPS);
        let mut steps = ordered(steps, order, &mut dice);
        for step in &mut steps {
            step.cost = drawn_cost(step.cost, costs, &mut dice);
        }
        let task = tables(self.facts, &steps, &self.start, &self.goal);
        let walk = random_walk(&task, &mut dice);
        let file = file_of(&task);
        Case {
            family,
            costs,
            order,
            task,
            walk,
            file,
        }
    }
}

/// Steps put in an order.
fn ordered(mut steps: Vec<Step>, order: Order, dice: &mut Dice) -> Vec<Step> {
    match order {
        Order::Made => steps,
        Order::Reversed => {
            steps.reverse();
            steps
        }
        Order::Shuffled => {
            let places = dice.shuffled(steps.len());
            places.iter().map(|&place| steps[place].clone()).collect()
        }
    }
}

/// The cost of a step whose family gives it a cost.
fn drawn_cost(given: u32, costs: Costs, dice: &mut Dice) -> u32 {
    match costs {
        Costs::Unit => 1,
        Costs::Varied => 1 + dice.below(20) as u32,
        Costs::Wide => 1 + dice.below(65_535) as u32,
        Costs::Zeros if dice.below(10) < 6 => 0,
        Costs::Zeros => 1 + dice.below(10) as u32,
        Costs::Given => given,
    }
}

/// The tables of a task.
fn tables(facts: usize, steps: &[Step], start: &[usize], goal: &[usize]) -> Task {
    let mut task = Task::blank(facts, steps.len());
    for (place, step) in steps.iter().enumerate() {
        add_all(row_mut(&mut task.needs, place), &step.needs);
        add_all(row_mut(&mut task.sets, place), &step.sets);
        add_all(row_mut(&mut task.clears, place), &step.clears);
        task.costs[place] = step.cost;
    }
    add_all(&mut task.start, start);
    add_all(&mut task.goal, goal);
    task
}

/// Adds facts to a set.
fn add_all(set: &mut [u64], facts: &[usize]) {
    facts.iter().for_each(|&fact| add(set, fact));
}

/// A walk of 64 entries for each step, or as many as a walk may have, whose steps can be taken in
/// turn; shorter where no step can be taken any more.
fn random_walk(task: &Task, dice: &mut Dice) -> Vec<u16> {
    let entries = LONGEST_WALK.min(64 * task.steps);
    let mut held = fact_set(&task.start);
    let mut walk = Vec::with_capacity(entries);
    for _ in 0..entries {
        let first = dice.below(task.steps);
        let mut steps = (first..task.steps).chain(0..first);
        let Some(step) = steps.find(|&step| within(task.needs_of(step), &held)) else {
            break;
        };
        take(task, step, &mut held);
        walk.push(step as u16);
    }
    walk
}

/// The file of a task: head, start, goal, then each step with its facts.
fn file_of(task: &Task) -> Vec<u8> {
    let mut file = vec![1];
    file.extend((task.facts as u16).to_le_bytes());
    file.extend((task.steps as u16).to_le_bytes());
    name_facts(&mut file, 2, &task.start);
    name_facts(&mut file, 3, &task.goal);
    for step in 0..task.steps {
        file.push(4);
        file.extend(task.costs[step].to_le_bytes());
        name_facts(&mut file, 5, task.needs_of(step));
        name_facts(&mut file, 6, task.sets_of(step));
        name_facts(&mut file, 7, task.clears_of(step));
    }
    file.push(0);
    file
}

/// Adds a record of a kind for each fact of a set.
fn name_facts(file: &mut Vec<u8>, kind: u8, set: &[u64]) {
    for fact in members(set) {
        file.push(kind);
        file.extend((fact as u16).to_le_bytes());
    }
}
