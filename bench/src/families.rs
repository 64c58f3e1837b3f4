//! The families of tasks and their sizes. Every task follows from its family, size, costs, order
//! and seed alone, so all runs measure the same tasks.

mod dice;
mod kinds;
mod logistics;
mod sketch;

pub use dice::Dice;
pub use kinds::wild;

use crate::task::Task;
use kinds::{blocks, chain, client, dense, grid, ladder, shortcut, sparse};
use logistics::parcels;

/// A task to measure, with a walk through it and its file.
#[derive(Clone)]
pub struct Case {
    pub family: &'static str,
    pub costs: Costs,
    pub order: Order,
    pub task: Task,
    pub walk: Vec<u16>,
    pub file: Vec<u8>,
}

/// How the costs of steps are drawn: all 1, 1 to 20, 1 to 65,535, mostly 0, or as the family says.
#[derive(Clone, Copy, Debug, PartialEq)]
pub enum Costs {
    Unit,
    Varied,
    Wide,
    Zeros,
    Given,
}

/// In which order steps are numbered: as the family makes them, the other way round, or shuffled.
#[derive(Clone, Copy, Debug, PartialEq)]
pub enum Order {
    Made,
    Reversed,
    Shuffled,
}

/// The cases of a short run.
pub fn few() -> Vec<Case> {
    use {Costs::*, Order::*};
    let mut cases = vec![];
    for (facts, steps) in [(16, 32), (64, 256), (256, 1_024)] {
        cases.push(sparse(facts, steps, Varied, Made, 1));
        cases.push(grid(facts, steps, Varied, Made, 2));
        cases.push(client(facts, steps, Varied, Made, 3));
    }
    cases.push(dense(64, 256, Varied, Made, 4));
    cases.push(chain(64, 252, Varied, Shuffled, 6));
    cases.push(shortcut(64, Reversed));
    cases.push(blocks(9, Unit, Made, 7));
    cases.push(parcels(3, 3, 8).case(Unit, Made, 9));
    cases
}

/// The cases of a long run.
pub fn all() -> Vec<Case> {
    use {Costs::*, Order::*};
    let mut cases = vec![];
    for (facts, steps) in [(16, 32), (64, 256), (128, 512), (256, 1_024)] {
        cases.push(sparse(facts, steps, Varied, Made, 1));
        cases.push(grid(facts, steps, Varied, Made, 2));
        cases.push(client(facts, steps, Varied, Made, 3));
    }
    for costs in [Unit, Wide, Zeros] {
        cases.push(sparse(256, 1_024, costs, Made, 1));
        cases.push(client(256, 1_024, costs, Made, 3));
    }
    cases.push(sparse(256, 1_024, Varied, Shuffled, 1));
    cases.push(dense(64, 256, Varied, Made, 4));
    cases.push(dense(256, 1_024, Varied, Made, 4));
    cases.push(dense(256, 1_024, Unit, Shuffled, 5));
    cases.push(grid(256, 1_024, Varied, Reversed, 2));
    cases.push(grid(256, 1_024, Zeros, Shuffled, 2));
    for order in [Made, Reversed, Shuffled] {
        cases.push(chain(256, 1_020, Varied, order, 6));
    }
    for order in [Made, Reversed] {
        cases.push(ladder(46, order));
        cases.push(shortcut(256, order));
    }
    for count in [5, 9, 14] {
        cases.push(blocks(count, Unit, Made, 7));
    }
    cases.push(blocks(14, Varied, Reversed, 8));
    cases.push(parcels(2, 2, 4).case(Unit, Made, 9));
    cases.push(parcels(3, 3, 8).case(Unit, Made, 9));
    cases.push(parcels(4, 3, 12).case(Unit, Made, 9));
    cases.push(parcels(4, 3, 12).case(Varied, Reversed, 9));
    cases.push(parcels(4, 3, 12).case(Zeros, Shuffled, 9));
    cases
}
