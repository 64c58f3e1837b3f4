//! The cuts, round by round, over a list of arcs with their two ends.

use crate::distance::{distance_of, distances};
use crate::must::check_way;
use crate::task::{Numbers, Refusal, Task};

/// One round: the cut's cost and its steps.
#[derive(Clone, Debug, PartialEq, Eq)]
pub struct Round {
    pub cost: u32,
    pub steps: Numbers,
}

/// The rounds in order, the costs left after them, and the floor.
#[derive(Clone, Debug, Default, PartialEq, Eq)]
pub struct Cuts {
    pub rounds: Vec<Round>,
    pub left: Vec<u32>,
    pub floor: u32,
}

/// An arc between two vertices at a present cost, and the step it comes from,
/// if it isn't a free one. A fact's vertex is its number; the two numbers
/// after the last fact are "begin" and "end".
#[derive(Clone, Copy)]
pub struct Arc {
    pub from: usize,
    pub to: usize,
    pub cost: u32,
    pub step: Option<usize>,
}

/// The vertex "begin".
pub fn begin(task: &Task) -> usize {
    task.facts
}

/// The vertex "end".
pub fn end(task: &Task) -> usize {
    task.facts + 1
}

/// The cuts of a task, or 7 if there is no way to the goal.
pub fn cuts(task: &Task) -> Result<Cuts, Refusal> {
    check_way(task)?;
    let mut cuts = Cuts {
        left: task.costs(),
        ..Cuts::default()
    };
    loop {
        let distances = distances(task, &cuts.left);
        if distance_of(&task.goal, &distances) == Some(0) {
            return Ok(cuts);
        }
        let arcs = arcs(task, &cuts.left, |facts| farthest(facts, &distances));
        let steps = cut(task, &arcs);
        cuts.add_round(steps);
    }
}

impl Cuts {
    /// Adds a round with this cut: its cost is the least cost left among its
    /// steps, goes to the floor and is taken off each of them.
    pub fn add_round(&mut self, steps: Numbers) {
        let cost = steps.iter().map(|&step| self.left[step]).min().unwrap_or(0);
        for &step in &steps {
            self.left[step] -= cost;
        }
        self.floor += cost;
        self.rounds.push(Round { cost, steps });
    }
}

/// What a set of needs chooses among its facts.
#[derive(Clone, Copy, PartialEq, Eq)]
pub enum Choice {
    Begin,
    Fact(usize),
    Unreachable,
}

/// The farthest of these facts, the lowest of equals; "begin" if there is
/// none; "unreachable" if one of them is.
pub fn farthest(facts: &Numbers, distances: &[Option<u32>]) -> Choice {
    let Some(largest) = distance_of(facts, distances) else {
        return Choice::Unreachable;
    };
    let chosen = facts.iter().find(|&&fact| distances[fact] == Some(largest));
    chosen.map_or(Choice::Begin, |&fact| Choice::Fact(fact))
}

/// All arcs of a round: of the steps that can be taken, from their choice to
/// what they set; free ones from "begin" to the start facts and from the
/// goal's choice to "end".
pub fn arcs(task: &Task, costs: &[u32], choose: impl Fn(&Numbers) -> Choice) -> Vec<Arc> {
    let vertex = |facts: &Numbers| match choose(facts) {
        Choice::Begin => Some(begin(task)),
        Choice::Fact(fact) => Some(fact),
        Choice::Unreachable => None,
    };
    let free = |from: usize, to: usize| Arc {
        from,
        to,
        cost: 0,
        step: None,
    };
    let mut arcs: Vec<Arc> = Vec::new();
    arcs.extend(task.start.iter().map(|&fact| free(begin(task), fact)));
    arcs.extend(vertex(&task.goal).map(|from| free(from, end(task))));
    for (number, step) in task.steps.iter().enumerate() {
        let Some(from) = vertex(&step.needs) else {
            continue;
        };
        arcs.extend(step.sets.iter().map(|&to| Arc {
            from,
            to,
            cost: costs[number],
            step: Some(number),
        }));
    }
    arcs
}

/// The vertices that can be come to from one vertex along these pairs.
fn spread(vertices: usize, from: usize, pairs: impl Iterator<Item = (usize, usize)>) -> Vec<bool> {
    let mut next = vec![Vec::new(); vertices];
    for (from, to) in pairs {
        next[from].push(to);
    }
    let mut seen = vec![false; vertices];
    let mut waiting = vec![from];
    while let Some(vertex) = waiting.pop() {
        if !std::mem::replace(&mut seen[vertex], true) {
            waiting.extend(&next[vertex]);
        }
    }
    seen
}

/// The zone: the vertices with a path of zero-cost arcs to "end".
pub fn zone(task: &Task, arcs: &[Arc]) -> Vec<bool> {
    let backwards = arcs.iter().filter(|arc| arc.cost == 0);
    let pairs = backwards.map(|arc| (arc.to, arc.from));
    spread(end(task) + 1, end(task), pairs)
}

/// The vertices that can be reached from "begin" without entering the zone.
pub fn before_zone(task: &Task, arcs: &[Arc], zone: &[bool]) -> Vec<bool> {
    let outside = arcs.iter().filter(|arc| !zone[arc.to]);
    let pairs = outside.map(|arc| (arc.from, arc.to));
    spread(end(task) + 1, begin(task), pairs)
}

/// The cut: the steps with an arc into the zone from a vertex outside it that
/// can be reached from "begin" without entering it.
pub fn cut(task: &Task, arcs: &[Arc]) -> Numbers {
    let zone = zone(task, arcs);
    let before = before_zone(task, arcs, &zone);
    let crossing = arcs
        .iter()
        .filter(|arc| zone[arc.to] && !zone[arc.from] && before[arc.from]);
    crossing.filter_map(|arc| arc.step).collect()
}
