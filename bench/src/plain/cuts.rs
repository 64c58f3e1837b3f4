//! Cuts, round by round, over a list of arcs.

use super::{check, distances_under, reaches_goal, set_distance};
use crate::sets::{add, members, StepSet, STEP_WORDS};
use crate::task::{Answer, Task, UNREACHABLE};

/// An arc of a round; `step` is none for the free arcs of "begin" and "end".
struct Arc {
    tail: usize,
    head: usize,
    cost: u32,
    step: Option<usize>,
}

/// The cuts, their costs, and the costs left. Refusals 1 to 7.
pub fn cuts(task: &Task, rows: &mut [u64], prices: &mut [u32], left: &mut [u32]) -> Answer {
    let verdict = check(task);
    if verdict != Answer::Fine {
        return verdict;
    }
    let room = rows.len() >= STEP_WORDS * task.steps;
    if !room || prices.len() < task.steps || left.len() < task.steps {
        return Answer::refused(6);
    }
    if !reaches_goal(task, None) {
        return Answer::refused(7);
    }
    let left = &mut left[..task.steps];
    left.copy_from_slice(&task.costs);
    cut_all(task, rows, prices, left)
}

/// Makes rounds until the goal's distance is 0.
fn cut_all(task: &Task, rows: &mut [u64], prices: &mut [u32], left: &mut [u32]) -> Answer {
    let mut rounds = 0;
    let mut floor = 0;
    loop {
        let distances = distances_under(task, left);
        if set_distance(&distances, &task.goal) == 0 {
            let rounds = rounds as u64;
            return Answer::Cut { rounds, floor };
        }
        let cut = one_cut(task, &arcs_of_round(task, &distances, left));
        let price = members(&cut).map(|step| left[step]).min().unwrap_or(0);
        members(&cut).for_each(|step| left[step] -= price);
        rows[STEP_WORDS * rounds..STEP_WORDS * (rounds + 1)].copy_from_slice(&cut);
        prices[rounds] = price;
        floor += u64::from(price);
        rounds += 1;
    }
}

/// The arcs of a round: vertex n is "begin", vertex n + 1 is "end".
fn arcs_of_round(task: &Task, distances: &[u32], costs: &[u32]) -> Vec<Arc> {
    let (begin, end) = (task.facts, task.facts + 1);
    let free = |tail, head| Arc {
        tail,
        head,
        cost: 0,
        step: None,
    };
    let mut arcs = vec![free(chosen_need(distances, &task.goal, begin), end)];
    arcs.extend(members(&task.start).map(|fact| free(begin, fact)));
    for (step, &cost) in costs.iter().enumerate() {
        if set_distance(distances, task.needs_of(step)) == UNREACHABLE {
            continue;
        }
        let tail = chosen_need(distances, task.needs_of(step), begin);
        arcs.extend(members(task.sets_of(step)).map(|head| Arc {
            tail,
            head,
            cost,
            step: Some(step),
        }));
    }
    arcs
}

/// The member with the largest distance, of equals the lowest; "begin" for the empty set.
fn chosen_need(distances: &[u32], set: &[u64], begin: usize) -> usize {
    let farther = |chosen, fact| match distances[fact] > distances[chosen] {
        true => fact,
        false => chosen,
    };
    members(set).reduce(farther).unwrap_or(begin)
}

/// The cut of a round.
fn one_cut(task: &Task, arcs: &[Arc]) -> StepSet {
    let zone = zone_of(task, arcs);
    let outside = reached_outside(task, arcs, &zone);
    let mut cut = [0; STEP_WORDS];
    for arc in arcs
        .iter()
        .filter(|arc| outside[arc.tail] && zone[arc.head])
    {
        arc.step.into_iter().for_each(|step| add(&mut cut, step));
    }
    cut
}

/// All vertices with a path of zero-cost arcs to "end".
fn zone_of(task: &Task, arcs: &[Arc]) -> Vec<bool> {
    let mut zone = vec![false; task.facts + 2];
    zone[task.facts + 1] = true;
    let mut grown = true;
    while grown {
        grown = false;
        for arc in arcs {
            if arc.cost == 0 && zone[arc.head] && !zone[arc.tail] {
                zone[arc.tail] = true;
                grown = true;
            }
        }
    }
    zone
}

/// All vertices that can be reached from "begin" without entering the zone.
fn reached_outside(task: &Task, arcs: &[Arc], zone: &[bool]) -> Vec<bool> {
    let mut reached = vec![false; task.facts + 2];
    reached[task.facts] = true;
    let mut grown = true;
    while grown {
        grown = false;
        for arc in arcs {
            if reached[arc.tail] && !zone[arc.head] && !reached[arc.head] {
                reached[arc.head] = true;
                grown = true;
            }
        }
    }
    reached
}
