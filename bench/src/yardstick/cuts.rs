//! LM-cut with distances that are kept from round to round.

use super::lists::Network;
use super::queue::Queue;
use super::{lower, settle_all};
use crate::sets::{add, members, STEP_WORDS};
use crate::task::{Answer, Task, UNREACHABLE};

/// Where a fact lies in a round.
#[derive(Clone, Copy, PartialEq)]
enum Side {
    Unmet,
    Zone,
    Before,
}

/// The present state: distances, and for each step the chosen need and its distance.
struct Rounds {
    distances: Vec<u32>,
    choices: Vec<u16>,
    needs_at: Vec<u32>,
    queue: Queue,
    sides: Vec<Side>,
    waiting: Vec<u16>,
    cut: Vec<u16>,
}

/// The cuts, their costs, and the costs left.
pub fn cuts(task: &Task, rows: &mut [u64], prices: &mut [u32], left: &mut [u32]) -> Answer {
    let network = Network::both_ways(task);
    let mut state = Rounds::begin(&network, task);
    if members(&task.goal).any(|fact| state.distances[fact] == UNREACHABLE) {
        return Answer::refused(7);
    }
    let left = &mut left[..task.steps];
    left.copy_from_slice(&task.costs);
    let mut rounds = 0;
    let mut floor = 0;
    while let Some(goal) = state.far_goal(task) {
        state.mark_zone(&network, goal, left);
        let price = state.find_cut(&network, task, left);
        let row = &mut rows[STEP_WORDS * rounds..STEP_WORDS * (rounds + 1)];
        row.fill(0);
        for &step in &state.cut {
            add(row, step.into());
            left[usize::from(step)] -= price;
        }
        prices[rounds] = price;
        floor += u64::from(price);
        rounds += 1;
        state.lower_distances(&network, left);
    }
    let rounds = rounds as u64;
    Answer::Cut { rounds, floor }
}

impl Rounds {
    /// Distances and choices under the task's own costs.
    fn begin(network: &Network, task: &Task) -> Rounds {
        let mut distances = vec![UNREACHABLE; task.facts];
        let mut choices = vec![u16::MAX; task.steps];
        let mut needs_at = vec![UNREACHABLE; task.steps];
        let mut queue = Queue::new(task);
        for &step in &network.without_needs {
            needs_at[usize::from(step)] = 0;
        }
        let ready = |step: u16, fact: u16, distance: u32, distances: &[u32]| {
            let mut needs = network.needs.of(step).iter();
            let lowest = needs.find(|&&need| distances[usize::from(need)] == distance);
            choices[usize::from(step)] = lowest.copied().unwrap_or(fact);
            needs_at[usize::from(step)] = distance;
        };
        settle_all(network, task, &mut distances, &mut queue, ready);
        Rounds {
            distances,
            choices,
            needs_at,
            queue,
            sides: vec![Side::Unmet; task.facts],
            waiting: Vec::with_capacity(task.facts),
            cut: Vec::new(),
        }
    }

    /// The goal fact that the goal chooses, unless its distance is 0.
    fn far_goal(&self, task: &Task) -> Option<u16> {
        let mut far = None;
        let mut most = 0;
        for fact in members(&task.goal) {
            if self.distances[fact] > most {
                most = self.distances[fact];
                far = Some(fact as u16);
            }
        }
        far
    }

    /// Marks the zone, backwards from the goal's choice along steps that are free now.
    fn mark_zone(&mut self, network: &Network, goal: u16, left: &[u32]) {
        let (choices, needs_at) = (&self.choices[..], &self.needs_at[..]);
        let (sides, waiting) = (&mut self.sides[..], &mut self.waiting);
        sides.fill(Side::Unmet);
        sides[usize::from(goal)] = Side::Zone;
        waiting.push(goal);
        while let Some(fact) = waiting.pop() {
            for &step in network.set_by.of(fact) {
                let step = usize::from(step);
                if left[step] != 0 || needs_at[step] == UNREACHABLE {
                    continue;
                }
                let need = choices[step];
                if sides[usize::from(need)] == Side::Unmet {
                    sides[usize::from(need)] = Side::Zone;
                    waiting.push(need);
                }
            }
        }
    }

    /// Collects the cut, forwards from the start; the least cost left among its steps.
    fn find_cut(&mut self, network: &Network, task: &Task, left: &[u32]) -> u32 {
        let (choices, cut) = (&self.choices[..], &mut self.cut);
        let (sides, waiting) = (&mut self.sides[..], &mut self.waiting);
        for fact in members(&task.start) {
            sides[fact] = Side::Before;
            waiting.push(fact as u16);
        }
        cut.clear();
        for &step in &network.without_needs {
            if follow(network.sets.of(step), sides, waiting) {
                cut.push(step);
            }
        }
        while let Some(fact) = waiting.pop() {
            for &step in network.needed_by.of(fact) {
                let place = usize::from(step);
                let starts_here = choices[place] == fact;
                if starts_here && follow(network.sets.of(step), sides, waiting) {
                    cut.push(step);
                }
            }
        }
        let prices = cut.iter().map(|&step| left[usize::from(step)]);
        prices.min().unwrap_or(0)
    }

    /// Brings distances and choices up to date after the cut's steps became cheaper.
    fn lower_distances(&mut self, network: &Network, left: &[u32]) {
        let (choices, needs_at) = (&mut self.choices[..], &mut self.needs_at[..]);
        let (distances, queue) = (&mut self.distances[..], &mut self.queue);
        for &step in &self.cut {
            let distance = needs_at[usize::from(step)] + left[usize::from(step)];
            lower(network.sets.of(step), distance, distances, queue);
        }
        while let Some((distance, fact)) = queue.pop() {
            if distances[usize::from(fact)] < distance {
                continue;
            }
            for &step in network.needed_by.of(fact) {
                let place = usize::from(step);
                if choices[place] != fact || needs_at[place] <= distance {
                    continue;
                }
                let (choice, farthest) = chosen_need(network.needs.of(step), distances);
                choices[place] = choice;
                if farthest != needs_at[place] {
                    needs_at[place] = farthest;
                    let distance = farthest + left[place];
                    lower(network.sets.of(step), distance, distances, queue);
                }
            }
        }
    }
}

/// Follows the arcs of a step from before the zone to what it sets; whether one enters the zone.
#[inline]
fn follow(facts: &[u16], sides: &mut [Side], waiting: &mut Vec<u16>) -> bool {
    let mut enters = false;
    for &fact in facts {
        match sides[usize::from(fact)] {
            Side::Zone => enters = true,
            Side::Before => {}
            Side::Unmet => {
                sides[usize::from(fact)] = Side::Before;
                waiting.push(fact);
            }
        }
    }
    enters
}

/// The need with the largest distance, of equals the lowest, and that distance.
#[inline]
fn chosen_need(needs: &[u16], distances: &[u32]) -> (u16, u32) {
    let mut choice = needs[0];
    let mut farthest = distances[usize::from(choice)];
    for &need in &needs[1..] {
        let distance = distances[usize::from(need)];
        if distance > farthest {
            choice = need;
            farthest = distance;
        }
    }
    (choice, farthest)
}
