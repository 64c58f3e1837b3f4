//! Distances (h-max): facts are settled in the order of their distance.

use std::cmp::Reverse;
use std::collections::BinaryHeap;

use crate::reach::users;
use crate::task::{Numbers, Task};

/// The distance of each fact under these costs; none for an unreachable one.
/// Facts are settled nearest first, so a step's last need to be settled is
/// its farthest.
pub fn distances(task: &Task, costs: &[u32]) -> Vec<Option<u32>> {
    let users = users(task);
    let mut open_needs: Vec<usize> = task.steps.iter().map(|step| step.needs.len()).collect();
    let mut settled = vec![None; task.facts];
    let mut offers = first_offers(task, costs);
    while let Some(Reverse((distance, fact))) = offers.pop() {
        if settled[fact].is_some() {
            continue;
        }
        settled[fact] = Some(distance);
        for &number in &users[fact] {
            open_needs[number] -= 1;
            if open_needs[number] == 0 {
                let offer = distance + costs[number];
                let sets = &task.steps[number].sets;
                offers.extend(sets.iter().map(|&set| Reverse((offer, set))));
            }
        }
    }
    settled
}

/// Distances offered before any fact is settled: 0 to each start fact, and
/// its cost by each step without needs.
fn first_offers(task: &Task, costs: &[u32]) -> BinaryHeap<Reverse<(u32, usize)>> {
    let mut offers: BinaryHeap<_> = task.start.iter().map(|&fact| Reverse((0, fact))).collect();
    for (step, &cost) in task.steps.iter().zip(costs) {
        if step.needs.is_empty() {
            offers.extend(step.sets.iter().map(|&fact| Reverse((cost, fact))));
        }
    }
    offers
}

/// The distance of a set: the largest among its facts, 0 if it is empty, none
/// if one of them is unreachable.
pub fn distance_of(facts: &Numbers, distances: &[Option<u32>]) -> Option<u32> {
    facts
        .iter()
        .try_fold(0, |largest, &fact| Some(largest.max(distances[fact]?)))
}
