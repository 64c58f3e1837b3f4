//! What can be reached, and by how many passes.

use crate::distance::distances;
use crate::task::Task;

/// For each fact, the steps that need it.
pub fn users(task: &Task) -> Vec<Vec<usize>> {
    let mut users = vec![Vec::new(); task.facts];
    for (number, step) in task.steps.iter().enumerate() {
        for &fact in &step.needs {
            users[fact].push(number);
        }
    }
    users
}

/// Which facts can be reached by the allowed steps alone: a list of facts
/// still to be handled, on which a step puts what it sets once its last need
/// has been handled.
pub fn reached_by(task: &Task, allowed: impl Fn(usize) -> bool) -> Vec<bool> {
    let users = users(task);
    let mut open_needs: Vec<usize> = task.steps.iter().map(|step| step.needs.len()).collect();
    let mut reached = vec![false; task.facts];
    let mut waiting: Vec<usize> = task.start.iter().copied().collect();
    for (number, step) in task.steps.iter().enumerate() {
        if step.needs.is_empty() && allowed(number) {
            waiting.extend(&step.sets);
        }
    }
    while let Some(fact) = waiting.pop() {
        if std::mem::replace(&mut reached[fact], true) {
            continue;
        }
        for &number in &users[fact] {
            open_needs[number] -= 1;
            if open_needs[number] == 0 && allowed(number) {
                waiting.extend(&task.steps[number].sets);
            }
        }
    }
    reached
}

/// Which facts can be reached.
pub fn reached(task: &Task) -> Vec<bool> {
    reached_by(task, |_| true)
}

/// Whether the allowed steps alone hold a way to the goal.
pub fn goal_reached_by(task: &Task, allowed: impl Fn(usize) -> bool) -> bool {
    let reached = reached_by(task, allowed);
    task.goal.iter().all(|&fact| reached[fact])
}

/// The number of passes, the last one, which adds nothing, counted. The pass
/// that adds a fact is its distance where every step costs 1.
pub fn passes(task: &Task) -> u32 {
    let by_pass = distances(task, &vec![1; task.steps.len()]);
    1 + by_pass.into_iter().flatten().max().unwrap_or(0)
}
