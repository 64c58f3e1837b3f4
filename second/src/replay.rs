//! Replaying a given walk.

use crate::task::{Numbers, Refusal, Task};

/// The largest number of entries of a walk.
pub const MOST_ENTRIES: usize = 65_535;

/// What a replay answers.
#[derive(Clone, Copy, Debug, PartialEq, Eq)]
pub enum Outcome {
    /// The walk is a real walk of this cost.
    Done(u32),
    /// The needs of this entry's step don't hold; no earlier entry is stuck.
    Stuck(usize),
    /// Every entry could be taken, but the goal doesn't hold after the last.
    Short,
}

/// The facts after a step: its clears are removed first, then its sets added.
pub fn taken(task: &Task, step: usize, facts: &Numbers) -> Numbers {
    let step = &task.steps[step];
    let cleared = facts - &step.clears;
    &cleared | &step.sets
}

/// Replays a walk from the start; 8 if it is too long, 9 with the first entry
/// that is no step.
pub fn replay(task: &Task, walk: &[u16]) -> Result<Outcome, Refusal> {
    if walk.len() > MOST_ENTRIES {
        return Err(Refusal::new(8));
    }
    let no_step = |&entry: &u16| usize::from(entry) >= task.steps.len();
    if let Some(place) = walk.iter().position(no_step) {
        return Err(Refusal::at(9, place));
    }
    let mut facts = task.start.clone();
    let mut cost = 0;
    for (place, &entry) in walk.iter().enumerate() {
        let step = usize::from(entry);
        if !task.steps[step].needs.is_subset(&facts) {
            return Ok(Outcome::Stuck(place));
        }
        facts = taken(task, step, &facts);
        cost += task.steps[step].cost;
    }
    if task.goal.is_subset(&facts) {
        Ok(Outcome::Done(cost))
    } else {
        Ok(Outcome::Short)
    }
}
