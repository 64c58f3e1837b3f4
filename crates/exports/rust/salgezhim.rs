//! The analyser's operations for Rust: the declarations of the static library, and a safe method or
//! function over each. A slice is lent as a pointer and a length. The library has no requirement on the
//! values that it is lent, so nothing is tested here: what is wrong is refused.
//!
//! On a refusal `number` is document 01's number of it, `place` its place, and every table and set stays
//! as it was. Where nothing is refused both are 0. The row of a step needs no function: it is
//! `&task.needs[4 * step..4 * step + 4]`, or the same part of `task.sets`.

/// A refusal, or two zeros.
#[repr(C)]
#[derive(Clone, Copy, Debug, PartialEq, Eq)]
pub struct Answer {
    pub number: u64,
    pub place: u64,
}

/// The same, and the number of passes.
#[repr(C)]
#[derive(Clone, Copy, Debug, PartialEq, Eq)]
pub struct Reached {
    pub number: u64,
    pub place: u64,
    pub passes: u64,
}

/// The same, and the number of rounds and the floor.
#[repr(C)]
#[derive(Clone, Copy, Debug, PartialEq, Eq)]
pub struct Cutting {
    pub number: u64,
    pub place: u64,
    pub rounds: u64,
    pub floor: u64,
}

/// What becomes of a walk: outcome 0 done with the cost, 1 stuck at the entry `place`, 2 short of the
/// goal, 3 refused with number and place.
#[repr(C)]
#[derive(Clone, Copy, Debug, PartialEq, Eq)]
pub struct Replayed {
    pub outcome: u64,
    pub number: u64,
    pub place: u64,
    pub cost: u64,
}

/// A refusal or two zeros, and the numbers of facts and steps, both 0 where the file is refused.
#[repr(C)]
#[derive(Clone, Copy, Debug, PartialEq, Eq)]
pub struct Reading {
    pub number: u64,
    pub place: u64,
    pub facts: u64,
    pub steps: u64,
}

/// A task as it is lent: n and m; needs, sets and clears, 4m words each; m costs; start and goal, 4 words
/// each.
#[derive(Clone, Copy)]
pub struct Task<'a> {
    pub facts: usize,
    pub steps: usize,
    pub needs: &'a [u64],
    pub sets: &'a [u64],
    pub clears: &'a [u64],
    pub costs: &'a [u32],
    pub start: &'a [u64],
    pub goal: &'a [u64],
}

/// The declarations of the functions on a task: each has the parameters of a task first, then its own.
macro_rules! declare {
    ($($name:ident($($own:ident: $kind:ty),*) -> $answer:ty;)*) => {
        mod library {
            use super::*;
            unsafe extern "C" {
                $(pub fn $name(
                    facts: usize, steps: usize,
                    needs: *const u64, needs_len: usize,
                    sets: *const u64, sets_len: usize,
                    clears: *const u64, clears_len: usize,
                    costs: *const u32, costs_len: usize,
                    start: *const u64, start_len: usize,
                    goal: *const u64, goal_len: usize,
                    $($own: $kind),*
                ) -> $answer;)*
            }
        }
    };
}

declare! {
    salgezhim_check() -> Answer;
    salgezhim_reach(set: *mut [u64; 4]) -> Reached;
    salgezhim_distances(out: *mut u32, out_len: usize) -> Answer;
    salgezhim_must_rows(rows: *mut u64, rows_len: usize) -> Answer;
    salgezhim_must_facts(set: *mut [u64; 4]) -> Answer;
    salgezhim_must_steps(set: *mut [u64; 16]) -> Answer;
    salgezhim_just_before_rows(rows: *mut u64, rows_len: usize) -> Answer;
    salgezhim_cuts(
        rows: *mut u64, rows_len: usize,
        prices: *mut u32, prices_len: usize,
        left: *mut u32, left_len: usize
    ) -> Cutting;
    salgezhim_replay(walk: *const u16, walk_len: usize) -> Replayed;
}

unsafe extern "C" {
    fn salgezhim_read(
        file: *const u8,
        file_len: usize,
        needs: *mut u64,
        needs_len: usize,
        sets: *mut u64,
        sets_len: usize,
        clears: *mut u64,
        clears_len: usize,
        costs: *mut u32,
        costs_len: usize,
        start: *mut u64,
        start_len: usize,
        goal: *mut u64,
        goal_len: usize,
    ) -> Reading;
}

/// Calls a function of the library on a task and what else it takes.
macro_rules! call {
    ($name:ident, $task:expr $(, $own:expr)*) => {{
        let t = $task;
        // SAFETY: each pointer is a slice's own with its length, or an array's, and what is lent by `&mut`
        // overlaps nothing else.
        unsafe {
            library::$name(
                t.facts, t.steps,
                t.needs.as_ptr(), t.needs.len(),
                t.sets.as_ptr(), t.sets.len(),
                t.clears.as_ptr(), t.clears.len(),
                t.costs.as_ptr(), t.costs.len(),
                t.start.as_ptr(), t.start.len(),
                t.goal.as_ptr(), t.goal.len(),
                $($own),*
            )
        }
    }};
}

impl Task<'_> {
    /// What is wrong with the task, if anything. Refusals 1 to 5.
    pub fn check(&self) -> Answer {
        call!(salgezhim_check, self)
    }

    /// The facts within reach, and the passes that find them. Refusals 1 to 5.
    pub fn reach(&self, set: &mut [u64; 4]) -> Reached {
        call!(salgezhim_reach, self, set)
    }

    /// The distance of each fact, n numbers; `u32::MAX` of one that cannot be reached. Refusals 1 to 6.
    pub fn distances(&self, out: &mut [u32]) -> Answer {
        call!(salgezhim_distances, self, out.as_mut_ptr(), out.len())
    }

    /// The must row of each fact, 4n words. Refusals 1 to 6.
    pub fn must_rows(&self, rows: &mut [u64]) -> Answer {
        call!(salgezhim_must_rows, self, rows.as_mut_ptr(), rows.len())
    }

    /// The must-pass facts. Refusals 1 to 5 and 7.
    pub fn must_facts(&self, set: &mut [u64; 4]) -> Answer {
        call!(salgezhim_must_facts, self, set)
    }

    /// The must-pass steps. Refusals 1 to 5 and 7.
    pub fn must_steps(&self, set: &mut [u64; 16]) -> Answer {
        call!(salgezhim_must_steps, self, set)
    }

    /// The just-before row of each fact, 4n words. Refusals 1 to 6.
    pub fn just_before_rows(&self, rows: &mut [u64]) -> Answer {
        call!(
            salgezhim_just_before_rows,
            self,
            rows.as_mut_ptr(),
            rows.len()
        )
    }

    /// The cut of each round, 16 words, and its cost, in tables with room for m rounds; the m costs left;
    /// the number of rounds and the floor. Refusals 1 to 7.
    pub fn cuts(&self, rows: &mut [u64], prices: &mut [u32], left: &mut [u32]) -> Cutting {
        call!(
            salgezhim_cuts,
            self,
            rows.as_mut_ptr(),
            rows.len(),
            prices.as_mut_ptr(),
            prices.len(),
            left.as_mut_ptr(),
            left.len()
        )
    }

    /// What becomes of a walk of step numbers. Refusals 1 to 5, 8 and 9.
    pub fn replay(&self, walk: &[u16]) -> Replayed {
        call!(salgezhim_replay, self, walk.as_ptr(), walk.len())
    }
}

/// Reads a task file into tables of 4m words of needs, sets and clears, m costs and 4 words of start and
/// goal, or more: what is lent beyond stays. Refusals 1, 2, 5, 6 and 11 to 16, at offsets of the file.
pub fn read(
    file: &[u8],
    needs: &mut [u64],
    sets: &mut [u64],
    clears: &mut [u64],
    costs: &mut [u32],
    start: &mut [u64],
    goal: &mut [u64],
) -> Reading {
    // SAFETY: each pointer is a slice's own with its length, and what is lent by `&mut` overlaps nothing
    // else.
    unsafe {
        salgezhim_read(
            file.as_ptr(),
            file.len(),
            needs.as_mut_ptr(),
            needs.len(),
            sets.as_mut_ptr(),
            sets.len(),
            clears.as_mut_ptr(),
            clears.len(),
            costs.as_mut_ptr(),
            costs.len(),
            start.as_mut_ptr(),
            start.len(),
            goal.as_mut_ptr(),
            goal.len(),
        )
    }
}
