//! The operations over lent tables: sets as words, result tables to fill.

use crate::cuts;
use crate::distance;
use crate::file::judge_in;
use crate::must;
use crate::reach;
use crate::replay::{self, Outcome};
use crate::task::{check_sizes, marked, Numbers, Refusal, Step, Task};

/// The words of a set of facts.
pub const FACT_WORDS: usize = 4;
/// The words of a set of steps.
pub const STEP_WORDS: usize = 16;
/// The distance written for an unreachable fact.
pub const UNREACHABLE: u32 = 4_294_967_295;

/// A task as it is lent: its sizes and its tables.
#[derive(Clone, Copy)]
pub struct Lent<'a> {
    pub facts: usize,
    pub steps: usize,
    pub needs: &'a [u64],
    pub sets: &'a [u64],
    pub clears: &'a [u64],
    pub costs: &'a [u32],
    pub start: &'a [u64],
    pub goal: &'a [u64],
}

/// The tables that the cuts are written to.
pub struct CutTables<'a> {
    pub rows: &'a mut [u64],
    pub costs: &'a mut [u32],
    pub left: &'a mut [u32],
}

/// The tables that a task file is read into.
pub struct ReadTables<'a> {
    pub needs: &'a mut [u64],
    pub sets: &'a mut [u64],
    pub clears: &'a mut [u64],
    pub costs: &'a mut [u32],
    pub start: &'a mut [u64],
    pub goal: &'a mut [u64],
}

impl ReadTables<'_> {
    /// Whether every table is long enough for a task of so many steps.
    fn fit(&self, steps: usize) -> bool {
        let of_steps = [&self.needs, &self.sets, &self.clears];
        let of_facts = [&self.start, &self.goal];
        of_steps
            .iter()
            .all(|table| table.len() >= FACT_WORDS * steps)
            && of_facts.iter().all(|table| table.len() >= FACT_WORDS)
            && self.costs.len() >= steps
    }

    /// Writes a task for which the tables are long enough.
    fn write(&mut self, task: &Task) {
        for (number, step) in task.steps.iter().enumerate() {
            write_set(self.needs, number, &step.needs);
            write_set(self.sets, number, &step.sets);
            write_set(self.clears, number, &step.clears);
            self.costs[number] = step.cost;
        }
        write_set(self.start, 0, &task.start);
        write_set(self.goal, 0, &task.goal);
    }
}

/// Reads a task file into tables and gives the numbers of facts and steps, or
/// why and where it is refused.
pub fn read(file: &[u8], tables: &mut ReadTables) -> Result<(usize, usize), Refusal> {
    let task = judge_in(file, &|steps| tables.fit(steps))?;
    tables.write(&task);
    Ok((task.facts, task.steps.len()))
}

/// Writes a set of facts to the row of this number.
fn write_set(table: &mut [u64], row: usize, facts: &Numbers) {
    let words: [u64; FACT_WORDS] = words_of(facts);
    table[row * FACT_WORDS..][..FACT_WORDS].copy_from_slice(&words);
}

impl<'a> Lent<'a> {
    /// The task that the tables hold, or the lowest of 1 to 5.
    pub fn task(&self) -> Result<Task, Refusal> {
        check_sizes(self.facts, self.steps)?;
        self.check_lengths()?;
        let row = |table: &[u64], step: usize| numbers_of(&table[step * FACT_WORDS..][..4]);
        let steps = (0..self.steps).map(|number| Step {
            cost: self.costs[number],
            needs: row(self.needs, number),
            sets: row(self.sets, number),
            clears: row(self.clears, number),
        });
        let task = Task {
            facts: self.facts,
            start: numbers_of(self.start),
            goal: numbers_of(self.goal),
            steps: steps.collect(),
        };
        task.check()?;
        Ok(task)
    }

    /// Refusal 3 if a table has another length than its task gives it.
    fn check_lengths(&self) -> Result<(), Refusal> {
        let of_steps = [self.needs, self.sets, self.clears];
        let sound = of_steps
            .iter()
            .all(|table| table.len() == FACT_WORDS * self.steps)
            && self.costs.len() == self.steps
            && self.start.len() == FACT_WORDS
            && self.goal.len() == FACT_WORDS;
        refuse_unless(sound, 3)
    }

    /// The reachable facts and the number of passes.
    pub fn reach(&self) -> Result<([u64; FACT_WORDS], u32), Refusal> {
        let task = self.task()?;
        Ok((
            words_of(&marked(&reach::reached(&task))),
            reach::passes(&task),
        ))
    }

    /// Writes the distance of each fact.
    pub fn distances(&self, result: &mut [u32]) -> Result<(), Refusal> {
        let task = self.task()?;
        refuse_unless(result.len() >= task.facts, 6)?;
        let distances = distance::distances(&task, &task.costs());
        for (entry, distance) in result.iter_mut().zip(distances) {
            *entry = distance.unwrap_or(UNREACHABLE);
        }
        Ok(())
    }

    /// Writes the must row of each fact.
    pub fn must_rows(&self, result: &mut [u64]) -> Result<(), Refusal> {
        self.write_rows(result, must::must_rows)
    }

    /// Writes the just-before row of each fact.
    pub fn just_before_rows(&self, result: &mut [u64]) -> Result<(), Refusal> {
        self.write_rows(result, must::just_before_rows)
    }

    /// Writes a row for each fact.
    fn write_rows(
        &self,
        result: &mut [u64],
        rows: impl Fn(&Task) -> Vec<Numbers>,
    ) -> Result<(), Refusal> {
        let task = self.task()?;
        refuse_unless(result.len() >= FACT_WORDS * task.facts, 6)?;
        for (fact, row) in rows(&task).iter().enumerate() {
            write_set(result, fact, row);
        }
        Ok(())
    }

    /// The must-pass facts.
    pub fn must_pass_facts(&self) -> Result<[u64; FACT_WORDS], Refusal> {
        Ok(words_of(&must::must_pass_facts(&self.task()?)?))
    }

    /// The must-pass steps.
    pub fn must_pass_steps(&self) -> Result<[u64; STEP_WORDS], Refusal> {
        Ok(words_of(&must::must_pass_steps(&self.task()?)?))
    }

    /// Writes the cuts, their costs and the costs left; gives the number of
    /// rounds and the floor.
    pub fn cuts(&self, tables: &mut CutTables) -> Result<(usize, u32), Refusal> {
        let task = self.task()?;
        let steps = task.steps.len();
        let shortest = tables.costs.len().min(tables.left.len());
        refuse_unless(tables.rows.len() >= STEP_WORDS * steps, 6)?;
        refuse_unless(shortest >= steps, 6)?;
        let cuts = cuts::cuts(&task)?;
        for (number, round) in cuts.rounds.iter().enumerate() {
            let words: [u64; STEP_WORDS] = words_of(&round.steps);
            tables.rows[number * STEP_WORDS..][..STEP_WORDS].copy_from_slice(&words);
            tables.costs[number] = round.cost;
        }
        tables.left[..steps].copy_from_slice(&cuts.left);
        Ok((cuts.rounds.len(), cuts.floor))
    }

    /// Replays a walk.
    pub fn replay(&self, walk: &[u16]) -> Result<Outcome, Refusal> {
        replay::replay(&self.task()?, walk)
    }
}

/// The row of a step in the needs (0) or the sets (1), or why there is none.
pub fn row_of_step<'a>(
    facts: usize,
    steps: usize,
    needs: &'a [u64],
    sets: &'a [u64],
    step: usize,
    table: usize,
) -> Result<&'a [u64], Refusal> {
    check_sizes(facts, steps)?;
    let length = FACT_WORDS * steps;
    refuse_unless(needs.len() == length && sets.len() == length, 3)?;
    refuse_unless(step < steps, 9)?;
    let chosen = [needs, sets].get(table).copied().ok_or(Refusal::new(10))?;
    Ok(&chosen[step * FACT_WORDS..][..FACT_WORDS])
}

/// The refusal of this number unless something holds.
fn refuse_unless(holds: bool, number: u8) -> Result<(), Refusal> {
    if holds {
        Ok(())
    } else {
        Err(Refusal::new(number))
    }
}

/// The numbers whose bits are set.
pub fn numbers_of(words: &[u64]) -> Numbers {
    let is_set = |number: &usize| words[number / 64] >> (number % 64) & 1 == 1;
    (0..words.len() * 64).filter(is_set).collect()
}

/// The words of a set; a number past the last bit is in no set.
pub fn words_of<const WORDS: usize>(numbers: &Numbers) -> [u64; WORDS] {
    let mut words = [0; WORDS];
    for &number in numbers.range(..WORDS * 64) {
        words[number / 64] |= 1 << (number % 64);
    }
    words
}
