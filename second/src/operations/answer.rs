//! This program's own answers to requests.

use crate::lent::{read, CutTables, Lent, ReadTables};
use crate::operations::request::{Answer, Operation, Request, Tables};
use crate::replay::Outcome;
use crate::task::Refusal;

/// The outcome number of a replay that is done.
const DONE: u64 = 0;
/// The outcome number of a replay that is stuck.
const STUCK: u64 = 1;
/// The outcome number of a replay that is short of the goal.
const SHORT: u64 = 2;
/// The outcome number of a replay that is refused.
const REFUSED: u64 = 3;

impl Request {
    /// The task that the request lends.
    pub fn lent(&self) -> Lent<'_> {
        Lent {
            facts: self.facts,
            steps: self.steps,
            needs: self.tables.needs.lent(),
            sets: self.tables.sets.lent(),
            clears: self.tables.clears.lent(),
            costs: self.tables.costs.lent(),
            start: self.tables.start.lent(),
            goal: self.tables.goal.lent(),
        }
    }
}

/// The right answer to a request.
pub fn answer(request: &Request) -> Answer {
    let mut tables = request.tables.clone();
    let numbers = call(request, &mut tables);
    Answer { numbers, tables }
}

/// Answers a request over tables that are written to on success.
fn call(request: &Request, tables: &mut Tables) -> [u64; 4] {
    let lent = request.lent();
    let words = tables.words.lent_mut();
    match request.operation {
        Operation::Check => plain(lent.task().map(drop)),
        Operation::Reach => with_two(lent.reach().map(|(set, passes)| {
            words.copy_from_slice(&set);
            [passes.into(), 0]
        })),
        Operation::Distances => plain(lent.distances(tables.prices.lent_mut())),
        Operation::MustRows => plain(lent.must_rows(words)),
        Operation::MustFacts => plain(lent.must_pass_facts().map(|set| {
            words.copy_from_slice(&set);
        })),
        Operation::MustSteps => plain(lent.must_pass_steps().map(|set| {
            words.copy_from_slice(&set);
        })),
        Operation::JustBeforeRows => plain(lent.just_before_rows(words)),
        Operation::Cuts => with_two(cuts(&lent, tables)),
        Operation::Replay => replayed(lent.replay(request.tables.walk.lent())),
        Operation::Read => with_two(read_file(tables)),
    }
}

/// The number of rounds and the floor.
fn cuts(lent: &Lent, tables: &mut Tables) -> Result<[u64; 2], Refusal> {
    let (rounds, floor) = lent.cuts(&mut CutTables {
        rows: tables.words.lent_mut(),
        costs: tables.prices.lent_mut(),
        left: tables.left.lent_mut(),
    })?;
    Ok([rounds as u64, floor.into()])
}

/// The numbers of facts and steps that are read.
fn read_file(tables: &mut Tables) -> Result<[u64; 2], Refusal> {
    let mut written = ReadTables {
        needs: tables.needs.lent_mut(),
        sets: tables.sets.lent_mut(),
        clears: tables.clears.lent_mut(),
        costs: tables.costs.lent_mut(),
        start: tables.start.lent_mut(),
        goal: tables.goal.lent_mut(),
    };
    let (facts, steps) = read(tables.file.lent(), &mut written)?;
    Ok([facts as u64, steps as u64])
}

/// An answer of number and place.
fn plain(result: Result<(), Refusal>) -> [u64; 4] {
    with_two(result.map(|()| [0, 0]))
}

/// An answer of number, place and two more, which are 0 on a refusal.
fn with_two(result: Result<[u64; 2], Refusal>) -> [u64; 4] {
    match result {
        Ok([first, second]) => [0, 0, first, second],
        Err(refusal) => [refusal.number.into(), refusal.place as u64, 0, 0],
    }
}

/// An answer of outcome, number, place and cost.
fn replayed(result: Result<Outcome, Refusal>) -> [u64; 4] {
    match result {
        Ok(Outcome::Done(cost)) => [DONE, 0, 0, cost.into()],
        Ok(Outcome::Stuck(place)) => [STUCK, 0, place as u64, 0],
        Ok(Outcome::Short) => [SHORT, 0, 0, 0],
        Err(refusal) => [REFUSED, refusal.number.into(), refusal.place as u64, 0],
    }
}
