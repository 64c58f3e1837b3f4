//! The random requests ask for every answer that an operation can give, and
//! catch every planted mistake, whatever the seed.

use std::collections::BTreeSet;

use second::compare::Plan;
use second::lent::{read, ReadTables};
use second::operations::answer::answer;
use second::operations::cases::case;
use second::operations::compare::compare_planted;
use second::operations::request::{Operation, OPERATIONS};
use second::samples::walk_up;
use second::task::Refusal;

/// Two seeds, each with a bounded number of calls.
#[test]
fn every_planted_mistake_is_caught() {
    for seed in [1, 2] {
        let cases = Some(8_000);
        assert!(compare_planted(&Plan { seed, cases }));
    }
}

/// The refusals that an operation can give, and 0 for its success.
fn possible(operation: Operation) -> Vec<u64> {
    let others: &[u64] = match operation {
        Operation::Check | Operation::Reach => &[],
        Operation::Distances | Operation::MustRows | Operation::JustBeforeRows => &[6],
        Operation::MustFacts | Operation::MustSteps => &[7],
        Operation::Cuts => &[6, 7],
        Operation::Replay => &[8, 9],
        Operation::Read => return vec![0, 1, 2, 5, 6, 11, 12, 13, 14, 15, 16],
    };
    [&[0, 1, 2, 3, 4, 5], others].concat()
}

/// Each operation gives all its refusals and no others, and succeeds.
#[test]
fn every_refusal_is_asked_for() {
    let mut given = vec![BTreeSet::new(); OPERATIONS.len()];
    for number in 0..6_000 {
        let request = case(3, number);
        let is_replay = request.operation == Operation::Replay;
        let numbers = answer(&request).numbers;
        given[request.operation as usize].insert(numbers[usize::from(is_replay)]);
    }
    for (operation, given) in OPERATIONS.into_iter().zip(given) {
        let given: Vec<u64> = given.into_iter().collect();
        assert_eq!(given, possible(operation), "{operation:?}");
    }
}

/// What reading document 01's file gives with tables of these lengths: of
/// each step table, the costs, the start and the goal.
fn read_into(lengths: [usize; 4]) -> Result<(usize, usize), Refusal> {
    let [rows, costs, start, goal] = lengths;
    let (mut needs, mut sets, mut clears) = (vec![9; rows], vec![9; rows], vec![9; rows]);
    let (mut costs, mut start, mut goal) = (vec![9; costs], vec![9; start], vec![9; goal]);
    let file = second::file::write(&walk_up());
    let mut tables = ReadTables {
        needs: &mut needs,
        sets: &mut sets,
        clears: &mut clears,
        costs: &mut costs,
        start: &mut start,
        goal: &mut goal,
    };
    read(&file, &mut tables)
}

/// Reading asks for 4m, m, 4 and 4 entries and takes longer tables.
#[test]
fn reading_asks_for_room() {
    assert_eq!(read_into([20, 5, 4, 4]), Ok((5, 5)));
    assert_eq!(read_into([21, 6, 5, 5]), Ok((5, 5)));
    for short in [[19, 5, 4, 4], [20, 4, 4, 4], [20, 5, 3, 4], [20, 5, 4, 0]] {
        assert_eq!(read_into(short), Err(Refusal::new(6)));
    }
}

/// Reading writes the sets that the file names and clears the others.
#[test]
fn reading_writes_every_stated_word() {
    let (mut needs, mut sets, mut clears) = ([9; 21], [9; 21], [9; 21]);
    let (mut costs, mut start, mut goal) = ([9; 6], [9; 5], [9; 5]);
    let mut tables = ReadTables {
        needs: &mut needs,
        sets: &mut sets,
        clears: &mut clears,
        costs: &mut costs,
        start: &mut start,
        goal: &mut goal,
    };
    let file = second::file::write(&walk_up());
    assert_eq!(read(&file, &mut tables), Ok((5, 5)));
    assert_eq!(costs, [1, 3, 1, 2, 1, 9]);
    assert_eq!(start, [0, 0, 0, 0, 9]);
    assert_eq!(goal, [1 << 4, 0, 0, 0, 9]);
    assert_eq!(needs[16..], [1 << 2 | 1 << 3, 0, 0, 0, 9]);
    assert_eq!(sets[4..8], [1 << 1 | 1 << 2, 0, 0, 0]);
    assert_eq!(clears[16..], [0, 0, 0, 0, 9]);
}
