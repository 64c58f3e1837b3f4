//! Whether the three give the same answers.

use crate::families::{wild, Case, Dice};
use crate::operations::{Call, Operation, Results};
use crate::task::{Answer, HIGHEST_COST, LONGEST_FILE, LONGEST_WALK, MOST_FACTS, MOST_STEPS};

/// What a call answers, and the tables as it leaves them.
type Outcome = (Answer, Results);

/// What is wrong, if the ways of doing an operation differ on a case: in the answer or in any word
/// of the tables lent. The yardstick is left out where the task may be unsound.
fn difference(
    operation: &Operation,
    case: &Case,
    lent: &Results,
    with_yardstick: bool,
) -> Option<String> {
    let expected = outcome(operation.plain, case, lent);
    let yardstick = operation.yardstick.filter(|_| with_yardstick);
    let others = [
        (Some(operation.library), "the library"),
        (yardstick, "the yardstick"),
    ];
    others.into_iter().find_map(|(call, name)| {
        let given = outcome(call?, case, lent);
        let differs = given != expected;
        differs.then(|| message(operation, case, &expected, name, &given))
    })
}

/// Says how an outcome differs from that of plain Rust.
fn message(
    operation: &Operation,
    case: &Case,
    expected: &Outcome,
    name: &str,
    given: &Outcome,
) -> String {
    let size = (operation.size)(case);
    let place = format!("{} on {} {size}", operation.name, case.family);
    if given.0 == expected.0 {
        format!("{place}: plain Rust and {name} write different tables")
    } else {
        let (expected, given) = (expected.0, given.0);
        format!("{place}: plain Rust answers {expected:?}, {name} {given:?}")
    }
}

/// What a call answers and writes.
fn outcome(call: Call, case: &Case, lent: &Results) -> Outcome {
    let mut results = lent.clone();
    let answer = call(case, &mut results);
    (answer, results)
}

/// The first difference on cases that are to be measured.
pub fn difference_on_cases(operations: &[Operation], cases: &[Case]) -> Option<String> {
    let lent = Results::filled(0xA5);
    let mut pairs = pairs_of(operations, cases);
    pairs.find_map(|(operation, case)| difference(operation, case, &lent, true))
}

/// Every operation on every case.
fn pairs_of<'a>(
    operations: &'a [Operation],
    cases: &'a [Case],
) -> impl Iterator<Item = (&'a Operation, &'a Case)> {
    let each = |operation| cases.iter().map(move |case| (operation, case));
    operations.iter().flat_map(each)
}

/// The first difference on small wild tasks: each as it is, and once damaged.
pub fn difference_on_wild_tasks(operations: &[Operation], count: u64) -> Option<String> {
    (0..count).find_map(|seed| {
        let mut dice = Dice(seed);
        let sound = wild(seed);
        let roomy = small_results(&sound, 1);
        let damaged = damaged(&sound, &mut dice);
        let tight = small_results(&sound, dice.below(3));
        operations.iter().find_map(|operation| {
            difference(operation, &sound, &roomy, true)
                .or_else(|| difference(operation, &damaged, &tight, false))
        })
    })
}

/// Tables with just enough room for a task and so many entries more, less one.
fn small_results(case: &Case, room: usize) -> Results {
    let mut lent = Results::filled(0x5A);
    let (facts, steps) = (case.task.facts, case.task.steps);
    let shortened = |length: usize| (length + room).saturating_sub(1);
    lent.rows.truncate(shortened(4 * facts.max(4 * steps)));
    lent.numbers.truncate(shortened(facts.max(steps)));
    lent.left.truncate(shortened(steps));
    lent.read.needs.truncate(shortened(4 * steps));
    lent.read.costs.truncate(shortened(steps));
    lent
}

/// A case with one thing changed in its task, its walk and its file.
fn damaged(sound: &Case, dice: &mut Dice) -> Case {
    let mut case = sound.clone();
    damage_task(&mut case, dice);
    damage_walk(&mut case, dice);
    damage_file(&mut case, dice);
    case
}

/// Changes the task, most often so that it is refused.
fn damage_task(case: &mut Case, dice: &mut Dice) {
    let task = &mut case.task;
    let step = dice.below(task.steps);
    let tables = [&mut task.needs, &mut task.sets, &mut task.clears];
    match dice.below(12) {
        0 => task.facts = 0,
        1 => task.facts = MOST_FACTS + 1,
        2 => task.steps = MOST_STEPS + 1,
        3 => task.steps = usize::MAX,
        4 => tables.into_iter().for_each(|table| table.push(0)),
        5 => task.start.push(0),
        6 => drop(task.goal.pop()),
        7 => task.goal[dice.below(4)] |= 1 << dice.below(64),
        8 => task.start[dice.below(4)] |= 1 << dice.below(64),
        9 if task.steps > 0 => task.clears[4 * step + dice.below(4)] |= 1 << dice.below(64),
        10 if task.steps > 0 => task.costs[step] = HIGHEST_COST + 1 - dice.below(2) as u32,
        _ => {}
    }
}

/// Changes the walk so that it may be stuck, too long, or name a step that is none.
fn damage_walk(case: &mut Case, dice: &mut Dice) {
    let entry = dice.below(case.walk.len());
    match dice.below(4) {
        0 => case.walk = vec![0; LONGEST_WALK + dice.below(2)],
        1 if !case.walk.is_empty() => {
            case.walk[entry] = dice.below(2 * case.task.steps.min(999)) as u16
        }
        2 => case.walk.truncate(entry),
        _ => case.walk.push(case.task.steps as u16),
    }
}

/// Changes the file so that it may be unsound.
fn damage_file(case: &mut Case, dice: &mut Dice) {
    let place = dice.below(case.file.len());
    match dice.below(6) {
        0 => case.file.truncate(place),
        1 => case.file.push(dice.below(9) as u8),
        2 => drop(case.file.remove(place)),
        3 => case.file.insert(place, dice.below(9) as u8),
        4 => case.file.resize(LONGEST_FILE + dice.below(2), 0),
        _ => case.file[place] = dice.below(9) as u8,
    }
}
