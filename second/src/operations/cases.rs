//! Random requests: sound tasks and files, damaged ones, and result tables
//! that are too short, just long enough or longer.

use crate::cases::{case as file_case, large_task, random_task};
use crate::file::{write, HEAD};
use crate::lent::{words_of, FACT_WORDS, STEP_WORDS};
use crate::operations::request::{Operation, Request, Table, Tables, OPERATIONS};
use crate::random::Random;
use crate::replay::{taken, MOST_ENTRIES};
use crate::task::{Numbers, Step, Task, MOST_COST, MOST_FACTS, MOST_STEPS};

/// How many entries past the lent part each table holds.
const PAST_THE_END: usize = 2;

/// The request of this number under this seed; the operations take turns.
pub fn case(seed: u64, number: usize) -> Request {
    let mut mixed = Random::new(seed);
    let mut random = Random::new(mixed.bits() ^ number as u64);
    let operation = OPERATIONS[number % OPERATIONS.len()];
    let mut request = match operation {
        Operation::Read => read_request(&mut random),
        Operation::Replay if random.percent(2) => dearest_replay(),
        _ => task_request(&mut random, operation),
    };
    hold_more(&mut random, &mut request.tables);
    request
}

/// A request for an operation on a task; four in ten are damaged.
fn task_request(random: &mut Random, operation: Operation) -> Request {
    let task = match random.below(100) {
        0..3 => large_task(random),
        _ => random_task(random),
    };
    let mut request = Request {
        operation,
        facts: task.facts,
        steps: task.steps.len(),
        tables: task_tables(&task),
    };
    if operation == Operation::Replay {
        request.tables.walk = lend(random_walk(random, &task));
    }
    add_results(random, &mut request);
    if random.percent(40) {
        for _ in 0..random.between(1, 3) {
            random.pick(&DAMAGES)(random, &mut request);
        }
    }
    request
}

/// A table all of whose entries are lent.
fn lend<T>(held: Vec<T>) -> Table<T> {
    let lent = held.len();
    Table { held, lent }
}

/// The tables of a task, each of the right length.
fn task_tables(task: &Task) -> Tables {
    let row = |facts: &Numbers| -> [u64; FACT_WORDS] { words_of(facts) };
    let steps = || task.steps.iter();
    Tables {
        needs: lend(steps().flat_map(|step| row(&step.needs)).collect()),
        sets: lend(steps().flat_map(|step| row(&step.sets)).collect()),
        clears: lend(steps().flat_map(|step| row(&step.clears)).collect()),
        costs: lend(task.costs()),
        start: lend(row(&task.start).into()),
        goal: lend(row(&task.goal).into()),
        ..Tables::default()
    }
}

/// A table of random entries, each made from random bits.
fn pattern<T>(random: &mut Random, length: usize, entry: fn(u64) -> T) -> Table<T> {
    lend((0..length).map(|_| entry(random.bits())).collect())
}

/// A table of so many random words.
fn words(random: &mut Random, length: usize) -> Table<u64> {
    pattern(random, length, |bits| bits)
}

/// A table of so many random numbers of 32 bits.
fn numbers(random: &mut Random, length: usize) -> Table<u32> {
    pattern(random, length, |bits| bits as u32)
}

/// A length for a table that has to have so many entries; so many times out
/// of a hundred it may be too short.
fn length(random: &mut Random, needed: usize, short: usize) -> usize {
    if random.percent(short) {
        return match random.below(4) {
            0 => 0,
            1 => random.below(needed + 1),
            _ => needed.saturating_sub(1),
        };
    }
    match random.below(2) {
        0 => needed,
        _ => needed + random.between(1, 9),
    }
}

/// Adds the tables that the operation writes to, filled with random entries.
fn add_results(random: &mut Random, request: &mut Request) {
    let (facts, steps) = (request.facts, request.steps);
    let tables = &mut request.tables;
    match request.operation {
        Operation::Reach | Operation::MustFacts => tables.words = words(random, FACT_WORDS),
        Operation::MustSteps => tables.words = words(random, STEP_WORDS),
        Operation::Distances => {
            let length = length(random, facts, 20);
            tables.prices = numbers(random, length);
        }
        Operation::MustRows | Operation::JustBeforeRows => {
            let length = length(random, FACT_WORDS * facts, 20);
            tables.words = words(random, length);
        }
        Operation::Cuts => {
            let rows = length(random, STEP_WORDS * steps, 8);
            let (prices, left) = (length(random, steps, 8), length(random, steps, 8));
            tables.words = words(random, rows);
            tables.prices = numbers(random, prices);
            tables.left = numbers(random, left);
        }
        Operation::Check | Operation::Replay | Operation::Read => {}
    }
}

/// Lets each table hold entries past the lent part.
fn hold_more(random: &mut Random, tables: &mut Tables) {
    for table in [
        &mut tables.needs,
        &mut tables.sets,
        &mut tables.clears,
        &mut tables.start,
        &mut tables.goal,
        &mut tables.words,
    ] {
        table.held.extend(words(random, PAST_THE_END).held);
    }
    for table in [&mut tables.costs, &mut tables.prices, &mut tables.left] {
        table.held.extend(numbers(random, PAST_THE_END).held);
    }
    tables.walk.held.extend([0; PAST_THE_END]);
    tables.file.held.extend([0; PAST_THE_END]);
}

/// A change to a request.
type Damage = fn(&mut Random, &mut Request);

/// All changes to requests.
const DAMAGES: [Damage; 8] = [
    change_facts,
    change_steps,
    grow_steps,
    change_length,
    add_fact_past,
    change_cost,
    make_dearest,
    empty_sets,
];

/// The number of facts is another: outside the limits, or off by one.
fn change_facts(random: &mut Random, request: &mut Request) {
    let facts = request.facts;
    let near = [facts.saturating_sub(1), facts.saturating_add(1)];
    let far = [0, MOST_FACTS + 1, 1_000, 1 << 63, usize::MAX];
    request.facts = match random.below(2) {
        0 => random.pick(&near),
        _ => random.pick(&far),
    };
}

/// The number of steps is another, among them such whose four words each are
/// more than can be counted.
fn change_steps(random: &mut Random, request: &mut Request) {
    let steps = request.steps;
    let near = [steps.saturating_sub(1), steps.saturating_add(1)];
    let wrapping = (1 << 62) + steps % MOST_STEPS;
    let far = [MOST_STEPS, MOST_STEPS + 1, 1 << 62, wrapping, usize::MAX];
    request.steps = match random.below(2) {
        0 => random.pick(&near),
        _ => random.pick(&far),
    };
}

/// The task has more steps than it may have, or just as many, in tables that
/// fit them.
fn grow_steps(random: &mut Random, request: &mut Request) {
    let steps = MOST_STEPS + random.below(3);
    request.steps = steps;
    let tables = &mut request.tables;
    for table in [&mut tables.needs, &mut tables.sets, &mut tables.clears] {
        table.held.resize(FACT_WORDS * steps, 0);
        table.lent = table.held.len();
    }
    tables.costs.held.resize(steps, 1);
    tables.costs.lent = steps;
}

/// One of the task's tables has one entry less, one more, or none.
fn change_length(random: &mut Random, request: &mut Request) {
    let tables = &mut request.tables;
    match random.below(6) {
        0 => resize(random, &mut tables.needs),
        1 => resize(random, &mut tables.sets),
        2 => resize(random, &mut tables.clears),
        3 => resize(random, &mut tables.costs),
        4 => resize(random, &mut tables.start),
        _ => resize(random, &mut tables.goal),
    }
}

/// A table has one entry less, one more, or none.
fn resize<T: Default + Clone>(random: &mut Random, table: &mut Table<T>) {
    let length = match random.below(3) {
        0 => table.lent.saturating_sub(1),
        1 => table.lent + 1,
        _ => 0,
    };
    table.held.resize(length, T::default());
    table.lent = length;
}

/// One set holds a fact numbered n or more, or the last one below n.
fn add_fact_past(random: &mut Random, request: &mut Request) {
    let facts = request.facts;
    let tables = &mut request.tables;
    let table = match random.below(5) {
        0 => &mut tables.needs,
        1 => &mut tables.sets,
        2 => &mut tables.clears,
        3 => &mut tables.start,
        _ => &mut tables.goal,
    };
    let last = facts.min(MOST_FACTS).saturating_sub(1);
    let fact = match random.below(4) {
        0 => last,
        1 => random.between(last, MOST_FACTS - 1),
        _ => (last + 1).min(MOST_FACTS - 1),
    };
    let row = random.below(table.lent / FACT_WORDS) * FACT_WORDS;
    if let Some(word) = table.lent_mut().get_mut(row + fact / 64) {
        *word |= 1 << (fact % 64);
    }
}

/// One cost is at or above the limit.
fn change_cost(random: &mut Random, request: &mut Request) {
    let place = random.below(request.tables.costs.lent);
    if let Some(cost) = request.tables.costs.lent_mut().get_mut(place) {
        *cost = random.pick(&[MOST_COST, MOST_COST + 1, 1 << 24, 1 << 31, u32::MAX]);
    }
}

/// Every cost is the largest.
fn make_dearest(_: &mut Random, request: &mut Request) {
    request.tables.costs.lent_mut().fill(MOST_COST);
}

/// No step sets anything, so that there is mostly no way.
fn empty_sets(_: &mut Random, request: &mut Request) {
    request.tables.sets.lent_mut().fill(0);
}

/// A request to replay the dearest walk that there can be.
fn dearest_replay() -> Request {
    let step = Step::new(MOST_COST, &[], &[0]);
    let task = Task::new(1, &[], &[0], vec![step]);
    let mut tables = task_tables(&task);
    tables.walk = lend(vec![0; MOST_ENTRIES]);
    Request {
        operation: Operation::Replay,
        facts: task.facts,
        steps: task.steps.len(),
        tables,
    }
}

/// A walk: one that can be taken as far as chance leads it, or any steps; now
/// and then of about the largest length, or with entries that are no steps.
fn random_walk(random: &mut Random, task: &Task) -> Vec<u16> {
    let mut walk = match random.below(4) {
        0 => any_steps(random, task),
        _ => taken_walk(random, task),
    };
    let is_long = random.percent(8);
    if is_long {
        let most = MOST_ENTRIES + random.below(4) - 1;
        lengthen(random, task, &mut walk, most);
    }
    if random.percent(15) {
        let place = random.below(walk.len() + 1);
        walk.insert(place, random.below(task.steps.len()) as u16);
    }
    for _ in 0..random.between(1, 2) {
        if random.percent(if is_long { 50 } else { 20 }) {
            let no_step = random.pick(&[task.steps.len() as u16, 1_024, u16::MAX]);
            walk.insert(random.below(walk.len() + 1), no_step);
        }
    }
    walk
}

/// A few steps in any order; one of number 0 where there is none.
fn any_steps(random: &mut Random, task: &Task) -> Vec<u16> {
    let count = random.below(8);
    let any = |_| random.below(task.steps.len()) as u16;
    (0..count).map(any).collect()
}

/// The steps that can be taken when these facts hold.
fn possible(task: &Task, facts: &Numbers) -> Vec<usize> {
    let holds = |step: &usize| task.steps[*step].needs.is_subset(facts);
    (0..task.steps.len()).filter(holds).collect()
}

/// A walk of steps that can be taken, until the goal holds or it gets long.
fn taken_walk(random: &mut Random, task: &Task) -> Vec<u16> {
    let mut facts = task.start.clone();
    let mut walk = Vec::new();
    for _ in 0..random.between(1, 60) {
        let possible = possible(task, &facts);
        if possible.is_empty() || task.goal.is_subset(&facts) {
            break;
        }
        let step = random.pick(&possible);
        facts = taken(task, step, &facts);
        walk.push(step as u16);
    }
    walk
}

/// Goes on to so many entries with a step that can be taken again and again
/// where there is one.
fn lengthen(random: &mut Random, task: &Task, walk: &mut Vec<u16>, length: usize) {
    let mut facts = task.start.clone();
    for &step in walk
        .iter()
        .filter(|&&step| usize::from(step) < task.steps.len())
    {
        facts = taken(task, usize::from(step), &facts);
    }
    let mut again = possible(task, &facts);
    again.retain(|&step| {
        let after = taken(task, step, &facts);
        task.steps[step].needs.is_subset(&after)
    });
    let step = if again.is_empty() {
        random.below(task.steps.len())
    } else {
        random.pick(&again)
    };
    walk.resize(length, step as u16);
}

/// The number of steps in a file's head, as far as tables are made for it; any
/// small number if the file doesn't begin with a head.
fn steps_in_head(random: &mut Random, file: &[u8]) -> usize {
    let steps = match file {
        [HEAD, _, _, low, high, ..] => u16::from_le_bytes([*low, *high]).into(),
        _ => random.below(20),
    };
    steps.min(MOST_STEPS + 1)
}

/// A table of words to read into, mostly of at least so many.
fn room(random: &mut Random, needed: usize) -> Table<u64> {
    let length = length(random, needed, 4);
    words(random, length)
}

/// A request to read a file into tables of about the right lengths.
fn read_request(random: &mut Random) -> Request {
    let file = match random.below(20) {
        0 => write(&large_task(random)),
        _ => file_case(random.bits(), 0),
    };
    let steps = steps_in_head(random, &file);
    let costs = length(random, steps, 4);
    Request {
        operation: Operation::Read,
        facts: 0,
        steps: 0,
        tables: Tables {
            needs: room(random, FACT_WORDS * steps),
            sets: room(random, FACT_WORDS * steps),
            clears: room(random, FACT_WORDS * steps),
            costs: numbers(random, costs),
            start: room(random, FACT_WORDS),
            goal: room(random, FACT_WORDS),
            file: lend(file),
            ..Tables::default()
        },
    }
}
