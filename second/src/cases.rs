//! Random files to compare reports on: sound tasks of many shapes, damaged
//! files, and files at the limits.

use crate::file::{
    body_length, fact_record, head_record, records, step_record, write, CLEARS, END, GOAL, HEAD,
    MOST_BYTES, NEEDS, SETS, START, STEP,
};
use crate::random::Random;
use crate::samples::filled;
use crate::task::{Numbers, Step, Task};

/// The file of this number under this seed.
pub fn case(seed: u64, number: usize) -> Vec<u8> {
    let mut mixed = Random::new(seed);
    let mut random = Random::new(mixed.bits() ^ number as u64);
    match random.below(100) {
        0..60 => write(&random_task(&mut random)),
        60..93 => damaged_file(&mut random),
        _ => limit_file(&mut random),
    }
}

/// A least and a most.
type Range = (usize, usize);

/// Where needs and goal facts are drawn from.
#[derive(Clone, Copy)]
enum Source {
    /// All facts, so that some needs may never hold.
    All,
    /// The so many facts made reachable last, so that every step can be taken.
    Last(usize),
}

/// How a random task is made: how many facts, steps, needs and so on, and
/// what a step may cost.
#[derive(Clone, Copy)]
struct Shape {
    facts: Range,
    steps: Range,
    needs: Range,
    sets: Range,
    clears: Range,
    start: Range,
    goal: Range,
    source: Source,
    costs: &'static [u32],
}

/// Small tasks with few needs.
const SPARSE: Shape = Shape {
    facts: (1, 12),
    steps: (0, 16),
    needs: (0, 2),
    sets: (0, 2),
    clears: (0, 1),
    start: (0, 2),
    goal: (0, 3),
    source: Source::All,
    costs: &[0, 1, 2, 3, 7],
};

/// Small tasks whose steps can all be taken, with ties in the distances.
const FORWARD: Shape = Shape {
    facts: (3, 14),
    steps: (3, 24),
    needs: (1, 3),
    sets: (1, 3),
    goal: (1, 4),
    source: Source::Last(14),
    costs: &[0, 1, 1, 2],
    ..SPARSE
};

/// Many needs and many sets, among them steps that need what they set.
const DENSE: Shape = Shape {
    facts: (4, 40),
    steps: (4, 40),
    needs: (1, 8),
    sets: (1, 8),
    clears: (0, 8),
    start: (1, 8),
    goal: (1, 8),
    source: Source::Last(40),
    ..SPARSE
};

/// Many cycles that cost nothing.
const FREE_CYCLES: Shape = Shape {
    facts: (2, 8),
    steps: (6, 24),
    needs: (1, 2),
    sets: (1, 2),
    goal: (1, 2),
    costs: &[0, 0, 0, 1, 5],
    ..SPARSE
};

/// Chains with side ways, each step needing what was reached just before.
const CHAIN: Shape = Shape {
    facts: (10, 120),
    steps: (10, 120),
    needs: (1, 2),
    sets: (1, 1),
    goal: (1, 2),
    source: Source::Last(2),
    costs: &[1, 2, 3, 65_535],
    ..SPARSE
};

/// Steps without needs, and facts wanted that nothing sets.
const NO_NEEDS: Shape = Shape {
    needs: (0, 0),
    goal: (0, 2),
    ..SPARSE
};

/// Start and goal that overlap.
const OVERLAPPING: Shape = Shape {
    facts: (2, 10),
    start: (2, 10),
    goal: (2, 10),
    source: Source::Last(20),
    ..SPARSE
};

/// Up to all facts and all steps that the program takes, dear and cheap.
const LARGE: Shape = Shape {
    facts: (100, 256),
    steps: (100, 256),
    needs: (1, 4),
    sets: (1, 4),
    clears: (0, 4),
    start: (0, 4),
    goal: (1, 6),
    source: Source::Last(30),
    costs: &[0, 1, 2, 3, 255, 256, 40_000, 65_534, 65_535],
};

/// All facts and all steps that the program takes, in long chains.
const FULL: Shape = Shape {
    facts: (256, 256),
    steps: (256, 256),
    needs: (1, 2),
    sets: (1, 2),
    goal: (1, 3),
    source: Source::Last(4),
    costs: &[1, 1, 2],
    ..LARGE
};

/// More steps than the program takes, up to all that a task may have.
const LONG: Shape = Shape {
    facts: (1, 256),
    steps: (257, 1_024),
    source: Source::Last(60),
    ..LARGE
};

/// All facts and all steps that a task may have.
const LARGEST: Shape = Shape {
    facts: (256, 256),
    steps: (1_024, 1_024),
    ..LONG
};

/// The same in long chains, for many passes and rounds.
const LONGEST: Shape = Shape {
    facts: LARGEST.facts,
    steps: LARGEST.steps,
    ..CHAIN
};

/// Few wide steps over up to all facts.
const WIDE: Shape = Shape {
    facts: (200, 256),
    steps: (2, 12),
    needs: (1, 30),
    sets: (20, 120),
    start: (20, 60),
    source: Source::Last(200),
    ..LARGE
};

/// All shapes; the small ones that most mistakes show on stand more than once.
const SHAPES: [Shape; 13] = [
    SPARSE,
    SPARSE,
    FORWARD,
    FORWARD,
    FORWARD,
    DENSE,
    FREE_CYCLES,
    CHAIN,
    NO_NEEDS,
    OVERLAPPING,
    LARGE,
    FULL,
    WIDE,
];

/// Numbers of facts around word borders.
const BORDER_SIZES: [usize; 12] = [1, 63, 64, 65, 127, 128, 129, 191, 192, 193, 255, 256];

/// Facts at word borders.
const BORDER_FACTS: [usize; 8] = [0, 63, 64, 127, 128, 191, 192, 255];

/// A random task of a random shape; one in six has only facts at word borders
/// and the last fact.
pub fn random_task(random: &mut Random) -> Task {
    let shape = random.pick(&SHAPES);
    if random.percent(16) {
        let facts = random.pick(&BORDER_SIZES);
        let mut pool: Vec<usize> = BORDER_FACTS.into();
        pool.retain(|&fact| fact < facts - 1);
        pool.push(facts - 1);
        task_of(shape, random, facts, &pool)
    } else {
        let facts = random.between(shape.facts.0, shape.facts.1);
        let pool: Vec<usize> = (0..facts).collect();
        task_of(shape, random, facts, &pool)
    }
}

/// A random task with more steps than the program takes.
pub fn large_task(random: &mut Random) -> Task {
    let shape = random.pick(&[LONG, LARGEST, LONGEST]);
    let facts = random.between(shape.facts.0, shape.facts.1);
    let pool: Vec<usize> = (0..facts).collect();
    task_of(shape, random, facts, &pool)
}

/// A random task of this shape whose sets hold facts of the pool only.
fn task_of(shape: Shape, random: &mut Random, facts: usize, pool: &[usize]) -> Task {
    let start = draw(random, pool, shape.start);
    let mut known: Vec<usize> = start.iter().copied().collect();
    let mut steps = Vec::new();
    for _ in 0..random.between(shape.steps.0, shape.steps.1) {
        let step = Step {
            cost: random.pick(shape.costs),
            needs: draw(random, source(shape, pool, &known), shape.needs),
            sets: draw(random, pool, shape.sets),
            clears: draw(random, pool, shape.clears),
        };
        let new = step.sets.iter().filter(|fact| !known.contains(fact));
        let new: Vec<usize> = new.copied().collect();
        known.extend(new);
        let place = random.below(steps.len() + 1);
        steps.insert(place, step);
    }
    let goal = draw(random, source(shape, pool, &known), shape.goal);
    Task {
        facts,
        start,
        goal,
        steps,
    }
}

/// The facts that needs and goal are drawn from.
fn source<'a>(shape: Shape, pool: &'a [usize], known: &'a [usize]) -> &'a [usize] {
    match shape.source {
        Source::All => pool,
        Source::Last(count) => &known[known.len().saturating_sub(count)..],
    }
}

/// A random set of facts of this list; it may turn out smaller where a fact
/// is drawn twice or the list is empty.
fn draw(random: &mut Random, list: &[usize], count: Range) -> Numbers {
    let count = random.between(count.0, count.1);
    let drawn = (0..count).filter(|_| !list.is_empty());
    drawn.map(|_| random.pick(list)).collect()
}

/// The records of a file, each of at least one byte.
type Records = Vec<Vec<u8>>;

/// A change to the records of a file.
type Damage = fn(&mut Random, &mut Records);

/// All changes to records.
const DAMAGES: [Damage; 8] = [
    swap_records,
    repeat_record,
    drop_record,
    insert_record,
    change_head,
    change_fact,
    change_cost,
    fill_up,
];

/// A damaged file: bytes of no task, or a task whose records and bytes are
/// changed in one or a few places.
fn damaged_file(random: &mut Random) -> Vec<u8> {
    match random.below(12) {
        0 => return random_bytes(random, 255),
        1 => return random_bytes(random, 8),
        _ => {}
    }
    let mut records = records(&task_for_damage(random));
    for _ in 0..random.below(3) {
        random.pick(&DAMAGES)(random, &mut records);
    }
    if random.percent(20) {
        break_off(random, &mut records);
    }
    let mut bytes = records.concat();
    match random.below(6) {
        0 => bytes.truncate(random.below(bytes.len() + 1)),
        1 => change_byte(random, &mut bytes),
        2 => bytes.extend(random_bytes(random, 255).iter().take(3)),
        _ => {}
    }
    bytes
}

/// A file at or just past one limit, sound in everything else.
fn limit_file(random: &mut Random) -> Vec<u8> {
    let task = task_for_damage(random);
    let mut records = records(&task);
    match random.below(6) {
        0 => return filled(3 * random.below(4), MOST_BYTES),
        1 => return filled(3 * random.below(4) + 2, MOST_BYTES + 1),
        2 => records.insert(1, records[0].clone()),
        3 => records.push(vec![random.below(9) as u8]),
        4 => records.insert(1, fact_record(GOAL, task.facts)),
        _ => records[0] = head_record(task.facts, random.between(256, 1_025)),
    }
    records.concat()
}

/// A small task to damage.
fn task_for_damage(random: &mut Random) -> Task {
    let shape = random.pick(&[SPARSE, FORWARD]);
    let facts = random.between(shape.facts.0, shape.facts.1);
    let pool: Vec<usize> = (0..facts).collect();
    task_of(shape, random, facts, &pool)
}

/// Up to forty random bytes, none above the largest.
fn random_bytes(random: &mut Random, largest: u8) -> Vec<u8> {
    let length = random.below(41);
    let byte = |_| random.below(usize::from(largest) + 1) as u8;
    (0..length).map(byte).collect()
}

/// Two records change places.
fn swap_records(random: &mut Random, records: &mut Records) {
    if !records.is_empty() {
        let (one, other) = (random.below(records.len()), random.below(records.len()));
        records.swap(one, other);
    }
}

/// A record stands a second time, anywhere.
fn repeat_record(random: &mut Random, records: &mut Records) {
    if !records.is_empty() {
        let again = records[random.below(records.len())].clone();
        records.insert(random.below(records.len() + 1), again);
    }
}

/// A record is missing.
fn drop_record(random: &mut Random, records: &mut Records) {
    if !records.is_empty() {
        records.remove(random.below(records.len()));
    }
}

/// A new record of any kind stands anywhere.
fn insert_record(random: &mut Random, records: &mut Records) {
    let record = random_record(random);
    records.insert(random.below(records.len() + 1), record);
}

/// A whole record of any known kind, or one byte of an unknown kind.
fn random_record(random: &mut Random) -> Vec<u8> {
    let kind = random.pick(&[END, HEAD, START, GOAL, STEP, NEEDS, SETS, CLEARS, 8, 255]);
    let number = edge(random, 4);
    match kind {
        HEAD => head_record(number, edge(random, 4)),
        STEP => step_record(edge_cost(random)),
        END | 8 | 255 => vec![kind],
        _ => fact_record(kind, number),
    }
}

/// A number at or near a limit, or near this one.
fn edge(random: &mut Random, near: usize) -> usize {
    let edges = [0, 1, 255, 256, 257, 1_023, 1_024, 1_025, 65_535];
    match random.below(3) {
        0 => random.pick(&edges),
        1 => near + random.below(3),
        _ => near.saturating_sub(random.below(3)),
    }
}

/// A cost at or near the limit.
fn edge_cost(random: &mut Random) -> u32 {
    random.pick(&[0, 1, 256, 65_534, 65_535, 65_536, 1 << 24, u32::MAX])
}

/// The head gives other numbers of facts or steps.
fn change_head(random: &mut Random, records: &mut Records) {
    let steps = records.iter().filter(|record| record[0] == STEP).count();
    if let Some(head) = records.iter_mut().find(|record| record[0] == HEAD) {
        let facts = usize::from(head[1]);
        *head = match random.below(3) {
            0 => head_record(edge(random, facts), steps),
            1 => head_record(facts, edge(random, steps)),
            _ => head_record(edge(random, facts), edge(random, steps)),
        };
    }
}

/// A fact has a number at or near the number of facts.
fn change_fact(random: &mut Random, records: &mut Records) {
    let facts = records
        .first()
        .map_or(0, |head| head.get(1).copied().unwrap_or(0));
    let is_fact = |record: &&mut Vec<u8>| body_length(record[0]) == Some(2);
    let mut named: Vec<&mut Vec<u8>> = records.iter_mut().filter(is_fact).collect();
    if !named.is_empty() {
        let chosen = random.below(named.len());
        *named[chosen] = fact_record(named[chosen][0], edge(random, facts.into()));
    }
}

/// A step has a cost at or near the limit.
fn change_cost(random: &mut Random, records: &mut Records) {
    let is_step = |record: &&mut Vec<u8>| record[0] == STEP;
    let mut steps: Vec<&mut Vec<u8>> = records.iter_mut().filter(is_step).collect();
    if !steps.is_empty() {
        let chosen = random.below(steps.len());
        *steps[chosen] = step_record(edge_cost(random));
    }
}

/// One fact is named again and again until the file has about the largest
/// length. Rare, as such files take long to write.
fn fill_up(random: &mut Random, records: &mut Records) {
    let place = records
        .iter()
        .position(|record| body_length(record[0]) == Some(2));
    let Some(place) = place.filter(|_| random.percent(40)) else {
        return;
    };
    let most = MOST_BYTES + random.below(7);
    let missing = most.saturating_sub(records.concat().len());
    let again = std::iter::repeat_n(records[place].clone(), missing / 3);
    records.splice(place..place, again);
}

/// The file ends inside a record of any kind, in place or not.
fn break_off(random: &mut Random, records: &mut Records) {
    records.truncate(random.below(records.len() + 1));
    let mut record = random_record(random);
    record.truncate(random.between(1, 4));
    records.push(record);
}

/// One byte has another value.
fn change_byte(random: &mut Random, bytes: &mut [u8]) {
    if !bytes.is_empty() {
        bytes[random.below(bytes.len())] ^= 1 << random.below(8);
    }
}
