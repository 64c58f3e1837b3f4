//! The task file: its records, the judging of a file and the writing of one.

use crate::task::{check_sizes, Numbers, Refusal, Step, Task, MOST_COST};

/// The largest length of a file in bytes.
pub const MOST_BYTES: usize = 65_535;

/// The kind byte of the end record.
pub const END: u8 = 0;
/// The kind byte of the head.
pub const HEAD: u8 = 1;
/// The kind byte of a start fact.
pub const START: u8 = 2;
/// The kind byte of a goal fact.
pub const GOAL: u8 = 3;
/// The kind byte of the next step, with its cost.
pub const STEP: u8 = 4;
/// The kind byte of a fact that the present step needs.
pub const NEEDS: u8 = 5;
/// The kind byte of a fact that the present step sets.
pub const SETS: u8 = 6;
/// The kind byte of a fact that the present step clears.
pub const CLEARS: u8 = 7;

/// How many bytes follow a kind byte, if the kind is known.
pub fn body_length(kind: u8) -> Option<usize> {
    match kind {
        END => Some(0),
        HEAD | STEP => Some(4),
        START | GOAL | NEEDS | SETS | CLEARS => Some(2),
        _ => None,
    }
}

/// One whole record of a known kind, and where it begins.
struct Record<'a> {
    place: usize,
    kind: u8,
    body: &'a [u8],
}

impl<'a> Record<'a> {
    /// The record at this place, or 11 or 12.
    fn at(bytes: &'a [u8], place: usize) -> Result<Record<'a>, Refusal> {
        let Some(&kind) = bytes.get(place) else {
            return Err(Refusal::at(12, bytes.len()));
        };
        let Some(length) = body_length(kind) else {
            return Err(Refusal::at(11, place));
        };
        let Some(body) = bytes.get(place + 1..place + 1 + length) else {
            return Err(Refusal::at(12, place));
        };
        Ok(Record { place, kind, body })
    }

    /// The number in these bytes of the body, the lowest byte first.
    fn number(&self, bytes: std::ops::Range<usize>) -> usize {
        let lowest_last = self.body[bytes].iter().rev();
        lowest_last.fold(0, |number, &byte| number * 256 + usize::from(byte))
    }

    /// Where the next record begins.
    fn end(&self) -> usize {
        self.place + 1 + self.body.len()
    }

    /// A refusal of this record.
    fn refused(&self, number: u8) -> Refusal {
        Refusal::at(number, self.place)
    }
}

/// Whether there is room for a task of so many steps.
pub type Room<'a> = &'a dyn Fn(usize) -> bool;

/// The task as far as it is read, and how many steps the head promised.
#[derive(Default)]
struct Reading {
    promised: Option<usize>,
    task: Task,
}

impl Reading {
    /// Whether a record of this kind may stand here.
    fn in_place(&self, kind: u8) -> bool {
        match kind {
            HEAD => self.promised.is_none(),
            START | GOAL => self.promised.is_some() && self.task.steps.is_empty(),
            NEEDS | SETS | CLEARS => !self.task.steps.is_empty(),
            _ => self.promised.is_some(),
        }
    }

    /// Takes in one record, or says why not: 13 and then what its kind can give.
    fn take(&mut self, record: &Record, room: Room) -> Result<(), Refusal> {
        if !self.in_place(record.kind) {
            return Err(record.refused(13));
        }
        match record.kind {
            HEAD => self.take_head(record, room),
            STEP => self.take_step(record),
            END => self.take_end(record),
            _ => self.take_fact(record),
        }
    }

    /// Takes in the head, or gives 1, 2 or 6.
    fn take_head(&mut self, record: &Record, room: Room) -> Result<(), Refusal> {
        let (facts, steps) = (record.number(0..2), record.number(2..4));
        check_sizes(facts, steps).map_err(|refusal| record.refused(refusal.number))?;
        if !room(steps) {
            return Err(record.refused(6));
        }
        self.task.facts = facts;
        self.promised = Some(steps);
        Ok(())
    }

    /// Begins the next step, or gives 5 or 15.
    fn take_step(&mut self, record: &Record) -> Result<(), Refusal> {
        let cost = record.number(0..4) as u32;
        if cost > MOST_COST {
            return Err(record.refused(5));
        }
        if self.promised == Some(self.task.steps.len()) {
            return Err(record.refused(15));
        }
        self.task.steps.push(Step::new(cost, &[], &[]));
        Ok(())
    }

    /// Adds a fact to the set that the kind names, or gives 14.
    fn take_fact(&mut self, record: &Record) -> Result<(), Refusal> {
        let fact = record.number(0..2);
        if fact >= self.task.facts {
            return Err(record.refused(14));
        }
        if let Some(set) = self.set_of(record.kind) {
            set.insert(fact);
        }
        Ok(())
    }

    /// The set that a record of this kind adds to.
    fn set_of(&mut self, kind: u8) -> Option<&mut Numbers> {
        match kind {
            START => Some(&mut self.task.start),
            GOAL => Some(&mut self.task.goal),
            NEEDS => self.task.steps.last_mut().map(|step| &mut step.needs),
            SETS => self.task.steps.last_mut().map(|step| &mut step.sets),
            CLEARS => self.task.steps.last_mut().map(|step| &mut step.clears),
            _ => None,
        }
    }

    /// Takes in the end record, or gives 15 if steps are missing.
    fn take_end(&self, record: &Record) -> Result<(), Refusal> {
        if self.promised != Some(self.task.steps.len()) {
            return Err(record.refused(15));
        }
        Ok(())
    }
}

/// The task that a file holds, read with room for so many steps, or why and
/// where the file is refused.
pub fn judge(bytes: &[u8], room: usize) -> Result<Task, Refusal> {
    judge_in(bytes, &|steps| steps <= room)
}

/// The same where the room is told by a test.
pub fn judge_in(bytes: &[u8], room: Room) -> Result<Task, Refusal> {
    if bytes.len() > MOST_BYTES {
        return Err(Refusal::at(16, MOST_BYTES));
    }
    judge_records_in(bytes, room)
}

/// The task that a file of any length holds, read with room for so many steps.
pub fn judge_records(bytes: &[u8], room: usize) -> Result<Task, Refusal> {
    judge_records_in(bytes, &|steps| steps <= room)
}

/// The records in file order; the first fault wins.
fn judge_records_in(bytes: &[u8], room: Room) -> Result<Task, Refusal> {
    let mut reading = Reading::default();
    let mut place = 0;
    loop {
        let record = Record::at(bytes, place)?;
        reading.take(&record, room)?;
        place = record.end();
        if record.kind == END {
            break;
        }
    }
    if place < bytes.len() {
        return Err(Refusal::at(13, place));
    }
    Ok(reading.task)
}

/// A record with a two-byte number: a start or goal fact, or one of a step.
pub fn fact_record(kind: u8, fact: usize) -> Vec<u8> {
    let [low, high] = (fact as u16).to_le_bytes();
    vec![kind, low, high]
}

/// A head record.
pub fn head_record(facts: usize, steps: usize) -> Vec<u8> {
    let mut record = fact_record(HEAD, facts);
    record.extend((steps as u16).to_le_bytes());
    record
}

/// A step record.
pub fn step_record(cost: u32) -> Vec<u8> {
    let mut record = vec![STEP];
    record.extend(cost.to_le_bytes());
    record
}

/// The records of a task from the head to the end record.
pub fn records(task: &Task) -> Vec<Vec<u8>> {
    let mut list = vec![head_record(task.facts, task.steps.len())];
    let add = |kind: u8, facts: &Numbers| -> Vec<Vec<u8>> {
        facts.iter().map(|&fact| fact_record(kind, fact)).collect()
    };
    list.extend(add(START, &task.start));
    list.extend(add(GOAL, &task.goal));
    for step in &task.steps {
        list.push(step_record(step.cost));
        list.extend(add(NEEDS, &step.needs));
        list.extend(add(SETS, &step.sets));
        list.extend(add(CLEARS, &step.clears));
    }
    list.push(vec![END]);
    list
}

/// A task written as a file.
pub fn write(task: &Task) -> Vec<u8> {
    records(task).concat()
}
