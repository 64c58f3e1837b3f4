//! Reading a task file, record by record.

use crate::sets::{add, FACT_WORDS};
use crate::task::{row_mut, Answer, Task};
use crate::task::{HIGHEST_COST, LONGEST_FILE, MOST_FACTS, MOST_STEPS};

/// The task of a file, written into the six tables of a task. Refusals 1, 2, 5, 6 and 11 to 16.
pub fn read(file: &[u8], lent: &mut Task) -> Answer {
    if file.len() > LONGEST_FILE {
        return Answer::Refused {
            number: 16,
            place: LONGEST_FILE as u64,
        };
    }
    match Reader::new(file, lent).read_all() {
        Ok(task) => {
            write_tables(&task, lent);
            Answer::Read {
                facts: task.facts as u64,
                steps: task.steps as u64,
            }
        }
        Err((number, place)) => Answer::Refused {
            number,
            place: place as u64,
        },
    }
}

/// Writes the tables of a task over the first entries of the tables lent.
fn write_tables(task: &Task, lent: &mut Task) {
    lent.needs[..task.needs.len()].copy_from_slice(&task.needs);
    lent.sets[..task.sets.len()].copy_from_slice(&task.sets);
    lent.clears[..task.clears.len()].copy_from_slice(&task.clears);
    lent.costs[..task.costs.len()].copy_from_slice(&task.costs);
    lent.start[..FACT_WORDS].copy_from_slice(&task.start);
    lent.goal[..FACT_WORDS].copy_from_slice(&task.goal);
}

/// A refusal's number and place.
type Fault = (u64, usize);

/// A record: its kind and the bytes of its body.
struct Record<'a> {
    kind: u8,
    body: &'a [u8],
}

/// What has been read so far: the place of the next record, whether a head came, the steps begun.
struct Reader<'a> {
    file: &'a [u8],
    lent: &'a Task,
    place: usize,
    headed: bool,
    steps_begun: usize,
    task: Task,
}

impl<'a> Reader<'a> {
    /// A reader before the first record.
    fn new(file: &'a [u8], lent: &'a Task) -> Reader<'a> {
        Reader {
            file,
            lent,
            place: 0,
            headed: false,
            steps_begun: 0,
            task: Task::blank(0, 0),
        }
    }

    /// Reads every record; the task, or the first fault.
    fn read_all(mut self) -> Result<Task, Fault> {
        loop {
            let record = self.next_record()?;
            self.refuse_out_of_place(&record)?;
            self.take_record(&record)?;
            self.place += 1 + record.body.len();
            if record.kind == 0 {
                break;
            }
        }
        match self.place == self.file.len() {
            true => Ok(self.task),
            false => Err((13, self.place)),
        }
    }

    /// A refusal at the present record.
    fn fault(&self, number: u64) -> Fault {
        (number, self.place)
    }

    /// The record at the present place. Refusals 11 and 12.
    fn next_record(&self) -> Result<Record<'a>, Fault> {
        let &kind = self.file.get(self.place).ok_or(self.fault(12))?;
        let length = match kind {
            0 => 0,
            1 | 4 => 4,
            2 | 3 | 5..=7 => 2,
            _ => return Err(self.fault(11)),
        };
        let body = self.file.get(self.place + 1..self.place + 1 + length);
        Ok(Record {
            kind,
            body: body.ok_or(self.fault(12))?,
        })
    }

    /// Refusal 13, for a record that may not stand here.
    fn refuse_out_of_place(&self, record: &Record) -> Result<(), Fault> {
        let in_place = match record.kind {
            1 => !self.headed,
            2 | 3 => self.headed && self.steps_begun == 0,
            5..=7 => self.steps_begun > 0,
            _ => self.headed,
        };
        refuse_unless(in_place, self.fault(13))
    }

    /// Adds what a record says to the task. Refusals 1, 2, 6, 5, 14 and 15.
    fn take_record(&mut self, record: &Record) -> Result<(), Fault> {
        match record.kind {
            0 => refuse_unless(self.steps_begun == self.task.steps, self.fault(15)),
            1 => self.take_head(number(&record.body[..2]), number(&record.body[2..])),
            4 => self.take_step(number(record.body)),
            kind => self.take_fact(kind, number(record.body)),
        }
    }

    /// Begins the task.
    fn take_head(&mut self, facts: usize, steps: usize) -> Result<(), Fault> {
        refuse_unless((1..=MOST_FACTS).contains(&facts), self.fault(1))?;
        refuse_unless(steps <= MOST_STEPS, self.fault(2))?;
        let task = Task::blank(facts, steps);
        refuse_unless(self.has_room(&task), self.fault(6))?;
        self.task = task;
        self.headed = true;
        Ok(())
    }

    /// Whether the tables lent have room for the tables of a task.
    fn has_room(&self, task: &Task) -> bool {
        self.lent.needs.len() >= task.needs.len()
            && self.lent.sets.len() >= task.sets.len()
            && self.lent.clears.len() >= task.clears.len()
            && self.lent.costs.len() >= task.costs.len()
            && self.lent.start.len() >= FACT_WORDS
            && self.lent.goal.len() >= FACT_WORDS
    }

    /// Begins the next step.
    fn take_step(&mut self, cost: usize) -> Result<(), Fault> {
        refuse_unless(cost <= HIGHEST_COST as usize, self.fault(5))?;
        refuse_unless(self.steps_begun < self.task.steps, self.fault(15))?;
        self.task.costs[self.steps_begun] = cost as u32;
        self.steps_begun += 1;
        Ok(())
    }

    /// Adds a fact to the set that a kind names.
    fn take_fact(&mut self, kind: u8, fact: usize) -> Result<(), Fault> {
        refuse_unless(fact < self.task.facts, self.fault(14))?;
        let step = self.steps_begun.saturating_sub(1);
        let set = match kind {
            2 => &mut self.task.start[..],
            3 => &mut self.task.goal[..],
            5 => row_mut(&mut self.task.needs, step),
            6 => row_mut(&mut self.task.sets, step),
            _ => row_mut(&mut self.task.clears, step),
        };
        add(set, fact);
        Ok(())
    }
}

/// The number that bytes stand for, low byte first.
fn number(bytes: &[u8]) -> usize {
    let digits = bytes.iter().rev();
    digits.fold(0, |number, &byte| 256 * number + usize::from(byte))
}

/// A fault, unless something holds.
fn refuse_unless(holds: bool, fault: Fault) -> Result<(), Fault> {
    match holds {
        true => Ok(()),
        false => Err(fault),
    }
}
