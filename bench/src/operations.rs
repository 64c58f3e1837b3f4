//! The operations, each done in up to three ways, and the tables lent to them.

use crate::families::Case;
use crate::sets::{FactSet, StepSet, FACT_WORDS, STEP_WORDS};
use crate::task::{Answer, Task, LONGEST_FILE, MOST_FACTS, MOST_STEPS};
use crate::{library, plain, yardstick};

/// The tables that operations write into.
#[derive(Clone, PartialEq)]
pub struct Results {
    pub facts: FactSet,
    pub steps: StepSet,
    pub rows: Vec<u64>,
    pub numbers: Vec<u32>,
    pub left: Vec<u32>,
    pub read: Task,
}

impl Results {
    /// Tables with room for every answer, all their bytes the same.
    pub fn filled(byte: u8) -> Results {
        let word = u64::from_le_bytes([byte; 8]);
        let number = u32::from_le_bytes([byte; 4]);
        Results {
            facts: [word; FACT_WORDS],
            steps: [word; STEP_WORDS],
            rows: vec![word; STEP_WORDS * MOST_STEPS],
            numbers: vec![number; MOST_STEPS],
            left: vec![number; MOST_STEPS],
            read: Task {
                facts: MOST_FACTS,
                steps: MOST_STEPS,
                needs: vec![word; FACT_WORDS * MOST_STEPS],
                sets: vec![word; FACT_WORDS * MOST_STEPS],
                clears: vec![word; FACT_WORDS * MOST_STEPS],
                costs: vec![number; MOST_STEPS],
                start: vec![word; FACT_WORDS],
                goal: vec![word; FACT_WORDS],
            },
        }
    }
}

/// One way of doing an operation.
pub type Call = fn(&Case, &mut Results) -> Answer;

/// An operation in its three ways; the yardstick does not have every one.
pub struct Operation {
    pub name: &'static str,
    pub yardstick: Option<Call>,
    pub plain: Call,
    pub library: Call,
    pub size: fn(&Case) -> String,
    pub suits: fn(&Case) -> bool,
}

impl Operation {
    /// An operation that every case suits, and whose size is that of the task.
    fn new(name: &'static str, yardstick: Option<Call>, plain: Call, library: Call) -> Operation {
        Operation {
            name,
            yardstick,
            plain,
            library,
            size: |case| format!("{} × {}", case.task.facts, case.task.steps),
            suits: |_| true,
        }
    }
}

/// All operations, in the order of document 01.
pub fn all() -> Vec<Operation> {
    vec![
        check(),
        reach(),
        distances(),
        must_rows(),
        must_facts(),
        must_steps(),
        just_before_rows(),
        cuts(),
        replay(),
        read(),
    ]
}

/// Checking a task.
fn check() -> Operation {
    Operation::new(
        "check",
        None,
        |case, _| plain::check(&case.task),
        |case, _| library::check(&case.task),
    )
}

/// Reach.
fn reach() -> Operation {
    Operation::new(
        "reach",
        Some(|case, lent| yardstick::reach(&case.task, &mut lent.facts)),
        |case, lent| plain::reach(&case.task, &mut lent.facts),
        |case, lent| library::reach(&case.task, &mut lent.facts),
    )
}

/// Distances.
fn distances() -> Operation {
    Operation::new(
        "distances",
        Some(|case, lent| yardstick::distances(&case.task, &mut lent.numbers)),
        |case, lent| plain::distances(&case.task, &mut lent.numbers),
        |case, lent| library::distances(&case.task, &mut lent.numbers),
    )
}

/// Must rows.
fn must_rows() -> Operation {
    Operation::new(
        "must rows",
        Some(|case, lent| yardstick::must_rows(&case.task, &mut lent.rows)),
        |case, lent| plain::must_rows(&case.task, &mut lent.rows),
        |case, lent| library::must_rows(&case.task, &mut lent.rows),
    )
}

/// Must-pass facts.
fn must_facts() -> Operation {
    Operation::new(
        "must-pass facts",
        Some(|case, lent| yardstick::must_facts(&case.task, &mut lent.facts)),
        |case, lent| plain::must_facts(&case.task, &mut lent.facts),
        |case, lent| library::must_facts(&case.task, &mut lent.facts),
    )
}

/// Must-pass steps.
fn must_steps() -> Operation {
    Operation::new(
        "must-pass steps",
        Some(|case, lent| yardstick::must_steps(&case.task, &mut lent.steps)),
        |case, lent| plain::must_steps(&case.task, &mut lent.steps),
        |case, lent| library::must_steps(&case.task, &mut lent.steps),
    )
}

/// Just-before rows.
fn just_before_rows() -> Operation {
    Operation::new(
        "just-before rows",
        Some(|case, lent| yardstick::just_before_rows(&case.task, &mut lent.rows)),
        |case, lent| plain::just_before_rows(&case.task, &mut lent.rows),
        |case, lent| library::just_before_rows(&case.task, &mut lent.rows),
    )
}

/// Cuts.
fn cuts() -> Operation {
    Operation::new(
        "cuts",
        Some(|case, lent| {
            let left = &mut lent.left;
            yardstick::cuts(&case.task, &mut lent.rows, &mut lent.numbers, left)
        }),
        |case, lent| {
            let left = &mut lent.left;
            plain::cuts(&case.task, &mut lent.rows, &mut lent.numbers, left)
        },
        |case, lent| {
            let left = &mut lent.left;
            library::cuts(&case.task, &mut lent.rows, &mut lent.numbers, left)
        },
    )
}

/// Replaying a walk; its size is the walk's length too.
fn replay() -> Operation {
    Operation {
        size: |case| {
            let task = &case.task;
            let entries = case.walk.len();
            format!("{} × {}, {entries} entries", task.facts, task.steps)
        },
        ..Operation::new(
            "replay",
            None,
            |case, _| plain::replay(&case.task, &case.walk),
            |case, _| library::replay(&case.task, &case.walk),
        )
    }
}

/// Reading a file; its size is the file's length too, and a file that is too long does not suit.
fn read() -> Operation {
    Operation {
        size: |case| {
            let task = &case.task;
            let bytes = case.file.len();
            format!("{} × {}, {bytes} bytes", task.facts, task.steps)
        },
        suits: |case| case.file.len() <= LONGEST_FILE,
        ..Operation::new(
            "reading a file",
            None,
            |case, lent| plain::read(&case.file, &mut lent.read),
            |case, lent| library::read(&case.file, &mut lent.read),
        )
    }
}
