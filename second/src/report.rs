//! The report: the text for one task file.

use crate::cuts::{cuts, Cuts};
use crate::file::judge;
use crate::must::{must_pass_facts, must_pass_steps};
use crate::reach::reached;
use crate::task::{marked, Numbers, Refusal, Task};

/// The number of steps that the program has room for.
pub const ROOM: usize = 256;

/// What a report tells of a task.
pub struct Findings {
    pub facts: usize,
    pub steps: usize,
    pub reach: Numbers,
    pub must: Numbers,
    pub take: Numbers,
    pub cuts: Cuts,
}

/// The report of a file.
pub fn report(bytes: &[u8]) -> String {
    text(judge(bytes, ROOM).and_then(|task| findings(&task)))
}

/// What is found for a task, or 7 if there is no way to the goal.
pub fn findings(task: &Task) -> Result<Findings, Refusal> {
    Ok(Findings {
        facts: task.facts,
        steps: task.steps.len(),
        reach: marked(&reached(task)),
        must: must_pass_facts(task)?,
        take: must_pass_steps(task)?,
        cuts: cuts(task)?,
    })
}

/// The lines of a report or of a refusal.
pub fn text(answer: Result<Findings, Refusal>) -> String {
    match answer {
        Ok(findings) => findings.text(),
        Err(refusal) => format!("refused {} {}\n", refusal.number, refusal.place),
    }
}

impl Findings {
    /// The lines of a report.
    fn text(&self) -> String {
        let mut text = format!("task {} {}\n", self.facts, self.steps);
        text += &line("reach", &self.reach);
        text += &line("must", &self.must);
        text += &line("take", &self.take);
        for round in &self.cuts.rounds {
            text += &line(&format!("cut {}", round.cost), &round.steps);
        }
        text += &format!("floor {}\n", self.cuts.floor);
        text
    }
}

/// A line of a word and then numbers, each after one blank.
fn line(word: &str, numbers: &Numbers) -> String {
    let fields = numbers.iter().map(|number| format!(" {number}"));
    format!("{word}{}\n", fields.collect::<String>())
}
