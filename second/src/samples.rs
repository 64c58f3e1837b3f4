//! The sample files, each from a description that can be read.

use crate::file::{
    fact_record, head_record, records, step_record, write, GOAL, MOST_BYTES, SETS, START,
};
use crate::report::report;
use crate::task::{Step, Task};

/// A sample file: its name, what it shows, and its bytes.
pub struct Sample {
    pub name: &'static str,
    pub shows: &'static str,
    pub bytes: Vec<u8>,
}

impl Sample {
    /// A sample from its parts.
    fn new(name: &'static str, shows: &'static str, bytes: Vec<u8>) -> Sample {
        Sample { name, shows, bytes }
    }
}

/// All samples, in the order in which they are listed.
pub fn samples() -> Vec<Sample> {
    let mut list = examples();
    list.extend(models());
    list.extend(large());
    list.extend(refused_sizes());
    list.extend(refused_broken());
    list.extend(refused_out_of_place());
    list.extend(refused_numbers());
    list
}

/// Document 01's first task: a badge (0), a project picked (1) or carried
/// over (2), a tube racked (3), a spectrum filed (4).
pub fn walk_up() -> Task {
    let steps = vec![
        Step::new(1, &[], &[0]),
        Step::new(3, &[0], &[1, 2]),
        Step::new(1, &[0], &[2]),
        Step::new(2, &[0], &[3]),
        Step::new(1, &[2, 3], &[4]),
    ];
    Task::new(5, &[], &[4], steps)
}

/// The task of source 001: three ways to get two of the facts 1, 2 and 3.
pub fn three_ways() -> Task {
    let steps = vec![
        Step::new(3, &[0], &[1, 2]),
        Step::new(4, &[0], &[1, 3]),
        Step::new(5, &[0], &[2, 3]),
        Step::new(0, &[1, 2, 3], &[4]),
    ];
    Task::new(5, &[0], &[4], steps)
}

/// P7: everything wanted holds from the start.
pub fn goal_within_start() -> Task {
    let steps = vec![Step::new(2, &[0], &[2])];
    Task::new(3, &[0, 1], &[1], steps)
}

/// P8: nothing leads to the goal.
pub fn no_way() -> Task {
    Task::new(1, &[], &[0], vec![])
}

/// P9: two steps without needs, either of which will do.
pub fn either_step() -> Task {
    let steps = vec![Step::new(2, &[], &[0]), Step::new(3, &[], &[0])];
    Task::new(1, &[], &[0], steps)
}

/// P10: fact 1 is always set on the way and never needed.
pub fn set_not_needed() -> Task {
    let steps = vec![Step::new(1, &[], &[0, 1])];
    Task::new(2, &[], &[0], steps)
}

/// The examples of document 01.
fn examples() -> Vec<Sample> {
    vec![
        Sample::new(
            "walk-up.task",
            "document 01's file: a project picked or carried over, then a spectrum (P1 to P4)",
            write(&walk_up()),
        ),
        Sample::new(
            "three-ways.task",
            "the task of source 001: two rounds of cuts (P5, P6)",
            write(&three_ways()),
        ),
        Sample::new(
            "goal-in-start.task",
            "the goal holds from the start (P7)",
            write(&goal_within_start()),
        ),
        Sample::new(
            "no-way.task",
            "no step leads to the goal (P8)",
            write(&no_way()),
        ),
        Sample::new(
            "either-step.task",
            "two steps, either of which will do (P9)",
            write(&either_step()),
        ),
        Sample::new(
            "set-not-needed.task",
            "a fact that is always set and never needed (P10)",
            write(&set_not_needed()),
        ),
    ]
}

/// A balance with a badge reader, found with the door shut and the pan empty.
/// Opening the door loses the tare, so nothing can really be filled in by the
/// open door: the floor (10) is below the cheapest real walk (14), which is
/// 0, 2, 4, 3, 5, 6, 8, 10.
///
/// Facts: 0 signed in, 1 door shut, 2 door open, 3 pan empty, 4 vessel on the
/// pan, 5 tared, 6 sample in the vessel, 7 weight shown, 8 weight printed,
/// 9 weight filed in the notebook.
pub fn balance() -> Task {
    let steps = vec![
        // 0: hold the badge to the reader
        Step::new(1, &[], &[0]),
        // 1: type a number instead
        Step::new(4, &[], &[0]),
        // 2: open the door
        Step::new(1, &[1], &[2]).clearing(&[1, 5, 7]),
        // 3: shut the door
        Step::new(1, &[2], &[1]).clearing(&[2]),
        // 4: put the vessel on the pan
        Step::new(1, &[2, 3], &[4]).clearing(&[3]),
        // 5: tare
        Step::new(2, &[0, 1, 4], &[5]),
        // 6: fill in through the hatch
        Step::new(5, &[1, 5], &[6]),
        // 7: fill in by the open door
        Step::new(2, &[2, 5], &[6]),
        // 8: weigh
        Step::new(2, &[1, 5, 6], &[7]),
        // 9: print the weight
        Step::new(1, &[7], &[8]),
        // 10: file the weight
        Step::new(1, &[0, 7], &[9]),
        // 11: take everything off the pan
        Step::new(1, &[2, 4], &[3]).clearing(&[4, 6, 7]),
    ];
    Task::new(10, &[1, 3], &[9], steps)
}

/// A spectrometer with a queue. Cancelling a run clears the rack and the
/// place in the queue; an urgent run needs no place in the queue but a
/// keeper's word. The cheapest real walk costs what the floor says (24):
/// 0, 1, 2, 3, 5, 8, 9, 10.
///
/// Facts: 0 badge read, 1 project set, 2 tube racked, 3 place in the queue,
/// 4 keeper's word, 5 run started, 6 run cancelled, 7 spectrum taken,
/// 8 spectrum filed, 9 tube taken back.
pub fn queue() -> Task {
    let steps = vec![
        // 0: read the badge
        Step::new(1, &[], &[0]),
        // 1: pick the project
        Step::new(3, &[0], &[1]),
        // 2: rack the tube
        Step::new(2, &[0], &[2]),
        // 3: join the queue
        Step::new(1, &[1, 2], &[3]),
        // 4: ask the keeper for an urgent run
        Step::new(20, &[0], &[4]),
        // 5: the queue starts the run
        Step::new(10, &[2, 3], &[5]).clearing(&[3]),
        // 6: the keeper starts the run
        Step::new(2, &[1, 2, 4], &[5]).clearing(&[4]),
        // 7: cancel the run
        Step::new(0, &[5], &[6]).clearing(&[2, 3, 5]),
        // 8: the run comes to its end
        Step::new(5, &[5], &[7]).clearing(&[5]),
        // 9: file the spectrum under the project
        Step::new(1, &[1, 7], &[8]),
        // 10: take the tube back after a run
        Step::new(1, &[2, 7], &[9]).clearing(&[2]),
        // 11: take the tube back after a cancelled run
        Step::new(4, &[6], &[9]).clearing(&[6]),
    ];
    Task::new(10, &[], &[8, 9], steps)
}

/// A microscope that keeps the project of whoever was there before, or that
/// forgets it. In the first case 0, 2, 4, 5, 6 is a real walk, and the picture
/// is filed under another user's project.
///
/// Facts: 0 badge read, 1 project picked by this user, 2 some project set,
/// 3 slide in, 4 focused, 5 picture taken, 6 picture filed, 7 lamp on.
pub fn microscope(carried_over: bool) -> Task {
    let start: &[usize] = if carried_over { &[2, 7] } else { &[7] };
    let steps = vec![
        // 0: read the badge
        Step::new(1, &[], &[0]),
        // 1: pick a project
        Step::new(3, &[0], &[1, 2]),
        // 2: put the slide in
        Step::new(1, &[], &[3]).clearing(&[4]),
        // 3: focus by hand
        Step::new(4, &[3, 7], &[4]),
        // 4: let the microscope focus
        Step::new(2, &[0, 3, 7], &[4]),
        // 5: take the picture
        Step::new(1, &[2, 4, 7], &[5]),
        // 6: file the picture under the project that is set
        Step::new(1, &[0, 2, 5], &[6]),
        // 7: sign off: the project goes, the lamp goes out
        Step::new(0, &[0], &[]).clearing(&[0, 1, 2, 7]),
        // 8: light the lamp
        Step::new(1, &[], &[7]),
    ];
    Task::new(8, start, &[6], steps)
}

/// Models of walk-up clients of shared instruments.
fn models() -> Vec<Sample> {
    vec![
        Sample::new(
            "balance.task",
            "a balance with a badge reader: door, vessel and tare can't be passed by (facts 1 to 5), printing can (fact 8)",
            write(&balance()),
        ),
        Sample::new(
            "queue.task",
            "a spectrometer's queue where a cancelled run clears the rack: the queue can be passed by (fact 3), the project can't (fact 1)",
            write(&queue()),
        ),
        Sample::new(
            "microscope-carried.task",
            "a microscope that carries a project over: a picture can be filed without picking one (step 1 isn't on the take line)",
            write(&microscope(true)),
        ),
        Sample::new(
            "microscope-asked.task",
            "the same microscope, nothing carried over: picking a project can't be passed by (step 1 is on the take line)",
            write(&microscope(false)),
        ),
    ]
}

/// A chain of steps of cost 1 from each of these facts to the next.
fn chain(facts: usize, links: &[usize]) -> Task {
    let pairs = links.windows(2);
    let steps = pairs.map(|pair| Step::new(1, &pair[..1], &pair[1..]));
    Task::new(
        facts,
        &links[..1],
        &links[links.len() - 1..],
        steps.collect(),
    )
}

/// A chain over all 256 facts that takes 256 steps, the first without needs.
fn most_steps() -> Task {
    let every_fact: Vec<usize> = (0..256).collect();
    let mut task = chain(256, &every_fact);
    task.start.clear();
    task.steps.insert(0, Step::new(1, &[], &[0]));
    task
}

/// The file of a sound task of this many steps, filled up to this length by
/// naming its start fact again and again: 65,535 bytes if the number of steps
/// divides by 3, one more if it is 2 above such a number.
pub fn filled(steps: usize, length: usize) -> Vec<u8> {
    let links: Vec<usize> = (0..=steps).collect();
    let mut records = records(&chain(steps + 1, &links));
    let missing = length - records.concat().len();
    let repeats = std::iter::repeat_n(fact_record(START, 0), missing / 3);
    records.splice(1..1, repeats);
    records.concat()
}

/// Samples at the limits that are sound.
fn large() -> Vec<Sample> {
    let at_borders = chain(256, &[0, 63, 64, 127, 128, 191, 192, 255]);
    vec![
        Sample::new(
            "word-borders.task",
            "256 facts, a chain over those at word borders",
            write(&at_borders),
        ),
        Sample::new(
            "most-steps.task",
            "256 facts and 256 steps, the most the program takes",
            write(&most_steps()),
        ),
        Sample::new(
            "longest.task",
            "a sound file of 65,535 bytes, the longest there is",
            filled(3, MOST_BYTES),
        ),
    ]
}

/// The bytes of these records.
fn file(records: &[Vec<u8>]) -> Vec<u8> {
    records.concat()
}

/// The end record.
fn end() -> Vec<u8> {
    vec![0]
}

/// Files refused for a size or a cost.
fn refused_sizes() -> Vec<Sample> {
    vec![
        Sample::new(
            "refused-1-none.task",
            "a head with no facts",
            file(&[head_record(0, 0), end()]),
        ),
        Sample::new(
            "refused-1-many.task",
            "a head with 257 facts",
            file(&[head_record(257, 0), end()]),
        ),
        Sample::new(
            "refused-2.task",
            "a head with 1,025 steps",
            file(&[head_record(1, 1_025), end()]),
        ),
        Sample::new(
            "refused-5.task",
            "a step that costs 65,536",
            file(&[head_record(1, 1), step_record(65_536), end()]),
        ),
        Sample::new(
            "refused-6.task",
            "a head with 257 steps, one more than the program has room for",
            file(&[head_record(1, 257), end()]),
        ),
    ]
}

/// Files refused for a record that is unknown or broken off.
fn refused_broken() -> Vec<Sample> {
    let sound = write(&walk_up());
    vec![
        Sample::new(
            "refused-11.task",
            "a record of kind 08",
            file(&[head_record(1, 0), vec![8], end()]),
        ),
        Sample::new("refused-12-empty.task", "an empty file", vec![]),
        Sample::new(
            "refused-12-inside.task",
            "document 01's file, cut off inside its last fact",
            sound[..65].to_vec(),
        ),
        Sample::new(
            "refused-12-between.task",
            "document 01's file without its end record",
            sound[..66].to_vec(),
        ),
    ]
}

/// Files refused for a record out of place.
fn refused_out_of_place() -> Vec<Sample> {
    let start = fact_record(START, 0);
    vec![
        Sample::new(
            "refused-13-head.task",
            "a second head",
            file(&[head_record(1, 0), head_record(1, 0), end()]),
        ),
        Sample::new(
            "refused-13-start.task",
            "a start fact after a step",
            file(&[head_record(1, 1), step_record(1), start, end()]),
        ),
        Sample::new(
            "refused-13-after.task",
            "document 01's file and a byte after its end",
            file(&[write(&walk_up()), vec![0]]),
        ),
    ]
}

/// Files refused for a fact that isn't there, for their number of steps or
/// for their length.
fn refused_numbers() -> Vec<Sample> {
    let (goal, sets) = (fact_record(GOAL, 5), fact_record(SETS, 64));
    vec![
        Sample::new(
            "refused-14-goal.task",
            "goal fact 5 where there are five facts",
            file(&[head_record(5, 0), goal, end()]),
        ),
        Sample::new(
            "refused-14-step.task",
            "a step that sets fact 64 where there are 64 facts",
            file(&[head_record(64, 1), step_record(1), sets, end()]),
        ),
        Sample::new(
            "refused-15-many.task",
            "a second step where the head says one",
            file(&[head_record(1, 1), step_record(1), step_record(2), end()]),
        ),
        Sample::new(
            "refused-15-few.task",
            "an end after one step where the head says two",
            file(&[head_record(1, 2), step_record(1), end()]),
        ),
        Sample::new(
            "refused-16.task",
            "a file of 65,536 bytes that would be sound otherwise",
            filled(2, MOST_BYTES + 1),
        ),
    ]
}

/// A table of all samples with what their reports say in short.
pub fn table() -> String {
    let mut text = String::from("| File | What it is | What the report says |\n|---|---|---|\n");
    for sample in samples() {
        let says = summary(&report(&sample.bytes));
        text += &format!("| `{}` | {} | {} |\n", sample.name, sample.shows, says);
    }
    text
}

/// A report in one line: a refusal as it stands; otherwise the must, take and
/// floor lines and the number of cuts, long lines by their count.
fn summary(report: &str) -> String {
    if report.starts_with("refused") {
        return format!("`{}`", report.trim_end());
    }
    let told = report.lines().filter(|line| {
        let word = line.split(' ').next();
        matches!(word, Some("must" | "take" | "floor"))
    });
    let mut parts: Vec<String> = told.map(shortened).collect();
    let cuts = report
        .lines()
        .filter(|line| line.starts_with("cut "))
        .count();
    parts.insert(2, format!("cuts: {cuts}"));
    parts.join("; ")
}

/// A line as it stands, or its first word and the count of its numbers.
fn shortened(line: &str) -> String {
    let fields: Vec<&str> = line.split(' ').collect();
    if fields.len() > 12 {
        format!("`{}`: {} numbers", fields[0], fields.len() - 1)
    } else {
        format!("`{line}`")
    }
}
