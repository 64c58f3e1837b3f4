//! Document 01's examples P1 to P12 and its limits.

use second::cuts::{cuts, Round};
use second::distance::distances;
use second::file::{judge, write};
use second::lent::{row_of_step, words_of, CutTables, Lent};
use second::must::{just_before_rows, must_pass_facts, must_pass_steps, must_rows};
use second::reach::passes;
use second::replay::{replay, Outcome};
use second::report::{report, ROOM};
use second::samples::{
    balance, either_step, goal_within_start, microscope, no_way, queue, samples, set_not_needed,
    three_ways, walk_up,
};
use second::task::{numbers, Numbers, Refusal, Step, Task};

/// The file of document 01 as it stands there.
const FILE: [u8; 67] = [
    0x01, 0x05, 0x00, 0x05, 0x00, 0x03, 0x04, 0x00, //
    0x04, 0x01, 0x00, 0x00, 0x00, 0x06, 0x00, 0x00, //
    0x04, 0x03, 0x00, 0x00, 0x00, 0x05, 0x00, 0x00, 0x06, 0x01, 0x00, 0x06, 0x02, 0x00, //
    0x04, 0x01, 0x00, 0x00, 0x00, 0x05, 0x00, 0x00, 0x06, 0x02, 0x00, //
    0x04, 0x02, 0x00, 0x00, 0x00, 0x05, 0x00, 0x00, 0x06, 0x03, 0x00, //
    0x04, 0x01, 0x00, 0x00, 0x00, 0x05, 0x02, 0x00, 0x05, 0x03, 0x00, 0x06, 0x04, 0x00, //
    0x00,
];

/// The report of document 01 as it stands there.
const REPORT: &str = "\
task 5 5
reach 0 1 2 3 4
must 0 2 3 4
take 0 3 4
cut 1 4
cut 2 3
cut 1 1 2
cut 1 0
floor 5
";

/// A round of this cost with these steps.
fn round(cost: u32, steps: &[usize]) -> Round {
    Round {
        cost,
        steps: numbers(steps),
    }
}

/// The file is read as the task, the task written as the file, and the report
/// is the one printed.
#[test]
fn file_and_report_are_those_of_the_document() {
    assert_eq!(judge(&FILE, ROOM), Ok(walk_up()));
    assert_eq!(write(&walk_up()), FILE);
    assert_eq!(report(&FILE), REPORT);
}

/// P1 to P4.
#[test]
fn first_task() {
    let task = walk_up();
    assert_eq!(must_pass_facts(&task), Ok(numbers(&[0, 2, 3, 4])));
    assert_eq!(must_pass_steps(&task), Ok(numbers(&[0, 3, 4])));
    let expected = [1, 4, 2, 3, 4].map(Some);
    assert_eq!(distances(&task, &task.costs()), expected);
    assert_eq!(passes(&task), 4);
    let cuts = cuts(&task).unwrap();
    let rounds = [(1, &[4][..]), (2, &[3]), (1, &[1, 2]), (1, &[0])];
    assert_eq!(cuts.rounds, rounds.map(|(cost, steps)| round(cost, steps)));
    assert_eq!(cuts.left, [0, 2, 0, 0, 0]);
    assert_eq!(cuts.floor, 5);
}

/// P5 and P6.
#[test]
fn task_of_source_001() {
    let task = three_ways();
    let cuts = cuts(&task).unwrap();
    assert_eq!(cuts.rounds, [round(4, &[1, 2]), round(1, &[0, 2])]);
    assert_eq!(cuts.left, [2, 0, 0, 0]);
    assert_eq!(cuts.floor, 5);
    assert_eq!(must_pass_facts(&task), Ok(numbers(&[0, 1, 2, 3, 4])));
    assert_eq!(must_pass_steps(&task), Ok(numbers(&[3])));
}

/// P7 to P10.
#[test]
fn small_tasks() {
    let task = goal_within_start();
    assert_eq!(must_pass_facts(&task), Ok(task.goal.clone()));
    assert_eq!(must_pass_steps(&task), Ok(Numbers::new()));
    let none = cuts(&task).unwrap();
    assert!(none.rounds.is_empty() && none.floor == 0);

    assert_eq!(cuts(&no_way()), Err(Refusal::new(7)));
    assert_eq!(must_pass_facts(&no_way()), Err(Refusal::new(7)));
    assert_eq!(must_pass_steps(&no_way()), Err(Refusal::new(7)));

    assert_eq!(must_pass_steps(&either_step()), Ok(Numbers::new()));
    let one = cuts(&either_step()).unwrap();
    assert_eq!(one.rounds, [round(2, &[0, 1])]);

    assert_eq!(must_pass_facts(&set_not_needed()), Ok(numbers(&[0])));
}

/// P11, and the order of the refusals of a walk.
#[test]
fn walks() {
    let task = walk_up();
    assert_eq!(replay(&task, &[0, 2, 3, 4]), Ok(Outcome::Done(5)));
    assert_eq!(replay(&task, &[0, 4]), Ok(Outcome::Stuck(1)));
    assert_eq!(replay(&task, &[]), Ok(Outcome::Short));
    assert_eq!(replay(&task, &[4, 0, 5]), Err(Refusal::at(9, 2)));
    assert_eq!(replay(&task, &[9; 65_536]), Err(Refusal::new(8)));
    assert_eq!(replay(&task, &[0; 65_535]), Ok(Outcome::Short));
    assert_eq!(replay(&goal_within_start(), &[]), Ok(Outcome::Done(0)));
}

/// P12: a fact that a step both sets and clears holds after it.
#[test]
fn set_and_cleared_holds() {
    let step = Step::new(1, &[], &[0]).clearing(&[0]);
    let task = Task::new(1, &[], &[0], vec![step]);
    assert_eq!(replay(&task, &[0]), Ok(Outcome::Done(1)));
}

/// Rows where a fact is unreachable, a start fact or set in two ways.
#[test]
fn rows() {
    let steps = vec![Step::new(1, &[0], &[1]), Step::new(1, &[1], &[0, 1])];
    let task = Task::new(3, &[0], &[1], steps);
    let rows = [&[0][..], &[0, 1], &[0, 1, 2]].map(numbers);
    assert_eq!(must_rows(&task), rows);
    let just_before = [&[][..], &[], &[]].map(numbers);
    assert_eq!(just_before_rows(&task), just_before);
    let just_before = [&[][..], &[0], &[0], &[0], &[2, 3]].map(numbers);
    assert_eq!(just_before_rows(&walk_up()), just_before);
}

/// The tables of a task, held so that they can be lent.
struct Tables {
    facts: usize,
    needs: Vec<u64>,
    sets: Vec<u64>,
    clears: Vec<u64>,
    costs: Vec<u32>,
    start: [u64; 4],
    goal: [u64; 4],
}

impl Tables {
    /// The tables of this task.
    fn of(task: &Task) -> Tables {
        let table = |set: fn(&Step) -> &Numbers| -> Vec<u64> {
            let rows = task.steps.iter().map(|step| words_of::<4>(set(step)));
            rows.flatten().collect()
        };
        Tables {
            facts: task.facts,
            needs: table(|step| &step.needs),
            sets: table(|step| &step.sets),
            clears: table(|step| &step.clears),
            costs: task.costs(),
            start: words_of(&task.start),
            goal: words_of(&task.goal),
        }
    }

    /// The tables, lent.
    fn lend(&self) -> Lent<'_> {
        Lent {
            facts: self.facts,
            steps: self.costs.len(),
            needs: &self.needs,
            sets: &self.sets,
            clears: &self.clears,
            costs: &self.costs,
            start: &self.start,
            goal: &self.goal,
        }
    }
}

/// Fact 63 of 64 passes, bit 64 is 4; cost 65,535 passes, 65,536 is 5; 3 comes
/// before both, 1 and 2 before all.
#[test]
fn limits_of_a_task() {
    let step = Step::new(65_535, &[63], &[0]);
    let mut tables = Tables::of(&Task::new(64, &[63], &[0], vec![step]));
    assert!(tables.lend().task().is_ok());
    tables.costs[0] = 65_536;
    assert_eq!(tables.lend().task(), Err(Refusal::new(5)));
    tables.clears[1] = 1;
    assert_eq!(tables.lend().task(), Err(Refusal::new(4)));
    tables.sets.push(0);
    assert_eq!(tables.lend().task(), Err(Refusal::new(3)));
    let mut lent = tables.lend();
    lent.steps = 1_025;
    assert_eq!(lent.task(), Err(Refusal::new(2)));
    lent.facts = 257;
    assert_eq!(lent.task(), Err(Refusal::new(1)));
    lent.facts = 0;
    assert_eq!(lent.task(), Err(Refusal::new(1)));
}

/// What the cuts of the first task give with these lengths of the tables, and
/// whether any entry of them was written.
fn cuts_with(rows: usize, costs: usize, left: usize) -> (Result<(usize, u32), Refusal>, bool) {
    let tables = Tables::of(&walk_up());
    let (mut rows, mut costs, mut left) = (vec![7; rows], vec![7; costs], vec![7; left]);
    let answer = tables.lend().cuts(&mut CutTables {
        rows: &mut rows,
        costs: &mut costs,
        left: &mut left,
    });
    let mut numbers = costs.iter().chain(&left);
    let written = rows.iter().any(|&word| word != 7) || numbers.any(|&number| number != 7);
    (answer, written)
}

/// 16m words and m costs pass; one less of any is 6 and leaves all untouched.
#[test]
fn limits_of_result_tables() {
    assert_eq!(cuts_with(80, 5, 5), (Ok((4, 5)), true));
    let refused = (Err(Refusal::new(6)), false);
    assert_eq!(cuts_with(79, 5, 5), refused);
    assert_eq!(cuts_with(80, 4, 5), refused);
    assert_eq!(cuts_with(80, 5, 4), refused);
}

/// The other operations over lent tables.
#[test]
fn lent_tables() {
    let tables = Tables::of(&walk_up());
    let lent = tables.lend();
    assert_eq!(lent.reach(), Ok(([31, 0, 0, 0], 4)));
    assert_eq!(lent.must_pass_facts(), Ok([29, 0, 0, 0]));
    assert_eq!(lent.must_pass_steps().map(|words| words[0]), Ok(25));
    assert_eq!(lent.replay(&[0, 4]), Ok(Outcome::Stuck(1)));
    let mut distances = [9; 6];
    assert_eq!(lent.distances(&mut distances), Ok(()));
    assert_eq!(distances, [1, 4, 2, 3, 4, 9]);
    assert_eq!(lent.distances(&mut [0; 4]), Err(Refusal::new(6)));
    let mut rows = [9; 21];
    assert_eq!(lent.must_rows(&mut rows), Ok(()));
    assert_eq!((rows[16], rows[20]), (29, 9));
    assert_eq!(lent.just_before_rows(&mut rows), Ok(()));
    assert_eq!((rows[16], rows[20]), (12, 9));
    assert_eq!(lent.must_rows(&mut [0; 19]), Err(Refusal::new(6)));
}

/// The row of a step, and the order of its refusals.
#[test]
fn row_of_a_step() {
    let tables = Tables::of(&walk_up());
    let row = |steps, step, table| row_of_step(5, steps, &tables.needs, &tables.sets, step, table);
    assert_eq!(row(5, 4, 0), Ok(&[12, 0, 0, 0][..]));
    assert_eq!(row(5, 4, 1), Ok(&[16, 0, 0, 0][..]));
    assert_eq!(row(5, 4, 2), Err(Refusal::new(10)));
    assert_eq!(row(5, 5, 2), Err(Refusal::new(9)));
    assert_eq!(row(6, 5, 2), Err(Refusal::new(3)));
}

/// Refusals of files where two faults meet in one record.
#[test]
fn order_within_a_record() {
    let cases: [(&[u8], u8, usize); 15] = [
        (&[], 12, 0),
        (&[1, 5], 12, 0),
        (&[0], 13, 0),
        (&[9], 11, 0),
        (&[2, 0], 12, 0),
        (&[2, 0, 0], 13, 0),
        (&[1, 1, 0, 0, 0, 1, 0], 12, 5),
        (&[1, 1, 0, 0, 0, 1, 0, 0, 255, 255], 13, 5),
        (&[1, 0, 0, 255, 255], 1, 0),
        (&[1, 1, 0, 1, 4], 2, 0),
        (&[1, 1, 0, 0, 4], 6, 0),
        (&[1, 1, 0, 0, 0, 4, 0, 0, 1, 0], 5, 5),
        (&[1, 1, 0, 0, 0, 4, 0, 0, 0, 0], 15, 5),
        (&[1, 1, 0, 1, 0, 0, 9], 15, 5),
        (&[1, 1, 0, 0, 0, 0, 9], 13, 6),
    ];
    for (bytes, number, place) in cases {
        let refusal = Refusal::at(number, place);
        assert_eq!(judge(bytes, ROOM), Err(refusal), "{bytes:?}");
    }
}

/// A start fact after a step is 13 even if there is no such fact.
#[test]
fn out_of_place_before_no_such_fact() {
    let bytes = [1, 1, 0, 1, 0, 4, 0, 0, 0, 0, 2, 9, 0];
    assert_eq!(judge(&bytes, ROOM), Err(Refusal::at(13, 10)));
}

/// Every sample that is refused says so in its name, but for the one without
/// a way; the longest samples have the lengths they should.
#[test]
fn samples_are_what_they_are_called() {
    for sample in samples() {
        let report = report(&sample.bytes);
        let number = sample.name.strip_prefix("refused-").map(|rest| {
            let digits = rest.find(|letter: char| !letter.is_ascii_digit());
            &rest[..digits.unwrap_or(rest.len())]
        });
        match number {
            Some(number) => assert!(report.starts_with(&format!("refused {number} "))),
            None => assert_eq!(report.starts_with("refused"), sample.name == "no-way.task"),
        }
    }
    let lengths = samples().into_iter().map(|sample| sample.bytes.len());
    assert_eq!(lengths.filter(|&length| length >= 65_535).count(), 2);
}

/// The walks told of the models are real ones of the costs told.
#[test]
fn models_have_real_walks() {
    let cases: [(Task, &[u16], u32); 4] = [
        (balance(), &[0, 2, 4, 3, 5, 6, 8, 10], 14),
        (queue(), &[0, 1, 2, 3, 5, 8, 9, 10], 24),
        (microscope(true), &[0, 2, 4, 5, 6], 6),
        (microscope(false), &[0, 1, 2, 4, 5, 6], 9),
    ];
    for (task, walk, cost) in cases {
        assert_eq!(replay(&task, walk), Ok(Outcome::Done(cost)));
    }
}
