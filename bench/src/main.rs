//! Speed of the proved library beside a tuned yardstick and plain Rust: same inputs, same machine,
//! one run, in turns. `cargo run --release -- quick` or `-- full`; further words choose operations.

mod clock;
mod compare;
mod families;
mod library;
mod measure;
mod operations;
mod plain;
mod report;
mod sets;
mod task;
mod yardstick;

use families::Case;
use measure::Effort;
use operations::{Operation, Results};
use report::Times;
use std::process::ExitCode;

/// What one kind of run measures, and how long.
struct Run {
    cases: Vec<Case>,
    wild_tasks: u64,
    effort: Effort,
}

/// A run of less than half a minute.
fn quick() -> Run {
    Run {
        cases: families::few(),
        wild_tasks: 500,
        effort: Effort {
            batch: 100e3,
            budget: 100e6,
            fewest_turns: 7,
            most_turns: 101,
        },
    }
}

/// A run of all cases.
fn full() -> Run {
    Run {
        cases: families::all(),
        wild_tasks: 20_000,
        effort: Effort {
            batch: 200e3,
            budget: 500e6,
            fewest_turns: 9,
            most_turns: 301,
        },
    }
}

/// The run that the first word names.
fn run_called(word: Option<&String>) -> Result<Run, String> {
    match word.map(String::as_str) {
        Some("quick") => Ok(quick()),
        Some("full") => Ok(full()),
        _ => Err("usage: bench quick|full [OPERATION...]".to_string()),
    }
}

/// The operations of these names; all if there are none.
fn operations_called(names: &[String]) -> Result<Vec<Operation>, String> {
    let mut operations = operations::all();
    let known = |name: &String| operations.iter().any(|operation| operation.name == name);
    if let Some(unknown) = names.iter().find(|&name| !known(name)) {
        return Err(format!("no operation is called '{unknown}'"));
    }
    operations.retain(|each| names.is_empty() || names.iter().any(|name| name == each.name));
    Ok(operations)
}

/// Compares, measures and prints. Status 1 for a difference, 2 for words that mean nothing.
fn main() -> ExitCode {
    let words: Vec<String> = std::env::args().skip(1).collect();
    let names = words.get(1..).unwrap_or_default();
    let (run, operations) = match (run_called(words.first()), operations_called(names)) {
        (Ok(run), Ok(operations)) => (run, operations),
        (Err(message), _) | (_, Err(message)) => {
            eprintln!("{message}");
            return ExitCode::from(2);
        }
    };
    print_conditions(&run);
    if let Some(difference) = first_difference(&operations, &run) {
        eprintln!("different answers: {difference}");
        return ExitCode::FAILURE;
    }
    measure_all(&operations, &run);
    ExitCode::SUCCESS
}

/// What the numbers mean.
const CONDITIONS: &str = "\
- One thread. Yardstick, plain Rust and library take turns on the same inputs; a turn is a batch of
  calls, timed by the thread's processor time. Times are medians over the turns.
- The same result tables are lent to all three. They are zeros before the first call and are not
  cleared between calls.
- Library and plain Rust check the task in every call, as document 01 asks. The yardstick checks
  nothing; its time includes making its lists from the lent tables.
- A ratio is the library's time as a multiple of the other's: below 1 the library is faster. Means
  of ratios are geometric.";

/// Prints what the numbers mean.
fn print_conditions(run: &Run) {
    println!("# Speed of the library\n\n{CONDITIONS}");
    println!(
        "- Built for {}; at least {} turns.",
        std::env::consts::ARCH,
        run.effort.fewest_turns
    );
}

/// The first difference between the answers of the three.
fn first_difference(operations: &[Operation], run: &Run) -> Option<String> {
    let difference = compare::difference_on_cases(operations, &run.cases)
        .or_else(|| compare::difference_on_wild_tasks(operations, run.wild_tasks));
    if difference.is_none() {
        let count = run.wild_tasks;
        println!(
            "- Before measuring, the three gave equal answers and wrote equal tables on these"
        );
        println!("  tasks and on {count} small wild ones; library and plain Rust also on as many");
        println!("  damaged ones.");
    }
    difference
}

/// Measures every operation on the cases that suit it, and prints the tables and the summary.
fn measure_all(operations: &[Operation], run: &Run) {
    let mut lines = vec![];
    for operation in operations {
        report::print_head(operation);
        let mut all = vec![];
        for case in run.cases.iter().filter(|case| (operation.suits)(case)) {
            let times = times_of(operation, case, &run.effort);
            report::print_row(&times);
            all.push(times);
        }
        let line = report::summary(operation.name, &all);
        println!("\n{line}");
        lines.push(line);
    }
    println!("\n## Summary\n");
    lines.iter().for_each(|line| println!("- {line}"));
}

/// The median times of an operation on a case: yardstick, plain Rust, library in turn.
fn times_of(operation: &Operation, case: &Case, effort: &Effort) -> Times {
    let mut lent = Results::filled(0);
    let others = [operation.plain, operation.library];
    let calls: Vec<_> = operation.yardstick.into_iter().chain(others).collect();
    let medians = measure::medians(&calls, case, &mut lent, effort);
    let (yardstick, rest) = medians.split_at(calls.len() - others.len());
    Times {
        label: report::label(operation, case),
        yardstick: yardstick.first().copied(),
        plain: rest[0],
        library: rest[1],
    }
}
