//! The commands of the second program.

use std::io::{Read, Write};
use std::path::Path;
use std::process::ExitCode;
use std::time::{SystemTime, UNIX_EPOCH};

use second::compare::{compare, compare_planted, Plan};
use second::operations;
use second::report::report;
use second::samples::{samples, table};

/// How the program is used.
const USAGE: &str = "usage:
  second report < FILE        print the report of a task file
  second folder DIR NAME..    print each name and the report of that file
  second samples DIR          write the sample files and print their names
  second compare PROGRAM [--seed N] [--cases K]
                              compare a program's reports on random files
  second compare --planted [--seed N] [--cases K]
                              show that planted mistakes are caught
  second operations COMMAND [--seed N] [--cases K]
                              compare a desk's answers to random calls
  second operations --planted [--seed N] [--cases K]
                              show that planted mistakes are caught
";

/// Runs the command that the arguments name.
fn main() -> ExitCode {
    let arguments: Vec<String> = std::env::args().skip(1).collect();
    let words: Vec<&str> = arguments.iter().map(String::as_str).collect();
    let outcome = match words.as_slice() {
        ["report"] => report_input(),
        ["folder", folder, names @ ..] => report_folder(Path::new(folder), names),
        ["samples", folder] => write_samples(Path::new(folder)),
        ["compare", program, options @ ..] => run_comparison(program, options),
        ["operations", command, options @ ..] => run_operations(command, options),
        _ => usage(),
    };
    match outcome {
        Ok(status) => status,
        Err(error) => {
            eprintln!("second: {error}");
            ExitCode::from(2)
        }
    }
}

/// Says how the program is used.
fn usage() -> std::io::Result<ExitCode> {
    eprint!("{USAGE}");
    Ok(ExitCode::from(2))
}

/// Prints the report of the file on standard input.
fn report_input() -> std::io::Result<ExitCode> {
    let mut bytes = Vec::new();
    std::io::stdin().read_to_end(&mut bytes)?;
    print(&report(&bytes))
}

/// Prints each name and the report of the file of that name in a folder.
fn report_folder(folder: &Path, names: &[&str]) -> std::io::Result<ExitCode> {
    let mut text = String::new();
    for name in names {
        let bytes = std::fs::read(folder.join(name))?;
        text += &format!("{name}\n{}", report(&bytes));
    }
    print(&text)
}

/// Writes the sample files and a table of them into a folder, and prints
/// their names.
fn write_samples(folder: &Path) -> std::io::Result<ExitCode> {
    std::fs::create_dir_all(folder)?;
    let mut names = String::new();
    for sample in samples() {
        std::fs::write(folder.join(sample.name), &sample.bytes)?;
        names += &format!("{}\n", sample.name);
    }
    std::fs::write(
        folder.join("README.md"),
        format!("# Sample task files\n\n{}", table()),
    )?;
    print(&names)
}

/// Compares a program, or the planted mistakes, by a plan from the options.
fn run_comparison(program: &str, options: &[&str]) -> std::io::Result<ExitCode> {
    let Some(plan) = plan(options) else {
        return usage();
    };
    let sound = match program {
        "--planted" => compare_planted(&plan),
        _ => compare(program, &plan)?,
    };
    Ok(status(sound))
}

/// Compares the calls of a desk, or the planted mistakes in them, by a plan
/// from the options.
fn run_operations(command: &str, options: &[&str]) -> std::io::Result<ExitCode> {
    let Some(plan) = plan(options) else {
        return usage();
    };
    let sound = match command {
        "--planted" => operations::compare::compare_planted(&plan),
        _ => operations::compare::compare(command, &plan)?,
    };
    Ok(status(sound))
}

/// The status that says whether nothing differed.
fn status(sound: bool) -> ExitCode {
    if sound {
        ExitCode::SUCCESS
    } else {
        ExitCode::FAILURE
    }
}

/// The plan that the options give; the seed comes from the clock if none is
/// given.
fn plan(options: &[&str]) -> Option<Plan> {
    let clock = SystemTime::now().duration_since(UNIX_EPOCH);
    let mut plan = Plan {
        seed: clock.map_or(0, |time| time.as_secs()),
        cases: None,
    };
    for option in options.chunks(2) {
        match option {
            ["--seed", number] => plan.seed = number.parse().ok()?,
            ["--cases", number] => plan.cases = Some(number.parse().ok()?),
            _ => return None,
        }
    }
    Some(plan)
}

/// Writes text to standard output.
fn print(text: &str) -> std::io::Result<ExitCode> {
    std::io::stdout().write_all(text.as_bytes())?;
    Ok(ExitCode::SUCCESS)
}
