//! Comparing reports with those of a program under test, or with planted
//! mistakes.

use std::fs::File;
use std::io::{Result, Write};
use std::path::PathBuf;
use std::process::{Child, Command, Stdio};
use std::time::{Duration, Instant};

use crate::cases::case;
use crate::planted::{Planted, PLANTED};
use crate::report::report;

/// How long a comparison goes on if no number of cases is given.
const USUAL_TIME: Duration = Duration::from_secs(20);
/// How long a program may take for one file or call.
pub const MOST_TIME: Duration = Duration::from_secs(30);
/// How many differing files or calls end a comparison.
pub const MOST_DIFFERENCES: usize = 50;

/// Which cases are compared.
pub struct Plan {
    pub seed: u64,
    /// How many; none for as many as the usual time allows.
    pub cases: Option<usize>,
}

impl Plan {
    /// The numbers of the cases, one after another.
    pub fn numbers(&self) -> impl Iterator<Item = usize> + '_ {
        let begun = Instant::now();
        let most = self.cases.unwrap_or(usize::MAX);
        let in_time = move |_: &usize| self.cases.is_some() || begun.elapsed() < USUAL_TIME;
        (0..most).take_while(in_time)
    }

    /// The numbers and files of the cases, one after another.
    fn cases(&self) -> impl Iterator<Item = (usize, Vec<u8>)> + '_ {
        let with_file = |number| (number, case(self.seed, number));
        self.numbers().map(with_file)
    }
}

/// Compares a program's reports with the right ones, keeps each file on which
/// they differ, and says whether none did.
pub fn compare(command: &str, plan: &Plan) -> Result<bool> {
    println!("seed {}", plan.seed);
    let program = Program::new(command);
    let (mut compared, mut differ) = (0, 0);
    for (number, bytes) in plan.cases() {
        let expected = report(&bytes);
        let answer = program.answer(&bytes)?;
        compared += 1;
        if answer.as_deref() != Some(expected.as_bytes()) {
            differ += 1;
            let name = format!("differs-{}-{number}.task", plan.seed);
            std::fs::write(&name, &bytes)?;
            println!("case {number} differs, kept as {name}");
            print_difference(&expected, answer.as_deref());
        }
        if differ == MOST_DIFFERENCES {
            println!("stopped after {MOST_DIFFERENCES} differing files");
            break;
        }
    }
    println!("compared {compared} files: {differ} differ");
    Ok(differ == 0)
}

/// Prints the first line in which an answer differs from what is expected.
fn print_difference(expected: &str, answer: Option<&[u8]>) {
    let Some(answer) = answer else {
        println!("  the program didn't come to an end of its own");
        return;
    };
    let answer = String::from_utf8_lossy(answer);
    let mut right = expected.split('\n');
    let mut given = answer.split('\n');
    loop {
        match (right.next(), given.next()) {
            (Some(line), Some(other)) if line == other => {}
            (line, other) => {
                println!("  expected: {}", line.unwrap_or("(no more)"));
                println!(
                    "  printed:  {}",
                    other.unwrap_or("(no more)").escape_debug()
                );
                return;
            }
        }
    }
}

/// A program under test: its command and the file that takes its answers.
struct Program {
    words: Vec<String>,
    output: PathBuf,
}

impl Program {
    /// The program of this command, whose words are parted by blanks.
    fn new(command: &str) -> Program {
        let output = format!("second-answer-{}.txt", std::process::id());
        Program {
            words: command.split_whitespace().map(String::from).collect(),
            output: std::env::temp_dir().join(output),
        }
    }

    /// What the program prints for a file; none if it doesn't end by itself.
    fn answer(&self, bytes: &[u8]) -> Result<Option<Vec<u8>>> {
        let (first, others) = self
            .words
            .split_first()
            .ok_or(std::io::ErrorKind::NotFound)?;
        let mut child = Command::new(first)
            .args(others)
            .stdin(Stdio::piped())
            .stdout(File::create(&self.output)?)
            .stderr(Stdio::null())
            .spawn()?;
        if let Some(mut input) = child.stdin.take() {
            // A program may stop reading once it knows its answer.
            let _ = input.write_all(bytes);
        }
        if ended_by_itself(&mut child)? {
            std::fs::read(&self.output).map(Some)
        } else {
            Ok(None)
        }
    }
}

impl Drop for Program {
    /// Removes the file that took the answers.
    fn drop(&mut self) {
        let _ = std::fs::remove_file(&self.output);
    }
}

/// Waits for a program and says whether it ended by itself; one that takes
/// too long is stopped.
fn ended_by_itself(child: &mut Child) -> Result<bool> {
    let begun = Instant::now();
    loop {
        if let Some(status) = child.try_wait()? {
            return Ok(status.code().is_some());
        }
        if begun.elapsed() > MOST_TIME {
            child.kill()?;
            child.wait()?;
            return Ok(false);
        }
        std::thread::sleep(Duration::from_micros(200));
    }
}

/// Compares each planted mistake with the right reports, prints which case
/// caught it, and says whether all were caught.
pub fn compare_planted(plan: &Plan) -> bool {
    println!("seed {}", plan.seed);
    let mut hidden: Vec<&Planted> = PLANTED.iter().collect();
    for (number, bytes) in plan.cases() {
        let expected = report(&bytes);
        hidden.retain(|planted| {
            let caught = (planted.report)(&bytes) != expected;
            if caught {
                println!("caught after {} cases: {}", number + 1, planted.mistake);
            }
            !caught
        });
        if hidden.is_empty() {
            break;
        }
    }
    for planted in &hidden {
        println!("not caught: {}", planted.mistake);
    }
    let caught = PLANTED.len() - hidden.len();
    println!("{caught} of {} planted mistakes caught", PLANTED.len());
    hidden.is_empty()
}
