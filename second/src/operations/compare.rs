//! Comparing the answers of a desk with this program's own, or with planted
//! mistakes.

use std::io::Result;

use crate::compare::{Plan, MOST_DIFFERENCES};
use crate::operations::answer::answer;
use crate::operations::cases::case;
use crate::operations::desk::Desk;
use crate::operations::planted::{Planted, PLANTED};
use crate::operations::request::Request;

/// Compares a desk's answers with the right ones, keeps each request on which
/// they differ, and says whether none did.
pub fn compare(command: &str, plan: &Plan) -> Result<bool> {
    println!("seed {}", plan.seed);
    let mut desk = Desk::start(command)?;
    let (mut compared, mut differ) = (0, 0);
    for number in plan.numbers() {
        let request = case(plan.seed, number);
        let difference = difference(&mut desk, command, &request)?;
        compared += 1;
        if let Some(difference) = difference {
            differ += 1;
            let name = format!("differs-{}-{number}.request", plan.seed);
            std::fs::write(&name, request.bytes())?;
            println!("{:?}, case {number}, kept as {name}", request.operation);
            println!("  {difference}");
        }
        if differ == MOST_DIFFERENCES {
            println!("stopped after {MOST_DIFFERENCES} differing calls");
            break;
        }
    }
    println!("compared {compared} calls: {differ} differ");
    Ok(differ == 0)
}

/// How the desk's answer differs from the right one, if it does. A desk that
/// gives none is started anew.
fn difference(desk: &mut Desk, command: &str, request: &Request) -> Result<Option<String>> {
    let right = answer(request);
    let length = right.bytes().len();
    match desk.answer(request, length) {
        Some(given) if given.len() == length => Ok(right.difference(&given)),
        _ => {
            *desk = Desk::start(command)?;
            Ok(Some("no answer of the right length".into()))
        }
    }
}

/// Compares each planted mistake with the right answers, prints which case
/// caught it, and says whether all were caught.
pub fn compare_planted(plan: &Plan) -> bool {
    println!("seed {}", plan.seed);
    let mut hidden: Vec<&Planted> = PLANTED.iter().collect();
    for number in plan.numbers() {
        let request = case(plan.seed, number);
        let right = answer(&request);
        hidden.retain(|planted| {
            let wrong = (planted.answer)(&request, &right);
            let caught = right.difference(&wrong.bytes()).is_some();
            if caught {
                println!("caught after {} cases: {}", number + 1, planted.mistake);
            }
            !caught
        });
        if hidden.is_empty() {
            break;
        }
    }
    for planted in &hidden {
        println!("not caught: {}", planted.mistake);
    }
    let caught = PLANTED.len() - hidden.len();
    println!("{caught} of {} planted mistakes caught", PLANTED.len());
    hidden.is_empty()
}
