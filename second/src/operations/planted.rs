//! Planted mistakes in single operations: answers that are wrong in one way
//! each, to show that a comparison of calls finds such mistakes. Each takes
//! the right answer and spoils it.

use std::ops::Not;

use crate::lent::{FACT_WORDS, STEP_WORDS, UNREACHABLE};
use crate::operations::answer::answer;
use crate::operations::request::{Answer, Operation, Request, Table};
use crate::replay::MOST_ENTRIES;
use crate::task::{MOST_COST, MOST_FACTS, MOST_STEPS};

/// A wrong answer, made from the request and the right answer, and what is
/// wrong with it.
pub struct Planted {
    pub mistake: &'static str,
    pub answer: fn(&Request, &Answer) -> Answer,
}

/// All planted mistakes.
#[rustfmt::skip]
pub const PLANTED: [Planted; 32] = [
    Planted { mistake: "everything refused", answer: all_refused },
    Planted { mistake: "empty list and floor 0 always", answer: nothing_found },
    Planted { mistake: "nothing written", answer: nothing_written },
    Planted { mistake: "first cut repeated", answer: first_cut_repeated },
    Planted { mistake: "number of passes invented", answer: passes_invented },
    Planted { mistake: "number of rounds invented", answer: rounds_invented },
    Planted { mistake: "words written on a refusal", answer: words_on_refusal },
    Planted { mistake: "prices written on a refusal", answer: prices_on_refusal },
    Planted { mistake: "left costs written on a refusal", answer: left_on_refusal },
    Planted { mistake: "tables written by a reading that is refused", answer: reading_on_refusal },
    Planted { mistake: "a word beyond touched", answer: beyond_touched },
    Planted { mistake: "a word past the lent table touched", answer: past_the_end_touched },
    Planted { mistake: "cut rows beyond the last round cleared", answer: rows_cleared },
    Planted { mistake: "cut costs beyond the last round cleared", answer: prices_cleared },
    Planted { mistake: "cuts taken off the costs as lent", answer: costs_changed },
    Planted { mistake: "3 before 2", answer: three_before_two },
    Planted { mistake: "5 before 4", answer: five_before_four },
    Planted { mistake: "6 before 5", answer: six_before_five },
    Planted { mistake: "7 before 6", answer: seven_before_six },
    Planted { mistake: "9 before 8", answer: nine_before_eight },
    Planted { mistake: "9 while stepping", answer: nine_while_stepping },
    Planted { mistake: "place of 9 off", answer: place_of_nine_off },
    Planted { mistake: "4 not asked of clears", answer: clears_not_asked },
    Planted { mistake: "longer task tables accepted", answer: longer_accepted },
    Planted { mistake: "cost 65,535 refused", answer: dearest_refused },
    Planted { mistake: "unreachable facts at distance 0", answer: no_mark },
    Planted { mistake: "facts past n in must rows", answer: past_n_in_rows },
    Planted { mistake: "repeats not counted in a walk's cost", answer: repeats_free },
    Planted { mistake: "sets before clears in a walk", answer: clears_win },
    Planted { mistake: "words that no record names left as they were", answer: words_left },
    Planted { mistake: "start and goal tables not asked for room", answer: start_not_asked },
    Planted { mistake: "6 of a reading after the records", answer: room_asked_last },
];

/// The number of an answer's refusal; 0 if it is none.
fn refusal(request: &Request, answer: &Answer) -> u64 {
    answer.numbers[usize::from(request.operation == Operation::Replay)]
}

/// The right answer, spoiled.
fn spoiled(right: &Answer, spoil: impl FnOnce(&mut Answer)) -> Answer {
    let mut answer = right.clone();
    spoil(&mut answer);
    answer
}

/// The right answer, spoiled if the call is of this operation and succeeds.
fn success_spoiled(
    request: &Request,
    right: &Answer,
    operation: Operation,
    spoil: impl FnOnce(&mut Answer),
) -> Answer {
    if request.operation == operation && refusal(request, right) == 0 {
        spoiled(right, spoil)
    } else {
        right.clone()
    }
}

/// The right answer, spoiled if it is a refusal.
fn refusal_spoiled(request: &Request, right: &Answer, spoil: impl FnOnce(&mut Answer)) -> Answer {
    if refusal(request, right) == 0 {
        right.clone()
    } else {
        spoiled(right, spoil)
    }
}

/// The right answer, or, where it is a refusal of this number, the numbers
/// that a changed request is answered with.
fn judged_otherwise(
    request: &Request,
    right: &Answer,
    number: u64,
    change: impl FnOnce(&mut Request),
) -> Answer {
    if refusal(request, right) != number {
        return right.clone();
    }
    let mut changed = request.clone();
    change(&mut changed);
    Answer {
        numbers: answer(&changed).numbers,
        tables: request.tables.clone(),
    }
}

/// The same, only where the changed request is refused with the second number.
fn reordered(
    request: &Request,
    right: &Answer,
    numbers: (u64, u64),
    change: impl FnOnce(&mut Request),
) -> Answer {
    let other = judged_otherwise(request, right, numbers.0, change);
    if refusal(request, &other) == numbers.1 {
        other
    } else {
        right.clone()
    }
}

/// Turns round the bits of the entry at this place, if there is one.
fn flip<T: Copy + Not<Output = T>>(entries: &mut [T], place: usize) {
    if let Some(entry) = entries.get_mut(place) {
        *entry = !*entry;
    }
}

/// Makes a table at least so long.
fn lengthen<T: Default + Clone>(table: &mut Table<T>, length: usize) {
    table.lent = table.lent.max(length);
    table.held.resize(table.lent, T::default());
}

/// Every call is refused.
fn all_refused(request: &Request, _: &Answer) -> Answer {
    let numbers = match request.operation {
        Operation::Replay => [3, 3, 0, 0],
        _ => [3, 0, 0, 0],
    };
    Answer {
        numbers,
        tables: request.tables.clone(),
    }
}

/// Every call that succeeds finds nothing.
fn nothing_found(request: &Request, right: &Answer) -> Answer {
    if refusal(request, right) != 0 {
        return right.clone();
    }
    spoiled(right, |answer| {
        answer.numbers = [0; 4];
        answer.tables.words.lent_mut().fill(0);
    })
}

/// The numbers are right, but no table is written.
fn nothing_written(request: &Request, right: &Answer) -> Answer {
    Answer {
        numbers: right.numbers,
        tables: request.tables.clone(),
    }
}

/// Every round has the first round's cut.
fn first_cut_repeated(request: &Request, right: &Answer) -> Answer {
    success_spoiled(request, right, Operation::Cuts, |answer| {
        let rounds = answer.numbers[2] as usize;
        let rows = answer.tables.words.lent_mut();
        for round in 1..rounds {
            rows.copy_within(..STEP_WORDS, round * STEP_WORDS);
        }
    })
}

/// As many passes as there could be at most.
fn passes_invented(request: &Request, right: &Answer) -> Answer {
    success_spoiled(request, right, Operation::Reach, |answer| {
        answer.numbers[2] = request.facts as u64 + 1;
    })
}

/// As many rounds as there are steps.
fn rounds_invented(request: &Request, right: &Answer) -> Answer {
    success_spoiled(request, right, Operation::Cuts, |answer| {
        answer.numbers[2] = request.steps as u64;
    })
}

/// The first word is written before a refusal.
fn words_on_refusal(request: &Request, right: &Answer) -> Answer {
    refusal_spoiled(request, right, |answer| {
        flip(answer.tables.words.lent_mut(), 0)
    })
}

/// The first distance or cut's cost is written before a refusal.
fn prices_on_refusal(request: &Request, right: &Answer) -> Answer {
    refusal_spoiled(request, right, |answer| {
        flip(answer.tables.prices.lent_mut(), 0)
    })
}

/// The first left cost is written before a refusal.
fn left_on_refusal(request: &Request, right: &Answer) -> Answer {
    refusal_spoiled(request, right, |answer| {
        flip(answer.tables.left.lent_mut(), 0)
    })
}

/// A refused reading has already cleared the start.
fn reading_on_refusal(request: &Request, right: &Answer) -> Answer {
    if request.operation != Operation::Read {
        return right.clone();
    }
    refusal_spoiled(request, right, |answer| {
        answer.tables.start.lent_mut().fill(0);
    })
}

/// The first entry after the stated ones is written.
fn beyond_touched(request: &Request, right: &Answer) -> Answer {
    if refusal(request, right) != 0 {
        return right.clone();
    }
    spoiled(right, |answer| {
        let read_steps = answer.numbers[3] as usize;
        let tables = &mut answer.tables;
        match request.operation {
            Operation::Distances => flip(tables.prices.lent_mut(), request.facts),
            Operation::MustRows => flip(tables.words.lent_mut(), FACT_WORDS * request.facts),
            Operation::Cuts => flip(tables.left.lent_mut(), request.steps),
            Operation::Read => flip(tables.needs.lent_mut(), FACT_WORDS * read_steps),
            _ => {}
        }
    })
}

/// The first word after the lent ones is written.
fn past_the_end_touched(request: &Request, right: &Answer) -> Answer {
    if refusal(request, right) != 0 {
        return right.clone();
    }
    spoiled(right, |answer| {
        let words = &mut answer.tables.words;
        flip(&mut words.held, words.lent);
    })
}

/// The rows of rounds that there are not are cleared.
fn rows_cleared(request: &Request, right: &Answer) -> Answer {
    success_spoiled(request, right, Operation::Cuts, |answer| {
        let rounds = answer.numbers[2] as usize;
        let rows = &mut answer.tables.words.lent_mut()[..STEP_WORDS * request.steps];
        rows[STEP_WORDS * rounds..].fill(0);
    })
}

/// The costs of rounds that there are not are cleared.
fn prices_cleared(request: &Request, right: &Answer) -> Answer {
    success_spoiled(request, right, Operation::Cuts, |answer| {
        let rounds = answer.numbers[2] as usize;
        answer.tables.prices.lent_mut()[rounds..request.steps].fill(0);
    })
}

/// The task's own costs are those left.
fn costs_changed(request: &Request, right: &Answer) -> Answer {
    success_spoiled(request, right, Operation::Cuts, |answer| {
        let left = &answer.tables.left.lent()[..request.steps];
        answer.tables.costs.lent_mut().copy_from_slice(left);
    })
}

/// Lengths are looked at before the number of steps, four words each without
/// regard to how far can be counted.
fn three_before_two(request: &Request, right: &Answer) -> Answer {
    let length = request.steps.wrapping_mul(FACT_WORDS);
    if refusal(request, right) == 2 && request.tables.needs.lent != length {
        spoiled(right, |answer| {
            answer.numbers[usize::from(request.operation == Operation::Replay)] = 3;
        })
    } else {
        right.clone()
    }
}

/// Costs are looked at before facts.
fn five_before_four(request: &Request, right: &Answer) -> Answer {
    reordered(request, right, (4, 5), |changed| changed.facts = MOST_FACTS)
}

/// Result tables are looked at before costs.
fn six_before_five(request: &Request, right: &Answer) -> Answer {
    reordered(request, right, (5, 6), |changed| {
        let costs = changed.tables.costs.lent_mut();
        costs
            .iter_mut()
            .for_each(|cost| *cost = MOST_COST.min(*cost));
    })
}

/// Ways are looked for before result tables are looked at.
fn seven_before_six(request: &Request, right: &Answer) -> Answer {
    if request.operation != Operation::Cuts {
        return right.clone();
    }
    reordered(request, right, (6, 7), |changed| {
        lengthen(&mut changed.tables.words, STEP_WORDS * request.steps);
        lengthen(&mut changed.tables.prices, request.steps);
        lengthen(&mut changed.tables.left, request.steps);
    })
}

/// Entries are looked at before the walk's length.
fn nine_before_eight(request: &Request, right: &Answer) -> Answer {
    reordered(request, right, (8, 9), |changed| {
        changed.tables.walk.lent = MOST_ENTRIES;
    })
}

/// An entry that is no step is found only when its turn comes.
fn nine_while_stepping(request: &Request, right: &Answer) -> Answer {
    let place = right.numbers[2] as usize;
    let other = judged_otherwise(request, right, 9, |changed| {
        changed.tables.walk.lent = place;
    });
    let is_stuck = other.numbers[0] == 1;
    if is_stuck {
        other
    } else {
        right.clone()
    }
}

/// Refusal 9 has the place after the entry.
fn place_of_nine_off(request: &Request, right: &Answer) -> Answer {
    if refusal(request, right) != 9 {
        return right.clone();
    }
    spoiled(right, |answer| answer.numbers[2] += 1)
}

/// The facts that steps clear may be any.
fn clears_not_asked(request: &Request, right: &Answer) -> Answer {
    judged_otherwise(request, right, 4, |changed| {
        changed.tables.clears.lent_mut().fill(0);
    })
}

/// A task table may be longer than stated.
fn longer_accepted(request: &Request, right: &Answer) -> Answer {
    judged_otherwise(request, right, 3, |changed| {
        let steps = changed.steps;
        let tables = &mut changed.tables;
        for table in [&mut tables.needs, &mut tables.sets, &mut tables.clears] {
            table.lent = table.lent.min(FACT_WORDS * steps);
        }
        for table in [&mut tables.start, &mut tables.goal] {
            table.lent = table.lent.min(FACT_WORDS);
        }
        tables.costs.lent = tables.costs.lent.min(steps);
    })
}

/// The largest cost counts as too large.
fn dearest_refused(request: &Request, right: &Answer) -> Answer {
    let dearest = request.tables.costs.lent().contains(&MOST_COST);
    if request.operation != Operation::Check || right.numbers[0] != 0 || !dearest {
        return right.clone();
    }
    spoiled(right, |answer| answer.numbers[0] = 5)
}

/// An unreachable fact has no mark.
fn no_mark(request: &Request, right: &Answer) -> Answer {
    success_spoiled(request, right, Operation::Distances, |answer| {
        let distances = answer.tables.prices.lent_mut().iter_mut();
        for distance in distances.take(request.facts) {
            *distance %= UNREACHABLE;
        }
    })
}

/// The row of an unreachable fact holds all that a set can hold: a row of all
/// n facts does.
fn past_n_in_rows(request: &Request, right: &Answer) -> Answer {
    success_spoiled(request, right, Operation::MustRows, |answer| {
        let rows = &mut answer.tables.words.lent_mut()[..FACT_WORDS * request.facts];
        for row in rows.chunks_mut(FACT_WORDS) {
            let count: u32 = row.iter().map(|word| word.count_ones()).sum();
            if count as usize == request.facts {
                row.fill(u64::MAX);
            }
        }
    })
}

/// A step taken again costs nothing.
fn repeats_free(request: &Request, right: &Answer) -> Answer {
    let is_done = right.numbers[0] == 0;
    if request.operation != Operation::Replay || !is_done {
        return right.clone();
    }
    let mut steps = request.tables.walk.lent().to_vec();
    steps.sort_unstable();
    steps.dedup();
    let costs = request.tables.costs.lent();
    let once = steps
        .iter()
        .map(|&step| u64::from(costs[usize::from(step)]));
    spoiled(right, |answer| answer.numbers[3] = once.sum())
}

/// What a step both sets and clears doesn't hold after it.
fn clears_win(request: &Request, right: &Answer) -> Answer {
    if request.operation != Operation::Replay || right.numbers[0] == 3 {
        return right.clone();
    }
    let mut changed = request.clone();
    let sets = changed.tables.sets.lent_mut().iter_mut();
    for (sets, clears) in sets.zip(request.tables.clears.lent()) {
        *sets &= !clears;
    }
    Answer {
        numbers: answer(&changed).numbers,
        tables: request.tables.clone(),
    }
}

/// A reading writes only the words that it has facts for.
fn words_left(request: &Request, right: &Answer) -> Answer {
    success_spoiled(request, right, Operation::Read, |answer| {
        let written = answer.tables.needs.lent_mut().iter_mut();
        for (word, before) in written.zip(request.tables.needs.lent()) {
            if *word == 0 {
                *word = *before;
            }
        }
    })
}

/// A reading takes it that start and goal have room.
fn start_not_asked(request: &Request, right: &Answer) -> Answer {
    if request.operation != Operation::Read {
        return right.clone();
    }
    judged_otherwise(request, right, 6, |changed| {
        lengthen(&mut changed.tables.start, FACT_WORDS);
        lengthen(&mut changed.tables.goal, FACT_WORDS);
    })
}

/// A reading finds that there is no room only when all records are judged.
fn room_asked_last(request: &Request, right: &Answer) -> Answer {
    if request.operation != Operation::Read {
        return right.clone();
    }
    let other = judged_otherwise(request, right, 6, |changed| {
        let tables = &mut changed.tables;
        for table in [&mut tables.needs, &mut tables.sets, &mut tables.clears] {
            lengthen(table, FACT_WORDS * MOST_STEPS);
        }
        lengthen(&mut tables.start, FACT_WORDS);
        lengthen(&mut tables.goal, FACT_WORDS);
        lengthen(&mut tables.costs, MOST_STEPS);
    });
    if other.numbers[0] == 0 {
        right.clone()
    } else {
        other
    }
}
