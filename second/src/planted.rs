//! Planted mistakes: reports that are wrong in one way each, to show that a
//! comparison finds such mistakes. Each takes the right parts and spoils one.

use crate::cuts::{arcs, before_zone, cut, farthest, zone, Arc, Choice, Cuts};
use crate::distance::{distance_of, distances};
use crate::equations::{all, pass, solve, union};
use crate::file::{body_length, judge, judge_records, HEAD, MOST_BYTES};
use crate::report::{findings, text, Findings, ROOM};
use crate::task::{Numbers, Refusal, Task, MOST_STEPS};

/// A wrong report and what is wrong with it.
pub struct Planted {
    pub mistake: &'static str,
    pub report: fn(&[u8]) -> String,
}

/// All planted mistakes.
#[rustfmt::skip]
pub const PLANTED: [Planted; 24] = [
    Planted { mistake: "must rows stopped after one pass", report: stopped_early },
    Planted { mistake: "must rows started from empty sets", report: started_empty },
    Planted { mistake: "all start facts on the must line", report: start_facts_must },
    Planted { mistake: "facts always set on the must line", report: always_set_must },
    Planted { mistake: "a cut's tail inside the zone", report: tail_inside },
    Planted { mistake: "a cut's tail not reachable from begin", report: tail_unreachable },
    Planted { mistake: "distances of needs added up", report: needs_added },
    Planted { mistake: "ties to the highest fact", report: highest_of_equals },
    Planted { mistake: "choices by the costs first given", report: first_choices },
    Planted { mistake: "first cut repeated", report: first_cut_repeated },
    Planted { mistake: "everything refused", report: all_refused },
    Planted { mistake: "empty lists and floor 0 always", report: nothing_found },
    Planted { mistake: "steps lose what they also clear", report: clears_win },
    Planted { mistake: "place of 12 off by one", report: |bytes| file_refused_late(bytes, 12) },
    Planted { mistake: "place of 15 off by one", report: |bytes| file_refused_late(bytes, 15) },
    Planted { mistake: "12 always at the file's length", report: broken_at_length },
    Planted { mistake: "13 before 12", report: out_of_place_first },
    Planted { mistake: "a byte after the end ignored", report: end_is_enough },
    Planted { mistake: "a second head accepted", report: second_head },
    Planted { mistake: "numbers with the highest byte first", report: highest_byte_first },
    Planted { mistake: "fact n accepted", report: fact_n },
    Planted { mistake: "16 left out", report: any_length },
    Planted { mistake: "16 already at 65,535 bytes", report: one_byte_less },
    Planted { mistake: "room for 1,024 steps", report: more_room },
];

/// The report of a file with the findings spoiled.
fn spoiled(bytes: &[u8], spoil: impl Fn(&Task, &mut Findings)) -> String {
    let answer = judge(bytes, ROOM).and_then(|task| {
        let mut findings = findings(&task)?;
        spoil(&task, &mut findings);
        Ok(findings)
    });
    text(answer)
}

/// The report of a file that is judged like this.
fn judged(judgement: Result<Task, Refusal>) -> String {
    text(judgement.and_then(|task| findings(&task)))
}

/// Must rows after the first pass from rows of all facts.
fn stopped_early(bytes: &[u8]) -> String {
    spoiled(bytes, |task, findings| {
        let rows = pass(task, &vec![all(task); task.facts]);
        findings.must = union(&task.goal, &rows);
    })
}

/// Must rows grown from empty sets: the least solution, not the largest.
fn started_empty(bytes: &[u8]) -> String {
    spoiled(bytes, |task, findings| {
        let rows = solve(task, vec![Numbers::new(); task.facts]);
        findings.must = union(&task.goal, &rows);
    })
}

/// Start facts are must-pass though a way does without them.
fn start_facts_must(bytes: &[u8]) -> String {
    spoiled(bytes, |task, findings| findings.must.extend(&task.start))
}

/// Facts that a must-pass step sets are must-pass though nothing needs them.
fn always_set_must(bytes: &[u8]) -> String {
    spoiled(bytes, |task, findings| {
        for &step in &findings.take {
            findings.must.extend(&task.steps[step].sets);
        }
    })
}

/// How a wrong round goes: its distances, its choices and its cut.
struct WrongRound {
    distances: fn(&Task, &[u32]) -> Vec<Option<u32>>,
    choose: fn(&Numbers, &[Option<u32>]) -> Choice,
    cut: fn(&Task, &[Arc]) -> Numbers,
}

/// A round in which nothing is wrong yet.
const RIGHT_ROUND: WrongRound = WrongRound {
    distances,
    choose: farthest,
    cut,
};

/// The report with the cuts of wrong rounds.
fn wrong_rounds(bytes: &[u8], wrong: WrongRound) -> String {
    spoiled(bytes, |task, findings| findings.cuts = wrong.cuts(task))
}

impl WrongRound {
    /// The cuts made in this way, until the goal is at distance 0 or a cut
    /// takes nothing off.
    fn cuts(&self, task: &Task) -> Cuts {
        let mut cuts = Cuts {
            left: task.costs(),
            ..Cuts::default()
        };
        loop {
            let distances = (self.distances)(task, &cuts.left);
            if distance_of(&task.goal, &distances) == Some(0) {
                return cuts;
            }
            let arcs = arcs(task, &cuts.left, |facts| (self.choose)(facts, &distances));
            cuts.add_round((self.cut)(task, &arcs));
            if cuts.rounds.last().is_some_and(|round| round.cost == 0) {
                return cuts;
            }
        }
    }
}

/// The steps of arcs into the zone that pass a test of their tail, given
/// whether it is in the zone and whether it is reachable before it.
fn cut_by(task: &Task, arcs: &[Arc], tail: fn(bool, bool) -> bool) -> Numbers {
    let zone = zone(task, arcs);
    let before = before_zone(task, arcs, &zone);
    let entering = arcs.iter().filter(|arc| zone[arc.to] && arc.cost > 0);
    let passing = entering.filter(|arc| tail(zone[arc.from], before[arc.from]));
    passing.filter_map(|arc| arc.step).collect()
}

/// A dear step within the zone belongs to the cut too.
fn tail_inside(bytes: &[u8]) -> String {
    let cut = |task: &Task, arcs: &[Arc]| cut_by(task, arcs, |inside, before| inside || before);
    wrong_rounds(bytes, WrongRound { cut, ..RIGHT_ROUND })
}

/// A step from beyond the zone back into it belongs to the cut too.
fn tail_unreachable(bytes: &[u8]) -> String {
    let cut = |task: &Task, arcs: &[Arc]| cut_by(task, arcs, |inside, _| !inside);
    wrong_rounds(bytes, WrongRound { cut, ..RIGHT_ROUND })
}

/// Distances in which a step's needs are added up.
fn added_distances(task: &Task, costs: &[u32]) -> Vec<Option<u32>> {
    let mut sums: Vec<Option<u32>> = vec![None; task.facts];
    task.start.iter().for_each(|&fact| sums[fact] = Some(0));
    loop {
        let before = sums.clone();
        for (step, &cost) in task.steps.iter().zip(costs) {
            let add = |sum: u32, &need: &usize| Some(sum.saturating_add(before[need]?));
            let Some(sum) = step.needs.iter().try_fold(cost, add) else {
                continue;
            };
            for &fact in &step.sets {
                sums[fact] = Some(sums[fact].map_or(sum, |known| known.min(sum)));
            }
        }
        if sums == before {
            return sums;
        }
    }
}

/// Choices by distances in which needs are added up.
fn needs_added(bytes: &[u8]) -> String {
    let wrong = WrongRound {
        distances: added_distances,
        ..RIGHT_ROUND
    };
    wrong_rounds(bytes, wrong)
}

/// The farthest of these facts, the highest of equals.
fn highest(facts: &Numbers, distances: &[Option<u32>]) -> Choice {
    match farthest(facts, distances) {
        Choice::Fact(lowest) => {
            let equal = |fact: &&usize| distances[**fact] == distances[lowest];
            let last = facts.iter().rev().find(equal);
            Choice::Fact(last.copied().unwrap_or(lowest))
        }
        other => other,
    }
}

/// Ties go to the highest fact.
fn highest_of_equals(bytes: &[u8]) -> String {
    let wrong = WrongRound {
        choose: highest,
        ..RIGHT_ROUND
    };
    wrong_rounds(bytes, wrong)
}

/// Choices stay those of the first round, by the costs as given.
fn first_choices(bytes: &[u8]) -> String {
    let given = |task: &Task, costs: &[u32]| {
        let present = distances(task, costs);
        if distance_of(&task.goal, &present) == Some(0) {
            present
        } else {
            distances(task, &task.costs())
        }
    };
    let wrong = WrongRound {
        distances: given,
        ..RIGHT_ROUND
    };
    wrong_rounds(bytes, wrong)
}

/// Every round has the first round's cut.
fn first_cut_repeated(bytes: &[u8]) -> String {
    spoiled(bytes, |_, findings| {
        let rounds = &mut findings.cuts.rounds;
        if let Some(first) = rounds.first().cloned() {
            rounds.fill(first);
        }
    })
}

/// Every file is refused.
fn all_refused(_: &[u8]) -> String {
    text(Err(Refusal::new(7)))
}

/// No fact, no step and no cut is found.
fn nothing_found(bytes: &[u8]) -> String {
    spoiled(bytes, |_, findings| {
        findings.must.clear();
        findings.take.clear();
        findings.cuts = Cuts::default();
    })
}

/// A fact that a step both sets and clears counts as not set.
fn clears_win(bytes: &[u8]) -> String {
    let judgement = judge(bytes, ROOM).map(|mut task| {
        for step in &mut task.steps {
            step.sets = &step.sets - &step.clears;
        }
        task
    });
    judged(judgement)
}

/// Refusals of this number have the next place.
fn file_refused_late(bytes: &[u8], number: u8) -> String {
    let late = |refusal: Refusal| {
        let off = usize::from(refusal.number == number);
        Refusal::at(refusal.number, refusal.place + off)
    };
    judged(judge(bytes, ROOM).map_err(late))
}

/// A broken record is told at the file's length.
fn broken_at_length(bytes: &[u8]) -> String {
    let at_length = |refusal: Refusal| match refusal.number {
        12 => Refusal::at(12, bytes.len()),
        _ => refusal,
    };
    judged(judge(bytes, ROOM).map_err(at_length))
}

/// A broken record that is also out of place is 13: told from the file with
/// that record made whole.
fn out_of_place_first(bytes: &[u8]) -> String {
    let judgement = judge(bytes, ROOM).map_err(|refusal| {
        let whole = [bytes, &[0; 4]].concat();
        match judge_records(&whole, ROOM) {
            Err(other) if refusal.number == 12 && other == Refusal::at(13, refusal.place) => other,
            _ => refusal,
        }
    });
    judged(judgement)
}

/// What stands after the end record isn't looked at.
fn end_is_enough(bytes: &[u8]) -> String {
    let judgement = judge(bytes, ROOM).or_else(|refusal| match refusal.number {
        13 => judge(&bytes[..refusal.place], ROOM).map_err(|_| refusal),
        _ => Err(refusal),
    });
    judged(judgement)
}

/// A second head is passed over.
fn second_head(bytes: &[u8]) -> String {
    let judgement = judge(bytes, ROOM).or_else(|refusal| {
        let place = refusal.place;
        if refusal.number != 13 || place == 0 || bytes[place] != HEAD {
            return Err(refusal);
        }
        let rest = bytes.get(place + 5..).unwrap_or_default();
        judge(&[&bytes[..place], rest].concat(), ROOM)
    });
    judged(judgement)
}

/// Numbers are read with their highest byte first.
fn highest_byte_first(bytes: &[u8]) -> String {
    let mut turned = bytes.to_vec();
    let mut place = 0;
    while let Some(length) = turned.get(place).and_then(|&kind| body_length(kind)) {
        let width = if turned[place] == HEAD { 2 } else { length };
        let Some(body) = turned.get_mut(place + 1..place + 1 + length) else {
            break;
        };
        body.chunks_mut(width.max(1)).for_each(<[u8]>::reverse);
        place += 1 + length;
    }
    judged(judge(&turned, ROOM))
}

/// A fact numbered n is taken for the fact before it.
fn fact_n(bytes: &[u8]) -> String {
    let mut changed = bytes.to_vec();
    loop {
        let judgement = judge(&changed, ROOM);
        let place = match judgement {
            Err(Refusal { number: 14, place }) => place,
            _ => return judged(judgement),
        };
        let (facts, fact) = (
            [changed[1], changed[2]],
            [changed[place + 1], changed[place + 2]],
        );
        if facts != fact {
            return judged(judgement);
        }
        let before = u16::from_le_bytes(fact) - 1;
        changed[place + 1..place + 3].copy_from_slice(&before.to_le_bytes());
    }
}

/// Files of any length are judged.
fn any_length(bytes: &[u8]) -> String {
    judged(judge_records(bytes, ROOM))
}

/// Files of the largest length are refused too.
fn one_byte_less(bytes: &[u8]) -> String {
    if bytes.len() < MOST_BYTES {
        judged(judge(bytes, ROOM))
    } else {
        text(Err(Refusal::at(16, MOST_BYTES)))
    }
}

/// There is room for all the steps that a task may have.
fn more_room(bytes: &[u8]) -> String {
    judged(judge(bytes, MOST_STEPS))
}
