//! The kinds of tasks.

use super::sketch::{Sketch, Step};
use super::{Case, Costs, Dice, Order};
use crate::task::{MOST_FACTS, MOST_STEPS};

/// Two or three needs, one or two facts set; a hidden order keeps most facts reachable.
pub fn sparse(facts: usize, steps: usize, costs: Costs, order: Order, seed: u64) -> Case {
    let mut dice = Dice(seed);
    let hidden = dice.shuffled(facts);
    let started = (facts / 16).max(2);
    let window = (facts / 4).max(4);
    let mut made = vec![];
    for step in 0..steps {
        let target = hidden_target(step, facts, started, &mut dice);
        let mut needs = vec![];
        for _ in 0..2 + dice.below(2) {
            let low = target.saturating_sub(window);
            needs.push(match dice.below(10) < 9 {
                true => hidden[low + dice.below(target - low)],
                false => hidden[dice.below(facts)],
            });
        }
        let mut sets = vec![hidden[target]];
        if dice.below(2) == 0 {
            sets.push(hidden[dice.below(facts)]);
        }
        made.push(Step::new(&needs, &sets));
    }
    let sketch = Sketch {
        facts,
        steps: made,
        start: hidden[..started].to_vec(),
        goal: hidden[facts - 3..].to_vec(),
    };
    sketch.into_case("sparse", costs, order, seed)
}

/// The place in the hidden order of what a step sets: each place once, then any.
fn hidden_target(step: usize, facts: usize, started: usize, dice: &mut Dice) -> usize {
    match step < facts - started {
        true => started + step,
        false => started + dice.below(facts - started),
    }
}

/// Many needs and many facts set by each step.
pub fn dense(facts: usize, steps: usize, costs: Costs, order: Order, seed: u64) -> Case {
    let mut dice = Dice(seed);
    let hidden = dice.shuffled(facts);
    let started = (facts / 8).max(2);
    let width = (facts / 12).max(3);
    let mut made = vec![];
    for step in 0..steps {
        let target = hidden_target(step, facts, started, &mut dice);
        let (low, high) = (target / 2, facts.min(target + facts / 8));
        let count = width / 2 + dice.below(width);
        let needs: Vec<usize> = (0..count).map(|_| hidden[dice.below(target)]).collect();
        let mut sets = vec![hidden[target]];
        for _ in 0..width / 2 + dice.below(width) {
            sets.push(hidden[low + dice.below(high - low)]);
        }
        made.push(Step::new(&needs, &sets));
    }
    let sketch = Sketch {
        facts,
        steps: made,
        start: hidden[..started].to_vec(),
        goal: hidden[facts - 4..].to_vec(),
    };
    sketch.into_case("dense", costs, order, seed)
}

/// Layers of facts; a step needs two neighbours of a layer and sets one or two facts of the next.
pub fn grid(facts: usize, steps: usize, costs: Costs, order: Order, seed: u64) -> Case {
    let mut dice = Dice(seed);
    let width = if facts >= 128 { 16 } else { 4 };
    let last = facts / width - 1;
    let parallel = (steps / (last * width)).max(1);
    let mut made = vec![];
    for layer in 0..last {
        for place in (0..width).flat_map(|place| vec![place; parallel]) {
            let beside = (place + 1 + dice.below(2)) % width;
            let needs = [layer * width + place, layer * width + beside];
            let mut sets = vec![(layer + 1) * width + place];
            if dice.below(3) == 0 {
                sets.push((layer + 1) * width + dice.below(width));
            }
            made.push(Step::new(&needs, &sets));
        }
    }
    let sketch = Sketch {
        facts,
        steps: made,
        start: (0..width).collect(),
        goal: (last * width..last * width + 4).collect(),
    };
    sketch.into_case("grid", costs, order, seed)
}

/// A chain of facts with parallel steps for each link.
pub fn chain(facts: usize, steps: usize, costs: Costs, order: Order, seed: u64) -> Case {
    let parallel = (steps / (facts - 1)).max(1);
    let links = (1..facts).flat_map(|fact| vec![fact; parallel]);
    let sketch = Sketch {
        facts,
        steps: links.map(|fact| Step::new(&[fact - 1], &[fact])).collect(),
        start: vec![0],
        goal: vec![facts - 1],
    };
    sketch.into_case("chain", costs, order, seed)
}

/// A chain with dear jumps of every length, so that distances are lowered again and again.
pub fn ladder(facts: usize, order: Order) -> Case {
    let mut steps = vec![];
    for jump in 1..facts {
        let cost = if jump == 1 { 1 } else { 3 * jump };
        let jumps = (jump..facts).map(|to| Step::new(&[to - jump], &[to]).costing(cost));
        steps.extend(jumps);
    }
    steps.truncate(MOST_STEPS);
    chain_with_own_costs("ladder", facts, steps, order)
}

/// A cheap chain, and a dear step from its begin to every fact.
pub fn shortcut(facts: usize, order: Order) -> Case {
    let link = |fact: usize| Step::new(&[fact - 1], &[fact]).costing(1);
    let jump = |fact: usize| Step::new(&[0], &[fact]).costing(3 * fact);
    let steps = (1..facts).map(link).chain((1..facts).map(jump)).collect();
    chain_with_own_costs("shortcut", facts, steps, order)
}

/// A task from the first fact to the last; reversed, its facts are numbered from the other end too.
fn chain_with_own_costs(
    family: &'static str,
    facts: usize,
    steps: Vec<Step>,
    order: Order,
) -> Case {
    let sketch = Sketch {
        facts,
        steps,
        start: vec![0],
        goal: vec![facts - 1],
    };
    match order {
        Order::Reversed => sketch.mirrored(),
        _ => sketch,
    }
    .into_case(family, Costs::Given, order, 0)
}

/// Blocks to be stacked anew by one hand.
pub fn blocks(count: usize, costs: Costs, order: Order, seed: u64) -> Case {
    let mut dice = Dice(seed);
    let on = |block: usize, below: usize| block * count + below;
    let clear = |block: usize| count * count + block;
    let held = |block: usize| count * count + count + block;
    let hand = count * count + 2 * count;
    let mut steps = vec![];
    for x in 0..count {
        let lying = [clear(x), on(x, x), hand];
        steps.push(Step::new(&lying, &[held(x)]).clearing(&lying));
        steps.push(Step::new(&[held(x)], &lying).clearing(&[held(x)]));
        for y in (0..count).filter(|&y| y != x) {
            let stacked = [on(x, y), clear(x), hand];
            let lifted = [held(x), clear(y)];
            steps.push(Step::new(&lifted, &stacked).clearing(&lifted));
            steps.push(Step::new(&stacked, &lifted).clearing(&stacked));
        }
    }
    let first = dice.shuffled(count);
    let last = dice.shuffled(count);
    let tower = |order: &[usize]| -> Vec<usize> {
        let above = order.windows(2).map(|pair| on(pair[1], pair[0]));
        above.chain([on(order[0], order[0])]).collect()
    };
    let sketch = Sketch {
        facts: hand + 1,
        steps,
        start: [tower(&first), vec![clear(first[count - 1]), hand]].concat(),
        goal: tower(&last),
    };
    sketch.into_case("blocks", costs, order, seed)
}

/// Screens of a walk-up client, each opened from a few others, with entries picked up on the way.
pub fn client(facts: usize, steps: usize, costs: Costs, order: Order, seed: u64) -> Case {
    let mut dice = Dice(seed);
    let screens = facts / 2;
    let entries = facts - screens;
    let open = |from: usize, to: usize| Step::new(&[from], &[to]).clearing(&[from]);
    let mut made: Vec<Step> = (1..screens).map(|to| open(to - 1, to)).collect();
    for entry in screens..facts {
        made.push(Step::new(&[dice.below(screens)], &[entry]));
    }
    while made.len() < steps {
        let from = dice.below(screens - 1);
        let onward = (from + 1 + dice.below(3)).min(screens - 1);
        let mut needs = vec![from];
        for _ in 0..dice.below(3) {
            needs.push(screens + dice.below(entries));
        }
        let back = dice.below(3) == 0;
        let mut sets = vec![if back { dice.below(from + 1) } else { onward }];
        if dice.below(4) == 0 {
            sets.push(screens + dice.below(entries));
        }
        made.push(Step::new(&needs, &sets).clearing(&[from]));
    }
    let goal = vec![
        screens - 1,
        screens + dice.below(entries),
        screens + dice.below(entries),
    ];
    let sketch = Sketch {
        facts,
        steps: made,
        start: vec![0],
        goal,
    };
    sketch.into_case("client", costs, order, seed)
}

/// A small wild task: unreachable parts, steps without needs or sets, goals in the start.
pub fn wild(seed: u64) -> Case {
    let mut dice = Dice(seed);
    let facts = match dice.below(30) {
        0 => MOST_FACTS,
        1..=9 => 1 + dice.below(80),
        _ => 1 + dice.below(12),
    };
    let count = dice.below(4 * facts.min(80) + 2);
    let width = 2 + dice.below(4);
    let steps = (0..count)
        .map(|_| wild_step(facts, width, &mut dice))
        .collect();
    let sketch = Sketch {
        facts,
        steps,
        start: any_facts(facts, 3, &mut dice),
        goal: any_facts(facts, 3, &mut dice),
    };
    let costs = dice.one_of(&[Costs::Unit, Costs::Varied, Costs::Wide, Costs::Zeros]);
    sketch.into_case("wild", costs, Order::Made, seed)
}

/// A step with fewer needs and facts set than a width.
fn wild_step(facts: usize, width: usize, dice: &mut Dice) -> Step {
    let needs = any_facts(facts, width, dice);
    let sets = any_facts(facts, width, dice);
    Step::new(&needs, &sets).clearing(&any_facts(facts, 3, dice))
}

/// Fewer than so many facts, any of them.
fn any_facts(facts: usize, bound: usize, dice: &mut Dice) -> Vec<usize> {
    (0..dice.below(bound)).map(|_| dice.below(facts)).collect()
}
