//! A task as lists of numbers, one after another in memory.

use crate::sets::{members, FACT_WORDS};
use crate::task::Task;

/// Many lists: list i is `entries[bounds[i]..bounds[i + 1]]`.
#[derive(Default)]
pub struct Lists {
    bounds: Vec<u32>,
    entries: Vec<u16>,
}

impl Lists {
    /// The members of each set of a table.
    fn of_table(table: &[u64]) -> Lists {
        let count = table.len() / FACT_WORDS;
        let mut bounds = Vec::with_capacity(count + 1);
        let mut entries = Vec::with_capacity(4 * count);
        bounds.push(0);
        for set in table.chunks_exact(FACT_WORDS) {
            members(set).for_each(|fact| entries.push(fact as u16));
            bounds.push(entries.len() as u32);
        }
        Lists { bounds, entries }
    }

    /// The same pairs from the other side: for each number below a count, the lists that hold it.
    fn turned(&self, count: usize) -> Lists {
        let mut bounds = vec![0; count + 1];
        for &entry in &self.entries {
            bounds[usize::from(entry) + 1] += 1;
        }
        for number in 0..count {
            bounds[number + 1] += bounds[number];
        }
        let mut next = bounds.clone();
        let mut entries = vec![0; self.entries.len()];
        for list in 0..self.bounds.len() - 1 {
            for &entry in self.of(list as u16) {
                let place = &mut next[usize::from(entry)];
                entries[*place as usize] = list as u16;
                *place += 1;
            }
        }
        Lists { bounds, entries }
    }

    /// One of the lists.
    #[inline]
    pub fn of(&self, list: u16) -> &[u16] {
        let list = usize::from(list);
        &self.entries[self.bounds[list] as usize..self.bounds[list + 1] as usize]
    }

    /// How long each list is.
    fn lengths(&self) -> Vec<u16> {
        let pairs = self.bounds.windows(2);
        pairs.map(|pair| (pair[1] - pair[0]) as u16).collect()
    }
}

/// What each step needs and sets, and for each fact the steps that need it and that set it.
pub struct Network {
    pub needs: Lists,
    pub sets: Lists,
    pub needed_by: Lists,
    pub set_by: Lists,
    pub without_needs: Vec<u16>,
}

impl Network {
    /// The lists of a task, without the steps that set a fact.
    pub fn forward(task: &Task) -> Network {
        let needs = Lists::of_table(&task.needs);
        let needed_by = needs.turned(task.facts);
        let is_empty = |&step: &u16| needs.of(step).is_empty();
        let without_needs = (0..task.steps as u16).filter(is_empty).collect();
        Network {
            needs,
            sets: Lists::of_table(&task.sets),
            needed_by,
            set_by: Lists::default(),
            without_needs,
        }
    }

    /// All lists of a task.
    pub fn both_ways(task: &Task) -> Network {
        let network = Network::forward(task);
        let set_by = network.sets.turned(task.facts);
        Network { set_by, ..network }
    }

    /// How many needs each step has.
    pub fn need_counts(&self) -> Vec<u16> {
        self.needs.lengths()
    }
}
