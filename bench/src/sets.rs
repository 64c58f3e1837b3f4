//! Sets as words: member i is bit i mod 64 of word i div 64.

/// How many words a set of facts has.
pub const FACT_WORDS: usize = 4;

/// How many words a set of steps has.
pub const STEP_WORDS: usize = 16;

/// A set of facts.
pub type FactSet = [u64; FACT_WORDS];

/// A set of steps.
pub type StepSet = [u64; STEP_WORDS];

/// The set of facts whose four words stand at the front of a table.
pub fn fact_set(words: &[u64]) -> FactSet {
    [words[0], words[1], words[2], words[3]]
}

/// The facts numbered below a count.
pub fn first_facts(count: usize) -> FactSet {
    let mut set = [0; FACT_WORDS];
    (0..count).for_each(|fact| add(&mut set, fact));
    set
}

/// Whether a number is a member of a set.
pub fn has(set: &[u64], number: usize) -> bool {
    set[number / 64] >> (number % 64) & 1 == 1
}

/// Makes a number a member of a set.
pub fn add(set: &mut [u64], number: usize) {
    set[number / 64] |= 1 << (number % 64);
}

/// Whether all members of one set are members of another.
pub fn within(part: &[u64], whole: &[u64]) -> bool {
    part.iter().zip(whole).all(|(p, w)| p & !w == 0)
}

/// Adds the members of another set to a set.
pub fn join(set: &mut [u64], other: &[u64]) {
    set.iter_mut().zip(other).for_each(|(s, o)| *s |= o);
}

/// Removes what another set does not hold from a set.
pub fn meet(set: &mut [u64], other: &[u64]) {
    set.iter_mut().zip(other).for_each(|(s, o)| *s &= o);
}

/// The members of a set, lowest first.
pub fn members(set: &[u64]) -> Members<'_> {
    Members {
        words: set,
        at: 0,
        ones: set.first().copied().unwrap_or(0),
    }
}

/// Lists a set: the ones not yet listed of the word it stands at, and the words after it.
pub struct Members<'a> {
    words: &'a [u64],
    at: usize,
    ones: u64,
}

impl Iterator for Members<'_> {
    type Item = usize;

    /// The lowest member not yet listed.
    #[inline]
    fn next(&mut self) -> Option<usize> {
        while self.ones == 0 {
            self.at += 1;
            self.ones = *self.words.get(self.at)?;
        }
        let number = 64 * self.at + self.ones.trailing_zeros() as usize;
        self.ones &= self.ones - 1;
        Some(number)
    }

    /// All members that are left, in one loop for each word: what `for_each` and `max` go by.
    #[inline]
    fn fold<B, F: FnMut(B, usize) -> B>(self, first: B, mut join: F) -> B {
        let mut joined = first;
        let mut ones = self.ones;
        for at in self.at..self.words.len() {
            while ones != 0 {
                joined = join(joined, 64 * at + ones.trailing_zeros() as usize);
                ones &= ones - 1;
            }
            ones = self.words.get(at + 1).copied().unwrap_or(0);
        }
        joined
    }
}
